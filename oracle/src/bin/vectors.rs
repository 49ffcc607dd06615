//! `vectors FILE STDIN STDOUT`: what the program `replay` reads and is to print, for every call on each listing of FILE and on columns
//! at the edges of the questions.
//!
//! The modules `notation` and `vectors` say how FILE and the two other files are written.

use std::error::Error;
use std::fs;

use oracle::columns::{encode, Columns};
use oracle::{notation, vectors};

fn main() -> Result<(), Box<dyn Error>> {
    let args: Vec<String> = std::env::args().skip(1).collect();
    let [file, stdin, stdout] = args.as_slice() else { return Err("usage: vectors FILE STDIN STDOUT".into()) };
    let listings = notation::listings(&fs::read_to_string(file)?);
    let all: Vec<Columns> = listings.iter().map(|(_, lines)| encode(lines)).chain(vectors::edges()).collect();
    let calls: Vec<_> = vectors::CALLS.iter().flat_map(|call| all.iter().map(|c| (*call, c))).collect();
    fs::write(stdin, calls.iter().map(|(call, c)| vectors::row(*call, c)).collect::<String>())?;
    fs::write(stdout, calls.iter().map(|(call, c)| vectors::answer(*call, c) + "\n").collect::<String>())?;
    Ok(())
}
