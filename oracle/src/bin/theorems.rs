//! `theorems DIR OUT`: for every `*.json` in DIR the reference answers as theorems, in files OUT/0.antt, OUT/1.antt, .. `theorems json DIR OUT`: what
//! the strict reader and the writer of JSON make of each text and of damaged copies.
//!
//! OUT/names has the listings' file names, line by line: the theorems of the listing on line N, counted from 0, end in `_N`.
//! OUT/large has the file names of listings with more lines than the checker computes all answers of; they have no theorem.
//! A file that is no listing is named on standard output with what is wrong, and has no theorem.

use std::error::Error;
use std::fs;
use std::path::{Path, PathBuf};

use oracle::{json, theorems};

/// Listings in one file of theorems: enough to share its start, few enough that a file is checked in seconds.
const PER_FILE: usize = 25;

/// Beyond so many lines the checker's steps do not suffice for every theorem.
const MOST_LINES: usize = 128;

fn main() -> Result<(), Box<dyn Error>> {
    let args: Vec<PathBuf> = std::env::args_os().skip(1).map(PathBuf::from).collect();
    match args.as_slice() {
        [dir, out] => of_listings(dir, out),
        [word, dir, out] if word.as_os_str() == "json" => of_texts(dir, out),
        _ => Err("usage: theorems [json] DIR OUT".into()),
    }
}

fn of_texts(dir: &Path, out: &Path) -> Result<(), Box<dyn Error>> {
    let files = json::files(dir)?;
    let name = |f: &PathBuf| f.file_name().expect("a file has a name").to_string_lossy().into_owned() + "\n";
    fs::write(out.join("names"), files.iter().map(name).collect::<String>())?;
    fs::write(out.join("large"), "")?;
    for (n, some) in files.chunks(PER_FILE).enumerate() {
        let mut text = theorems::JSON_HEAD.to_string();
        for (k, file) in some.iter().enumerate() {
            text += &theorems::of_text(n * PER_FILE + k, &fs::read(file)?);
        }
        fs::write(out.join(format!("{n}.antt")), text)?;
    }
    Ok(())
}

fn of_listings(dir: &Path, out: &Path) -> Result<(), Box<dyn Error>> {
    let (mut names, mut large) = (String::new(), String::new());
    let mut listings = Vec::new();
    for file in json::files(dir)? {
        let name = file.file_name().expect("a file has a name").to_string_lossy();
        match json::read(&fs::read(&file)?) {
            Ok(lines) if lines.len() > MOST_LINES => large += &format!("{name}\n"),
            Ok(lines) => {
                names += &format!("{name}\n");
                listings.push(lines);
            }
            Err(why) => println!("{name}: no listing: {why}"),
        }
    }
    fs::write(out.join("names"), names)?;
    fs::write(out.join("large"), large)?;
    for (n, some) in listings.chunks(PER_FILE).enumerate() {
        let text: String = some.iter().enumerate().map(|(k, lines)| theorems::of_listing(n * PER_FILE + k, lines)).collect();
        fs::write(out.join(format!("{n}.antt")), theorems::HEAD.to_string() + &text)?;
    }
    Ok(())
}
