//! `notation FILE DIR`: the listings of FILE as JSON files in DIR, made if missing.
//!
//! The module of that name says how FILE is written; its listing NAME becomes DIR/NAME.json.

use std::error::Error;
use std::fs;
use std::path::PathBuf;

use oracle::{json, notation};

fn main() -> Result<(), Box<dyn Error>> {
    let args: Vec<PathBuf> = std::env::args_os().skip(1).map(PathBuf::from).collect();
    let [file, dir] = args.as_slice() else { return Err("usage: notation FILE DIR".into()) };
    fs::create_dir_all(dir)?;
    for (name, lines) in notation::listings(&fs::read_to_string(file)?) {
        fs::write(dir.join(format!("{name}.json")), json::write(&lines))?;
    }
    Ok(())
}
