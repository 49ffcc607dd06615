//! `compare WORD DIR`: every `*.json` listing in DIR through the proved library and through the original Rust.
//!
//! Prints each difference with the file's name, last `N listings, M differences`; exit status 0 only for 0 differences.
//! WORD: `leaves`, the reading layer function by function; `webs`, `splits`, `choose`, `recover_loops` and `recover_goto_loops`, those
//! calls with every lent word; `passes`, the goto pass, then the loop pass; `json`, the reader and writer on each text and on damaged
//! copies of it; `program`, what the web program prints on each text.

mod leaves;
mod lent;
mod numbers;
mod passes;
mod program;
mod texts;

use std::error::Error;
use std::fs;
use std::path::Path;
use std::process::ExitCode;

use oracle::json;
use oracle::pseudo::PseudoLine;

/// A comparison of a listing, or of the text of a file.
enum Comparison {
    Listing(fn(&[PseudoLine]) -> Vec<String>),
    Text(fn(&[u8]) -> Vec<String>),
}

fn main() -> Result<ExitCode, Box<dyn Error>> {
    let args: Vec<String> = std::env::args().skip(1).collect();
    let [word, dir] = args.as_slice() else { return Err("usage: compare WORD DIR".into()) };
    let differences: Comparison = match word.as_str() {
        "leaves" => Comparison::Listing(leaves::differences),
        "webs" => Comparison::Listing(numbers::webs),
        "splits" => Comparison::Listing(numbers::splits),
        "choose" => Comparison::Listing(numbers::choose),
        "recover_loops" => Comparison::Listing(passes::recover_loops),
        "recover_goto_loops" => Comparison::Listing(passes::recover_goto_loops),
        "passes" => Comparison::Listing(passes::passes),
        "json" => Comparison::Text(texts::differences),
        "program" => Comparison::Text(program::differences),
        _ => return Err(format!("{word}: the words are: leaves, webs, splits, choose, recover_loops, recover_goto_loops, passes, json, program").into()),
    };
    let (mut listings, mut lines, mut wrong) = (0, 0, 0);
    for file in json::files(Path::new(dir))? {
        let text = fs::read(&file)?;
        let found = match (&differences, json::read(&text)) {
            (Comparison::Text(differences), _) => differences(&text),
            (Comparison::Listing(differences), Ok(listing)) => {
                lines += listing.len();
                differences(&listing)
            }
            (Comparison::Listing(_), Err(why)) => vec![format!("no listing: {why}")],
        };
        listings += 1;
        wrong += usize::from(!found.is_empty());
        let name = file.file_name().expect("a file has a name").to_string_lossy().into_owned();
        found.iter().for_each(|d| println!("{name}: {d}"));
    }
    println!("{lines} lines");
    println!("{listings} listings, {wrong} differences");
    Ok(ExitCode::from(u8::from(wrong != 0)))
}
