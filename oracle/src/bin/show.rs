//! `show FILE`: the listing in FILE as text, what the two loop passes make of it, and its webs or why there are none.

use std::error::Error;
use std::fs;

use oracle::answers;
use oracle::json;
use oracle::pseudo::PseudoLine;

fn main() -> Result<(), Box<dyn Error>> {
    let args: Vec<String> = std::env::args().skip(1).collect();
    let [file] = args.as_slice() else { return Err("usage: show FILE".into()) };
    let lines = json::read(&fs::read(file)?)?;
    println!("{}", text(&lines));
    show_pass("recover_goto_loops", &lines, answers::recover_goto_loops(&lines));
    show_pass("recover_loops", &lines, answers::recover_loops(&lines));
    show_webs(&lines);
    Ok(())
}

fn text(lines: &[PseudoLine]) -> String {
    let row = |l: &PseudoLine| {
        let tokens: String = l.tokens.iter().map(|t| t.t.as_str()).collect();
        format!("{}{tokens}\n", "    ".repeat(usize::from(l.indent)))
    };
    lines.iter().map(row).collect()
}

fn show_pass(name: &str, before: &[PseudoLine], after: Result<Vec<PseudoLine>, u8>) {
    match after {
        Ok(after) if after == before => println!("{name}: unchanged"),
        Ok(after) => println!("{name}:\n{}", text(&after)),
        Err(number) => println!("{name}: refused {number}"),
    }
}

fn show_webs(lines: &[PseudoLine]) {
    match answers::webs(lines) {
        Ok(webs) => print!("webs, after {} sweeps:\n{}", webs.sweeps, answers::rows(lines, &webs)),
        Err(number) => println!("webs: refused {number}"),
    }
}
