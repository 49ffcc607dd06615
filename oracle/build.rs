//! Writes a copy of src/pseudo_ssa.rs in which each turn of the sweep loop of `recover` is counted.
//!
//! The original does not report how often it sweeps. The copy differs from the verbatim text in one place only, and the
//! build fails if that place is not found exactly once, so the count cannot drift from the text.

use std::path::Path;

const SOURCE: &str = "src/pseudo_ssa.rs";
const TURN: &str = "while changed {";

fn main() {
    println!("cargo:rerun-if-changed={SOURCE}");
    println!("cargo:rerun-if-changed=build.rs");
    let source = std::fs::read_to_string(SOURCE).expect("src/pseudo_ssa.rs can be read");
    assert_eq!(source.matches(TURN).count(), 1, "`{TURN}` must stand exactly once in {SOURCE}");
    // Inner doc comments cannot stand in an included file.
    let body: String = source.lines().filter(|l| !l.starts_with("//!")).map(|l| format!("{l}\n")).collect();
    let counted = body.replace(TURN, &format!("{TURN} crate::sweeps::count();"));
    let out = std::env::var("OUT_DIR").expect("cargo sets OUT_DIR");
    std::fs::write(Path::new(&out).join("pseudo_ssa_counted.rs"), counted).expect("OUT_DIR can be written");
}
