//! The web program itself beside the original: what it prints on a text, byte for byte.

use std::io::Write;
use std::process::{Command, Stdio};

use oracle::answers;
use oracle::json;
use oracle::questions::{refuse_json_reader, Lent};

/// The program that `tools/build webs_main` writes.
const PROGRAM: &str = concat!(env!("CARGO_MANIFEST_DIR"), "/../target/bin/webs_main");

/// What the program takes and lends.
const MOST_INPUT: usize = 32_768;
const ROOM: Lent = Lent { lines: 64, addresses: 64, tokens: 1_024, text: 8_192 };

pub fn differences(text: &[u8]) -> Vec<String> {
    let (own, want) = (printed(text), expected(text));
    if own == want.as_bytes() {
        return Vec::new();
    }
    vec![format!("prints {:?}, not {want:?}", String::from_utf8_lossy(&own))]
}

fn expected(text: &[u8]) -> String {
    if text.len() > MOST_INPUT || refuse_json_reader(text, ROOM).is_some() {
        return "refused 10\n".into();
    }
    let lines = json::read(text).expect("no question refuses");
    answers::webs(&lines).map_or_else(|number| format!("refused {number}\n"), |webs| answers::rows(&lines, &webs))
}

fn printed(text: &[u8]) -> Vec<u8> {
    let mut program = Command::new(PROGRAM).stdin(Stdio::piped()).stdout(Stdio::piped()).spawn().expect("target/bin/webs_main is there");
    // The program need not read a text to its end, so a broken pipe is no failure.
    let _ = program.stdin.take().expect("it was asked for").write_all(text);
    program.wait_with_output().expect("the program ends").stdout
}
