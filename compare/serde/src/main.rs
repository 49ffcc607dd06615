//! The JSON reader and writer beside serde_json on the same texts, timed in one run, as a table in Markdown.

use std::hint::black_box;
use std::time::Instant;

use javrenzu::{Destination, Listing};
use oracle::columns::encode;
use oracle::generate::{listing, plausible, Kind};
use oracle::json;
use oracle::pseudo::PseudoLine;
use serde::{Deserialize, Serialize};

#[derive(Serialize, Deserialize)]
#[serde(rename_all = "lowercase")]
enum TokenKind {
    Text,
    Register,
    Number,
    Keyword,
    Symbol,
    Address,
    Punct,
    Prefix,
}

#[derive(Serialize, Deserialize)]
#[serde(deny_unknown_fields)]
struct Token {
    t: String,
    k: TokenKind,
}

#[derive(Serialize, Deserialize)]
#[serde(deny_unknown_fields)]
struct Line {
    address: Option<u64>,
    indent: u8,
    tokens: Vec<Token>,
}

/// Nanoseconds of one run: the least of several rounds of runs.
fn nanoseconds(mut run: impl FnMut()) -> f64 {
    let mut round = || {
        let (start, mut runs) = (Instant::now(), 0u32);
        while start.elapsed().as_millis() < 40 {
            run();
            runs += 1;
        }
        start.elapsed().as_nanos() as f64 / f64::from(runs)
    };
    (0..5).map(|_| round()).fold(f64::INFINITY, f64::min)
}

fn listings() -> Vec<(&'static str, Vec<PseudoLine>)> {
    let full = |index| listing(Kind::Full, 1, index);
    vec![("plausible", plausible(1, 10)), ("plausible", plausible(1, 180)), ("plausible", plausible(1, 850)), ("long texts", full(0)), ("damaged", full(1))]
}

fn main() {
    println!("\n## JSON\n\nThe library's reader and writer beside serde_json on the same text, into and out of the same shape.\n");
    println!("| listing | bytes of JSON | reading, library, GB/s | serde_json, GB/s | times faster | writing, library, GB/s | serde_json, GB/s | times faster |");
    println!("|---|---|---|---|---|---|---|---|");
    for (name, lines) in listings() {
        let (text, c) = (json::write(&lines), encode(&lines));
        let (mut l, mut a, mut t, mut x) = (vec![0; c.lines.len()], vec![0; c.lines.len()], vec![0; c.tokens.len()], vec![0; c.text.len()]);
        let own_read = nanoseconds(|| {
            let out = Destination { lines: &mut l, addresses: &mut a, tokens: &mut t, text: &mut x };
            black_box(javrenzu::read_json(&text, out)).expect("the text is a listing");
        });
        let serde_read = nanoseconds(|| _ = black_box(serde_json::from_slice::<Vec<Line>>(&text).expect("the text is a listing")));
        let mut out = vec![0; text.len()];
        let own_write = nanoseconds(|| {
            let listing = Listing { lines: &c.lines, tokens: &c.tokens, text: &c.text };
            black_box(javrenzu::write_json(listing, &c.addresses, &mut out)).expect("there is room");
        });
        let parsed: Vec<Line> = serde_json::from_slice(&text).expect("the text is a listing");
        let mut buffer = Vec::with_capacity(text.len());
        let serde_write = nanoseconds(|| {
            buffer.clear();
            serde_json::to_writer(&mut buffer, &parsed).expect("a vector takes every byte");
            black_box(&buffer);
        });
        let speed = |ns: f64| format!("{:.2}", text.len() as f64 / ns);
        let (read, write) = (serde_read / own_read, serde_write / own_write);
        println!(
            "| {name} | {} | {} | {} | {read:.1} | {} | {} | {write:.1} |",
            text.len(), speed(own_read), speed(serde_read), speed(own_write), speed(serde_write),
        );
    }
}
