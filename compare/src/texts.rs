//! The JSON reader and writer beside the oracle's: a text and damaged copies of it, every column, the written text, and every lent word.

use javrenzu::{Counts, Destination, Listing};
use oracle::columns::{encode, Columns};
use oracle::json;
use oracle::questions::{refuse_json_reader, Lent, MAX_LINES, MAX_TEXT, MAX_TOKENS};

use crate::lent::{expect, Words};

/// So many damaged copies of each text are read.
const COPIES: usize = 20;

pub fn differences(text: &[u8]) -> Vec<String> {
    json::copies(text, COPIES).flat_map(|copy| read(&copy)).collect()
}

/// The reader with room for all, and with just enough; then the writer on what was read.
fn read(text: &[u8]) -> Vec<String> {
    let all = Lent { lines: MAX_LINES, addresses: MAX_LINES, tokens: MAX_TOKENS, text: MAX_TEXT };
    let (mut found, read) = read_into(text, all);
    if let Some(c) = read {
        let exact = Lent { lines: c.lines.len(), addresses: c.lines.len(), tokens: c.tokens.len(), text: c.text.len() };
        found.extend(read_into(text, exact).0);
        found.extend(read_into(text, Lent { text: exact.text.saturating_sub(1), ..exact }).0);
        found.extend(written(&c));
    }
    found
}

/// What differs, and the columns that the oracle reads where it accepts.
fn read_into(text: &[u8], lent: Lent) -> (Vec<String>, Option<Columns>) {
    let want = match refuse_json_reader(text, lent) {
        Some(number) => Err(number),
        None => Ok(encode(&json::read(text).expect("no question refuses"))),
    };
    let (mut rows, mut places) = (Words::<u32>::lent(lent.lines), Words::<u64>::lent(lent.addresses));
    let (mut words, mut bytes) = (Words::<u32>::lent(lent.tokens), Words::<u8>::lent(lent.text));
    let out = Destination { lines: rows.slice(), addresses: places.slice(), tokens: words.slice(), text: bytes.slice() };
    let own = javrenzu::read_json(text, out);
    let counts = want.as_ref().map(|w| Counts { lines: w.lines.len(), tokens: w.tokens.len(), text: w.text.len() }).map_err(|&n| n);
    let mut found = Vec::new();
    if own != counts {
        found.push(format!("reads {own:?}, not {counts:?}: {:?}", String::from_utf8_lossy(text)));
    }
    let read = want.ok();
    let filled = |wanted: &dyn Fn(&Columns) -> Vec<u64>| Some(read.as_ref().map_or(Vec::new(), wanted));
    expect(&mut found, "lines", &rows, filled(&|w| w.lines.iter().map(|&x| u64::from(x)).collect()));
    expect(&mut found, "addresses", &places, filled(&|w| w.addresses.clone()));
    expect(&mut found, "tokens", &words, filled(&|w| w.tokens.iter().map(|&x| u64::from(x)).collect()));
    expect(&mut found, "text", &bytes, filled(&|w| w.text.iter().map(|&x| u64::from(x)).collect()));
    (found, read)
}

/// The writer, lent as many bytes as the text takes, more, and one fewer.
fn written(c: &Columns) -> Vec<String> {
    let want = json::write(&oracle::columns::decode(c));
    let mut found = Vec::new();
    for length in [want.len(), want.len() + 9, want.len() - 1] {
        let fits = length >= want.len();
        let mut lent = Words::<u8>::lent(length);
        let own = javrenzu::write_json(Listing { lines: &c.lines, tokens: &c.tokens, text: &c.text }, &c.addresses, lent.slice());
        if own != if fits { Ok(want.len()) } else { Err(4) } {
            found.push(format!("writes {own:?}, not {}", want.len()));
        }
        expect(&mut found, "written text", &lent, fits.then(|| want.iter().map(|&b| u64::from(b)).collect()));
    }
    found
}
