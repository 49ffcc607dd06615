//! What is lent: columns and JSON texts that are generated, damaged, random or at the limits, and lengths around a bound.

use oracle::columns::{encode, Columns, KINDS};
use oracle::generate::{listing, Kind};
use oracle::model::{Token, TokenKind};
use oracle::pseudo::PseudoLine;
use oracle::questions::{MAX_LINES, MAX_TEXT, MAX_TOKENS};
use oracle::random::Random;
use oracle::{json, notation};

/// Lengths around what is needed: all enough, or each by itself enough, one short, none, one, or half.
pub fn lengths<const N: usize>(r: &mut Random, needed: [usize; N]) -> [usize; N] {
    let enough = r.chance(50);
    needed.map(|needed| match if enough { r.below(14) } else { r.below(20) } {
        0..=10 => needed,
        11..=13 => needed + r.between(1, 40),
        14..=16 => needed.saturating_sub(1),
        17 => 0,
        18 => 1,
        _ => needed / 2,
    })
}

/// The columns of a listing, well formed or not.
pub fn columns(r: &mut Random) -> Columns {
    match r.below(100) {
        0..=44 => encode(&generated(r)),
        45..=64 => damaged(encode(&generated(r)), r),
        65..=74 => encode(&words(r)),
        75..=84 => noise(r),
        85..=94 => rising(r),
        95..=97 => at_limits(r),
        _ => damaged(at_limits(r), r),
    }
}

/// A listing of any kind, small ones most often.
fn generated(r: &mut Random) -> Vec<PseudoLine> {
    let kind = match r.below(1_000) {
        0 => Kind::Full,
        1..=9 => Kind::Scaled,
        10..=99 => Kind::Plausible,
        100..=249 => Kind::Damaged,
        250..=599 => Kind::Directed,
        _ => Kind::Tiny,
    };
    listing(kind, r.bits(), r.bits() % 1_000_000)
}

/// One to three words or bytes changed, or columns cut, grown or swapped about.
fn damaged(mut c: Columns, r: &mut Random) -> Columns {
    for _ in 0..r.between(1, 3) {
        match r.below(12) {
            0 | 1 => change(&mut c.lines, r, |w, bits| w ^ 1 << (bits % 32)),
            2 | 3 => change(&mut c.tokens, r, |w, bits| w ^ 1 << (bits % 32)),
            4 => change(&mut c.lines, r, |_, bits| bits as u32),
            5 => change(&mut c.tokens, r, |_, bits| bits as u32),
            6 | 7 => change(&mut c.text, r, |_, bits| bits as u8),
            8 => drop(c.tokens.pop()),
            9 => drop(c.lines.pop()),
            10 => c.text.push(r.bits() as u8),
            _ => c.addresses.push(r.bits()),
        }
    }
    c
}

fn change<W: Copy>(words: &mut [W], r: &mut Random, to: fn(W, u64) -> W) {
    if !words.is_empty() {
        let at = r.below(words.len());
        words[at] = to(words[at], r.bits());
    }
}

/// Lines and tokens that the calls look at, with kinds and indents that need not go with them.
fn words(r: &mut Random) -> Vec<PseudoLine> {
    const LINES: [&str; 16] = [
        "L1:", "L2:", "goto L1;", "goto L2;", "if (rax < 4) goto L2;", "if (rax < 4) {", "do {", "} while (rax < 4);", "while (rax < 4) {", "}", "} else {",
        "break;", "continue;", "rax = 1;", "rax++;", "g(&rax);",
    ];
    const TEXTS: [&str; 40] = [
        "", "if", "else", "do", "while", "for", "switch", "case", "default", "break", "continue", "goto", "return", " ", " (", ") {", ") ", ");", "{", "}", ":",
        ";", " = ", " += ", "++;", "--;", " == ", " && ", "(", "((void (*)())", "&", "1", "L1", "L2", "rax", "eax", "al", "rsp", "r8d", "var_8",
    ];
    let token = |r: &mut Random| Token { t: r.pick(&TEXTS).to_string(), k: r.pick(&KINDS) };
    let line = |r: &mut Random| {
        let tokens = if r.chance(70) { notation::tokens(r.pick(&LINES)) } else { (0..r.below(7)).map(|_| token(r)).collect() };
        PseudoLine { address: r.chance(50).then(|| r.bits()), indent: r.pick(&[0, 1, 1, 2, 2, 3, 254, 255]), tokens }
    };
    (0..r.below(12)).map(|_| line(r)).collect()
}

/// Random words and bytes in columns of any small lengths.
fn noise(r: &mut Random) -> Columns {
    let mut some = |most: usize| (0..r.below(most + 1)).map(|_| r.bits()).collect::<Vec<u64>>();
    let (lines, addresses, tokens, text) = (some(6), some(6), some(12), some(40));
    let small = |words: Vec<u64>| words.into_iter().map(|w| w as u32 >> (w >> 59)).collect();
    Columns { lines: small(lines), addresses, tokens: small(tokens), text: text.into_iter().map(|b| b as u8).collect() }
}

/// Columns whose ends rise and cover, with random kinds, indents and bytes, all of them ASCII or not.
fn rising(r: &mut Random) -> Columns {
    let (n, t, x) = (r.below(8), r.below(16), r.below(64));
    let mut ends = |count: usize, whole: usize| {
        let mut ends: Vec<u32> = (0..count).map(|_| r.below(whole + 1) as u32).collect();
        ends.sort_unstable();
        if let Some(last) = ends.last_mut() {
            *last = whole as u32;
        }
        ends
    };
    let (line_ends, token_ends) = (ends(n, t), ends(t, x));
    let most = r.pick(&[0x7f, 0x7f, 0xff]);
    Columns {
        lines: line_ends.iter().map(|end| end * 512 + (r.bits() % 512) as u32).collect(),
        addresses: (0..n).map(|_| r.bits()).collect(),
        tokens: token_ends.iter().map(|end| end * 256 + (r.bits() % 8) as u32).collect(),
        text: (0..x).map(|_| r.bits() as u8 & most).collect(),
    }
}

/// A count at a limit, one to either side, or far below.
fn around(r: &mut Random, limit: usize) -> usize {
    match r.below(8) {
        0 => limit - 1,
        1..=3 => limit,
        4 => limit + 1,
        _ => r.below(4),
    }
}

/// Columns as long as question 1 allows, one more, or short; the tokens are of the last line or spread over all, the text of the last token.
fn at_limits(r: &mut Random) -> Columns {
    let (n, t, x) = (around(r, MAX_LINES), around(r, MAX_TOKENS), around(r, MAX_TEXT));
    let spread = r.chance(50);
    let end = |i: usize, count: usize, whole: usize| match (i + 1 == count, spread) {
        (true, _) => whole as u32,
        (false, true) => ((i + 1) * whole / count) as u32,
        (false, false) => 0,
    };
    let text = r.pick(&["x", "rax", "\u{20ac}", "{", "}", "{}", " = "]).repeat(x);
    Columns {
        lines: (0..n).map(|i| end(i, n, t) * 512 + (r.bits() % 512) as u32).collect(),
        addresses: (0..n).map(|_| r.bits()).collect(),
        tokens: (0..t).map(|i| end(i, t, x) * 256 + (r.bits() % 8) as u32).collect(),
        text: text.bytes().take(x).collect(),
    }
}

/// A text for the JSON reader.
pub fn text(r: &mut Random) -> Vec<u8> {
    match r.below(100) {
        0..=24 => json::write(&generated(r)),
        25..=49 => loose(&generated(r), r),
        50..=69 => altered(loose(&generated(r), r), r),
        70..=79 => loose(&words(r), r),
        80..=84 => (0..r.below(80)).map(|_| r.bits() as u8).collect(),
        85..=89 => pieces(r),
        90..=96 => cut(json::write(&generated(r)), r),
        _ => limit_text(r),
    }
}

fn cut(mut text: Vec<u8>, r: &mut Random) -> Vec<u8> {
    text.truncate(r.below(text.len() + 1));
    text
}

/// One to three bytes changed, dropped or doubled.
fn altered(mut text: Vec<u8>, r: &mut Random) -> Vec<u8> {
    for _ in 0..r.between(1, 3) {
        let at = r.below(text.len().max(1));
        match r.below(4) {
            _ if text.is_empty() => text.push(r.bits() as u8),
            0 => text[at] = r.bits() as u8,
            1 => text[at] = r.pick(b"\"\\{}[]:,0123456789 u\n"),
            2 => _ = text.remove(at),
            _ => text.insert(at, text[at]),
        }
    }
    text
}

/// The listing as other writers might put it: with blanks, and letters of the tokens' texts escaped; now and then with a mistake.
fn loose(lines: &[PseudoLine], r: &mut Random) -> Vec<u8> {
    const MISTAKES: [&[u8]; 13] =
        [b"\\ud83d\\ude00", b"\\ud83d", b"\\ude00", b"\\x", b"\xff", b"\xc3", b"\n", b"-1", b"1.5", b"01", b"300", b",", b"null"];
    let source = json::write(lines);
    let mistake = if r.chance(20) { r.below(source.len()) } else { source.len() };
    let mut out = Vec::new();
    let (mut in_string, mut in_text, mut escaped) = (false, false, false);
    for (i, &byte) in source.iter().enumerate() {
        if i == mistake {
            out.extend(r.pick(&MISTAKES));
        }
        if byte == b'"' && !escaped {
            in_text = !in_string && source[..i].ends_with(b"\"t\":");
            in_string = !in_string;
        }
        match byte {
            b'a'..=b'z' if in_text && !escaped && r.chance(5) => out.extend(format!("\\u{byte:04X}").bytes()),
            _ => out.push(byte),
        }
        escaped = byte == b'\\' && !escaped;
        if !in_string && b"[]{}:,\"".contains(&byte) && r.chance(5) {
            out.push(r.pick(b" \t\n\r"));
        }
    }
    out
}

/// Pieces of JSON after one another.
fn pieces(r: &mut Random) -> Vec<u8> {
    const PIECES: [&str; 19] = [
        "[", "]", "{", "}", ",", ":", " ", "\"address\":", "\"indent\":", "\"tokens\":", "\"t\":", "\"k\":", "null", "0", "255", "256", "18446744073709551616",
        "\"punct\"", "\"\\u00e9\\n\"",
    ];
    (0..r.below(24)).flat_map(|_| r.pick(&PIECES).bytes()).collect()
}

/// As many lines, tokens or bytes as question 1 allows, or one to either side.
fn limit_text(r: &mut Random) -> Vec<u8> {
    let (n, t, x) = (around(r, MAX_LINES).max(1), around(r, MAX_TOKENS).max(1), around(r, MAX_TEXT));
    let line = PseudoLine { address: None, indent: 0, tokens: Vec::new() };
    let mut lines = vec![line; n];
    lines[0].tokens = vec![Token { t: String::new(), k: TokenKind::Text }; t];
    lines[0].tokens[0].t = "x".repeat(x);
    json::write(&lines)
}
