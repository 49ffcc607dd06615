//! The loop passes beside the original: the answer, every column, and every lent word.

use javrenzu::{Counts, Destination, Listing, Refusal};
use oracle::columns::{decode, encode, Columns};
use oracle::passes::{run, Pass};
use oracle::pseudo::PseudoLine;
use oracle::questions::{refuse_pass, Lent};

use crate::lent::{expect, Words};

/// The destination as long as asked.
fn exact(c: &Columns) -> Lent {
    let n = c.lines.len();
    Lent { lines: n, addresses: n, tokens: c.tokens.len() + 8 * n, text: c.text.len() + 32 * n }
}

/// The lengths of the destination: as long as asked, longer, and each column one short.
fn lengths(c: &Columns) -> Vec<Lent> {
    let (n, exact) = (c.lines.len(), exact(c));
    let longer = Lent { lines: n + 2, addresses: n + 3, tokens: exact.tokens + 5, text: exact.text + 7 };
    let shorter = [
        Lent { lines: n.saturating_sub(1), ..exact },
        Lent { addresses: n.saturating_sub(1), ..exact },
        Lent { tokens: exact.tokens.saturating_sub(1), ..exact },
        Lent { text: exact.text.saturating_sub(1), ..exact },
    ];
    [exact, longer].into_iter().chain(shorter).collect()
}

/// A pass: the original's, and the library's.
struct Both {
    original: Pass,
    library: fn(Listing, &[u64], Destination) -> Result<Counts, Refusal>,
}

const LOOPS: Both = Both { original: Pass::Loops, library: javrenzu::recover_loops };
const GOTO_LOOPS: Both = Both { original: Pass::GotoLoops, library: javrenzu::recover_goto_loops };

fn differences(both: &Both, lines: &[PseudoLine]) -> Vec<String> {
    let c = encode(lines);
    let original = run(both.original, lines).map(|after| encode(&after)).ok_or(6);
    let called = |lent: Lent| {
        let early = refuse_pass(&c, lent, both.original).filter(|&n| n <= 4);
        let want = early.map_or(original.as_ref().map_err(|&n| n), Err);
        let (mut rows, mut places) = (Words::<u32>::lent(lent.lines), Words::<u64>::lent(lent.addresses));
        let (mut words, mut bytes) = (Words::<u32>::lent(lent.tokens), Words::<u8>::lent(lent.text));
        let out = Destination { lines: rows.slice(), addresses: places.slice(), tokens: words.slice(), text: bytes.slice() };
        let own = (both.library)(Listing { lines: &c.lines, tokens: &c.tokens, text: &c.text }, &c.addresses, out);
        let mut found = Vec::new();
        let counts = want.map(|w| Counts { lines: w.lines.len(), tokens: w.tokens.len(), text: w.text.len() });
        if own != counts {
            found.push(format!("answers {own:?}, not {counts:?}"));
        }
        let filled = |wanted: &dyn Fn(&Columns) -> Vec<u64>| match want {
            Ok(w) => Some(wanted(w)),
            Err(1..=4) => None,
            Err(_) => Some(Vec::new()),
        };
        expect(&mut found, "lines", &rows, filled(&|w| w.lines.iter().map(|&x| u64::from(x)).collect()));
        expect(&mut found, "addresses", &places, filled(&|w| w.addresses.clone()));
        expect(&mut found, "tokens", &words, filled(&|w| w.tokens.iter().map(|&x| u64::from(x)).collect()));
        expect(&mut found, "text", &bytes, filled(&|w| w.text.iter().map(|&x| u64::from(x)).collect()));
        found
    };
    lengths(&c).into_iter().flat_map(called).collect()
}

pub fn recover_loops(lines: &[PseudoLine]) -> Vec<String> {
    differences(&LOOPS, lines)
}

pub fn recover_goto_loops(lines: &[PseudoLine]) -> Vec<String> {
    differences(&GOTO_LOOPS, lines)
}

/// The columns that a pass of the library gives, lent what it asks.
fn after(pass: &Both, c: &Columns) -> Result<Columns, Refusal> {
    let Lent { lines, addresses, tokens, text } = exact(c);
    let mut out = Columns { lines: vec![7; lines], addresses: vec![7; addresses], tokens: vec![7; tokens], text: vec![7; text] };
    let lent = Destination { lines: &mut out.lines, addresses: &mut out.addresses, tokens: &mut out.tokens, text: &mut out.text };
    let counts = (pass.library)(Listing { lines: &c.lines, tokens: &c.tokens, text: &c.text }, &c.addresses, lent)?;
    out.lines.truncate(counts.lines);
    out.addresses.truncate(counts.lines);
    out.tokens.truncate(counts.tokens);
    out.text.truncate(counts.text);
    Ok(out)
}

/// The columns that the original gives, lent the same.
fn original(pass: Pass, c: &Columns) -> Result<Columns, Refusal> {
    refuse_pass(c, exact(c), pass).map_or_else(|| Ok(encode(&run(pass, &decode(c)).expect("question 6 was asked"))), Err)
}

/// Both passes as the tool runs them: the goto pass, then the loop pass on what it gave.
pub fn passes(lines: &[PseudoLine]) -> Vec<String> {
    let c = encode(lines);
    let own = after(&GOTO_LOOPS, &c).and_then(|c| after(&LOOPS, &c));
    let original = original(Pass::GotoLoops, &c).and_then(|c| original(Pass::Loops, &c));
    if own == original { Vec::new() } else { vec![format!("gives {own:?}, not {original:?}")] }
}
