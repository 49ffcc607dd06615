//! The calls that number tokens beside the original, webs, splits and the chooser: the answer, every number and mark, and every lent word.

use javrenzu::{working_space, Chosen, Listing};
use oracle::answers::{self, Choice, Webs};
use oracle::columns::{encode, Columns};
use oracle::pseudo::PseudoLine;
use oracle::questions::{refuse_choose, refuse_splits, LentEntries};

use crate::lent::{expect, Words};

/// The lengths of what is lent: as long as asked, longer, and each one short.
fn lengths(c: &Columns) -> [(LentEntries, usize); 5] {
    let (tokens, space) = (c.tokens.len(), working_space(c.lines.len()));
    let entries = |numbers, marks| LentEntries { numbers, marks };
    let shorter = tokens.saturating_sub(1);
    [
        (entries(tokens, tokens), space),
        (entries(tokens + 3, tokens + 5), space + 7),
        (entries(tokens, tokens), space - 1),
        (entries(shorter, tokens), space),
        (entries(tokens, shorter), space),
    ]
}

/// What is lent to a call.
struct Lent {
    numbers: Words<u32>,
    marks: Words<u8>,
    space: Words<u64>,
}

impl Lent {
    fn of(lent: LentEntries, space: usize) -> Lent {
        Lent { numbers: Words::lent(lent.numbers), marks: Words::lent(lent.marks), space: Words::lent(space) }
    }

    /// Where the lent words are not those of the answer: nothing may be written after 1 to 5, all is zero after other refusals, and behind
    /// the entries of an answer. The space is not lent to splits.
    fn differences(&self, want: Result<&Webs, u8>, space_lent: bool) -> Vec<String> {
        let mut found = Vec::new();
        let filled = |wanted: &dyn Fn(&Webs) -> Vec<u64>| match want {
            Ok(w) => Some(wanted(w)),
            Err(1..=5) => None,
            Err(_) => Some(Vec::new()),
        };
        expect(&mut found, "numbers", &self.numbers, filled(&|w| w.numbers.iter().map(|&n| u64::from(n)).collect()));
        expect(&mut found, "marks", &self.marks, filled(&|w| w.marks.iter().map(|&n| u64::from(n)).collect()));
        expect(&mut found, "working space", &self.space, if space_lent { filled(&|_| Vec::new()) } else { None });
        found
    }
}

fn listing(c: &Columns) -> Listing<'_> {
    Listing { lines: &c.lines, tokens: &c.tokens, text: &c.text }
}

/// Adds a line where the answers differ.
fn answers_differ<A: PartialEq + std::fmt::Debug>(found: &mut Vec<String>, own: A, want: A) {
    if own != want {
        found.push(format!("answers {own:?}, not {want:?}"));
    }
}

pub fn webs(lines: &[PseudoLine]) -> Vec<String> {
    let c = encode(lines);
    let original = answers::webs(lines);
    let called = |(lent, space)| {
        let want = refuse_choose(&c, lent, space).map_or(original.as_ref().map_err(|&n| n), Err);
        let mut l = Lent::of(lent, space);
        let own = javrenzu::webs(listing(&c), l.numbers.slice(), l.marks.slice(), l.space.slice());
        let mut found = l.differences(want, true);
        answers_differ(&mut found, own, want.map(|w| w.sweeps as usize));
        found
    };
    lengths(&c).into_iter().flat_map(called).collect()
}

pub fn splits(lines: &[PseudoLine]) -> Vec<String> {
    let c = encode(lines);
    let original = answers::splits(lines);
    let called = |(lent, space)| {
        let want = refuse_splits(&c, lent).map_or(Ok(&original), Err);
        let mut l = Lent::of(lent, space);
        let own = javrenzu::splits(listing(&c), l.numbers.slice(), l.marks.slice());
        let mut found = l.differences(want, false);
        answers_differ(&mut found, own, want.map(|_| ()));
        found
    };
    lengths(&c).into_iter().flat_map(called).collect()
}

pub fn choose(lines: &[PseudoLine]) -> Vec<String> {
    let c = encode(lines);
    let original = answers::choose(lines);
    let (Choice::Webs(entries) | Choice::Splits(entries)) = &original;
    let chosen = if matches!(original, Choice::Webs(_)) { Chosen::Webs(entries.sweeps as usize) } else { Chosen::Splits };
    let called = |(lent, space)| {
        let want = refuse_choose(&c, lent, space).map_or(Ok(entries), Err);
        let mut l = Lent::of(lent, space);
        let own = javrenzu::choose(listing(&c), l.numbers.slice(), l.marks.slice(), l.space.slice());
        let mut found = l.differences(want, true);
        answers_differ(&mut found, own, want.map(|_| chosen));
        found
    };
    lengths(&c).into_iter().flat_map(called).collect()
}
