//! One call of each exported function, as C makes it, and what the oracle wants of it.

use javrenzu::library;
use javrenzu::working_space;
use oracle::answers::{self, Choice, Webs};
use oracle::columns::{decode, encode, Columns};
use oracle::json;
use oracle::passes::{self, Pass};
use oracle::pseudo::PseudoLine;
use oracle::questions::{refuse_choose, refuse_json_reader, refuse_json_writer, refuse_pass, refuse_splits, refuse_webs, LentEntries};
use oracle::random::Random;

use crate::inputs;
use crate::lent::{After, Lent, Word};

/// What a call came to: the refusal that is wanted, 0 for none, and what is wrong.
pub struct Outcome {
    pub refusal: u8,
    pub faults: Vec<String>,
}

type Call = fn(&mut Random, usize) -> Outcome;

pub const CALLS: [(&str, Call); 7] = [
    ("javrenzu_webs", webs),
    ("javrenzu_splits", splits),
    ("javrenzu_choose", choose),
    ("javrenzu_recover_loops", recover_loops),
    ("javrenzu_recover_goto_loops", recover_goto_loops),
    ("javrenzu_read_json", read_json),
    ("javrenzu_write_json", write_json),
];

/// The lent columns of a listing.
struct Input {
    lines: Lent<u32>,
    addresses: Lent<u64>,
    tokens: Lent<u32>,
    text: Lent<u8>,
}

impl Input {
    fn of(c: &Columns, r: &mut Random, guard: usize) -> Input {
        Input {
            lines: Lent::holding(&c.lines, r, guard),
            addresses: Lent::holding(&c.addresses, r, guard),
            tokens: Lent::holding(&c.tokens, r, guard),
            text: Lent::holding(&c.text, r, guard),
        }
    }

    fn faults(&self) -> impl Iterator<Item = String> {
        let columns = [
            self.lines.wrong("the listing's lines", After::AsBefore),
            self.addresses.wrong("its addresses", After::AsBefore),
            self.tokens.wrong("its tokens", After::AsBefore),
            self.text.wrong("its text", After::AsBefore),
        ];
        columns.into_iter().flatten()
    }
}

/// What an output is to hold: as before after a refusal by 1 to 5, zeros after another, else the words.
fn after<'a, W: Word, A>(want: &'a Result<A, u8>, words: impl FnOnce(&'a A) -> &'a [W]) -> After<'a, W> {
    match want {
        Ok(answer) => After::Filled(words(answer)),
        Err(1..=5) => After::AsBefore,
        Err(_) => After::Filled(&[]),
    }
}

/// The wanted refusal, and a fault where the answered one is another.
fn outcome<A>(want: &Result<A, u8>, refusal: usize, faults: impl Iterator<Item = String>) -> Outcome {
    let number = want.as_ref().err().copied().unwrap_or(0);
    let other = (refusal != usize::from(number)).then(|| format!("answers {refusal}, not {number}"));
    Outcome { refusal: number, faults: other.into_iter().chain(faults).collect() }
}

/// The lines of a listing whose addresses are not lent.
fn lines_of(c: &Columns) -> Vec<PseudoLine> {
    decode(&Columns { addresses: vec![0; c.lines.len()], ..c.clone() })
}

/// What the calls that number tokens fill.
struct Entries {
    numbers: Lent<u32>,
    marks: Lent<u8>,
}

impl Entries {
    /// Entries for a listing, and the working space of the calls that take one.
    fn with_space(c: &Columns, r: &mut Random, guard: usize) -> (Entries, Lent<u64>) {
        let [numbers, marks, space] = inputs::lengths(r, [c.tokens.len(), c.tokens.len(), working_space(c.lines.len())]);
        (Entries { numbers: Lent::random(numbers, r, guard), marks: Lent::random(marks, r, guard) }, Lent::random(space, r, guard))
    }

    fn lengths(&self) -> LentEntries {
        LentEntries { numbers: self.numbers.len(), marks: self.marks.len() }
    }

    fn faults(&self, want: &Result<Webs, u8>) -> impl Iterator<Item = String> {
        let entries = [self.numbers.wrong("numbers", after(want, |w| &w.numbers)), self.marks.wrong("marks", after(want, |w| &w.marks))];
        entries.into_iter().flatten()
    }
}

fn webs(r: &mut Random, guard: usize) -> Outcome {
    let c = inputs::columns(r);
    let (mut l, (mut e, mut space)) = (Input::of(&c, r, guard), Entries::with_space(&c, r, guard));
    let mut sweeps = Lent::<usize>::random(1, r, guard);
    let want = refuse_webs(&c, e.lengths(), space.len()).map_or_else(|| answers::webs(&lines_of(&c)), Err);
    // SAFETY: each pointer goes with the length of its slice, and no slice overlaps another.
    let refusal = unsafe {
        library::javrenzu_webs(
            l.lines.pointer(), l.lines.len(), l.tokens.pointer(), l.tokens.len(), l.text.pointer(), l.text.len(),
            e.numbers.pointer(), e.numbers.len(), e.marks.pointer(), e.marks.len(), space.pointer(), space.len(), sweeps.pointer(),
        )
    };
    let total = want.as_ref().map_or(0, |w| w.sweeps as usize);
    let own = [space.wrong("working space", after(&want, |_| &[])), sweeps.wrong("sweeps", After::Filled(&[total]))];
    outcome(&want, refusal, l.faults().chain(e.faults(&want)).chain(own.into_iter().flatten()))
}

fn splits(r: &mut Random, guard: usize) -> Outcome {
    let c = inputs::columns(r);
    let (mut l, (mut e, _)) = (Input::of(&c, r, guard), Entries::with_space(&c, r, guard));
    let want = refuse_splits(&c, e.lengths()).map_or_else(|| Ok(answers::splits(&lines_of(&c))), Err);
    // SAFETY: as in `webs`.
    let refusal = unsafe {
        library::javrenzu_splits(
            l.lines.pointer(), l.lines.len(), l.tokens.pointer(), l.tokens.len(), l.text.pointer(), l.text.len(),
            e.numbers.pointer(), e.numbers.len(), e.marks.pointer(), e.marks.len(),
        )
    };
    outcome(&want, refusal, l.faults().chain(e.faults(&want)))
}

fn choose(r: &mut Random, guard: usize) -> Outcome {
    let c = inputs::columns(r);
    let (mut l, (mut e, mut space)) = (Input::of(&c, r, guard), Entries::with_space(&c, r, guard));
    let (mut choice, mut sweeps) = (Lent::<usize>::random(1, r, guard), Lent::<usize>::random(1, r, guard));
    let (number, want) = match refuse_choose(&c, e.lengths(), space.len()).map_or_else(|| Ok(answers::choose(&lines_of(&c))), Err) {
        Ok(Choice::Webs(w)) => (1, Ok(w)),
        Ok(Choice::Splits(w)) => (2, Ok(w)),
        Err(refusal) => (0, Err(refusal)),
    };
    // SAFETY: as in `webs`.
    let refusal = unsafe {
        library::javrenzu_choose(
            l.lines.pointer(), l.lines.len(), l.tokens.pointer(), l.tokens.len(), l.text.pointer(), l.text.len(),
            e.numbers.pointer(), e.numbers.len(), e.marks.pointer(), e.marks.len(), space.pointer(), space.len(), choice.pointer(), sweeps.pointer(),
        )
    };
    let total = want.as_ref().map_or(0, |w| w.sweeps as usize);
    let own = [
        space.wrong("working space", after(&want, |_| &[])),
        choice.wrong("choice", After::Filled(&[number])),
        sweeps.wrong("sweeps", After::Filled(&[total])),
    ];
    outcome(&want, refusal, l.faults().chain(e.faults(&want)).chain(own.into_iter().flatten()))
}

/// The columns that a pass or the reader fills, and their counts.
struct Output {
    lines: Lent<u32>,
    addresses: Lent<u64>,
    tokens: Lent<u32>,
    text: Lent<u8>,
    counts: [Lent<usize>; 3],
}

impl Output {
    /// Columns of lengths around so many lines, tokens and bytes.
    fn around(n: usize, t: usize, x: usize, r: &mut Random, guard: usize) -> Output {
        let [lines, addresses, tokens, text] = inputs::lengths(r, [n, n, t, x]);
        Output {
            lines: Lent::random(lines, r, guard),
            addresses: Lent::random(addresses, r, guard),
            tokens: Lent::random(tokens, r, guard),
            text: Lent::random(text, r, guard),
            counts: [0; 3].map(|_| Lent::random(1, r, guard)),
        }
    }

    fn lengths(&self) -> oracle::questions::Lent {
        oracle::questions::Lent { lines: self.lines.len(), addresses: self.addresses.len(), tokens: self.tokens.len(), text: self.text.len() }
    }

    fn faults(&self, want: &Result<Columns, u8>) -> impl Iterator<Item = String> {
        let counts = want.as_ref().map_or([0; 3], |w| [w.lines.len(), w.tokens.len(), w.text.len()]);
        let columns = [
            self.lines.wrong("lines", after(want, |w| &w.lines)),
            self.addresses.wrong("addresses", after(want, |w| &w.addresses)),
            self.tokens.wrong("tokens", after(want, |w| &w.tokens)),
            self.text.wrong("text", after(want, |w| &w.text)),
        ];
        let counted = [0, 1, 2].map(|i| self.counts[i].wrong("a count", After::Filled(&[counts[i]])));
        columns.into_iter().chain(counted).flatten()
    }
}

/// A loop pass as C sees it.
type PassFunction = unsafe extern "C" fn(
    *const u32, usize, *const u64, usize, *const u32, usize, *const u8, usize,
    *mut u32, usize, *mut u64, usize, *mut u32, usize, *mut u8, usize, *mut usize, *mut usize, *mut usize,
) -> usize;

fn recover_loops(r: &mut Random, guard: usize) -> Outcome {
    pass(r, guard, Pass::Loops, library::javrenzu_recover_loops)
}

fn recover_goto_loops(r: &mut Random, guard: usize) -> Outcome {
    pass(r, guard, Pass::GotoLoops, library::javrenzu_recover_goto_loops)
}

fn pass(r: &mut Random, guard: usize, pass: Pass, function: PassFunction) -> Outcome {
    let c = inputs::columns(r);
    let n = c.lines.len();
    let (mut l, mut out) = (Input::of(&c, r, guard), Output::around(n, c.tokens.len() + 8 * n, c.text.len() + 32 * n, r, guard));
    let want = match refuse_pass(&c, out.lengths(), pass) {
        Some(number) => Err(number),
        None => Ok(encode(&passes::run(pass, &decode(&c)).expect("question 6 was asked"))),
    };
    let [nlines, ntokens, nbytes] = &mut out.counts;
    // SAFETY: as in `webs`.
    let refusal = unsafe {
        function(
            l.lines.pointer(), l.lines.len(), l.addresses.pointer(), l.addresses.len(), l.tokens.pointer(), l.tokens.len(),
            l.text.pointer(), l.text.len(), out.lines.pointer(), out.lines.len(), out.addresses.pointer(), out.addresses.len(),
            out.tokens.pointer(), out.tokens.len(), out.text.pointer(), out.text.len(), nlines.pointer(), ntokens.pointer(), nbytes.pointer(),
        )
    };
    outcome(&want, refusal, l.faults().chain(out.faults(&want)))
}

fn read_json(r: &mut Random, guard: usize) -> Outcome {
    let text = inputs::text(r);
    let read = json::read(&text).map(|lines| encode(&lines)).ok();
    let (n, t, x) = read.as_ref().map_or((r.below(9), r.below(40), r.below(99)), |c| (c.lines.len(), c.tokens.len(), c.text.len()));
    let (mut source, mut out) = (Lent::holding(&text, r, guard), Output::around(n, t, x, r, guard));
    let want = refuse_json_reader(&text, out.lengths()).map_or_else(|| Ok(read.expect("no question refuses")), Err);
    let [nlines, ntokens, nbytes] = &mut out.counts;
    // SAFETY: as in `webs`.
    let refusal = unsafe {
        library::javrenzu_read_json(
            source.pointer(), source.len(), out.lines.pointer(), out.lines.len(), out.addresses.pointer(), out.addresses.len(),
            out.tokens.pointer(), out.tokens.len(), out.text.pointer(), out.text.len(), nlines.pointer(), ntokens.pointer(), nbytes.pointer(),
        )
    };
    outcome(&want, refusal, source.wrong("the text", After::AsBefore).into_iter().chain(out.faults(&want)))
}

fn write_json(r: &mut Random, guard: usize) -> Outcome {
    let c = inputs::columns(r);
    let early = refuse_json_writer(&c, usize::MAX);
    let written = if early.is_none() { json::write(&decode(&c)) } else { Vec::new() };
    let [length] = inputs::lengths(r, [written.len()]);
    let (mut l, mut out, mut nbytes) = (Input::of(&c, r, guard), Lent::<u8>::random(length, r, guard), Lent::<usize>::random(1, r, guard));
    let want = early.or((length < written.len()).then_some(4)).map_or(Ok(written), Err);
    // SAFETY: as in `webs`.
    let refusal = unsafe {
        library::javrenzu_write_json(
            l.lines.pointer(), l.lines.len(), l.addresses.pointer(), l.addresses.len(), l.tokens.pointer(), l.tokens.len(),
            l.text.pointer(), l.text.len(), out.pointer(), out.len(), nbytes.pointer(),
        )
    };
    let count = want.as_ref().map_or(0, Vec::len);
    let own = [out.wrong("the text", after(&want, |w| w)), nbytes.wrong("its length", After::Filled(&[count]))];
    outcome(&want, refusal, l.faults().chain(own.into_iter().flatten()))
}
