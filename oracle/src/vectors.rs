//! Rows for the program `replay` (crates/replay), and the line that it is to print for each: the original's answer.
//!
//! A row is decimal numbers: the call, then for each of the columns lines, addresses, tokens and text its count and its words.

use crate::answers::{self, Choice, Webs};
use crate::columns::{decode, encode, Columns};
use crate::notation::listing;
use crate::passes::{self, Pass};
use crate::questions::{refuse_choose, refuse_pass, refuse_splits, working_space, Lent, LentEntries, MAX_LINES};

/// The calls; each stands in a row as its number.
#[derive(Debug, Clone, Copy, PartialEq, Eq)]
pub enum Call {
    Webs = 1,
    Splits = 2,
    Choose = 3,
    RecoverLoops = 4,
    RecoverGotoLoops = 5,
}

pub const CALLS: [Call; 5] = [Call::Webs, Call::Splits, Call::Choose, Call::RecoverLoops, Call::RecoverGotoLoops];

/// The longest columns that the program reads.
const ROOM: Lent = Lent { lines: MAX_LINES + 1, addresses: MAX_LINES + 1, tokens: 512, text: 4_096 };

/// The outputs that the program lends to the calls that number tokens.
const ENTRIES: LentEntries = LentEntries { numbers: 256, marks: 256 };

/// The working space that it lends is that of so many lines.
const SPACE_LINES: usize = 64;

/// The outputs that it lends to a pass.
const DESTINATION: Lent = Lent { lines: 64, addresses: 64, tokens: 1_024, text: 6_144 };

/// The row of a call: a line for the call, and one for each column.
pub fn row(call: Call, c: &Columns) -> String {
    let columns = [column(&c.lines), column(&c.addresses), column(&c.tokens), column(&c.text)];
    format!("{}\n{}", call as u8, columns.concat())
}

fn column<T: ToString>(of: &[T]) -> String {
    format!("{}{}\n", of.len(), words(of))
}

/// Each word with a blank before it.
fn words<T: ToString>(of: &[T]) -> String {
    of.iter().map(|w| format!(" {}", w.to_string())).collect()
}

/// The line that the program is to print.
pub fn answer(call: Call, c: &Columns) -> String {
    if c.lines.len() > ROOM.lines || c.addresses.len() > ROOM.addresses || c.tokens.len() > ROOM.tokens || c.text.len() > ROOM.text {
        return "too large".to_string();
    }
    let answer = match call {
        Call::Webs => webs(c),
        Call::Splits => splits(c),
        Call::Choose => choose(c),
        Call::RecoverLoops => pass(c, Pass::Loops),
        Call::RecoverGotoLoops => pass(c, Pass::GotoLoops),
    };
    answer.unwrap_or_else(|number| format!("refused {number}"))
}

/// The answer of a call, or the number of its refusal.
type Answer = Result<String, u8>;

fn asked(refusal: Option<u8>) -> Result<(), u8> {
    refusal.map_or(Ok(()), Err)
}

/// `SWEEPS: NUMBERS; MARKS`.
fn webs(c: &Columns) -> Answer {
    asked(refuse_choose(c, ENTRIES, working_space(SPACE_LINES)))?;
    answers::webs(&decode(c)).map(|w| entries(&w))
}

/// `splits 0: NUMBERS; MARKS`.
fn splits(c: &Columns) -> Answer {
    asked(refuse_splits(c, ENTRIES))?;
    Ok(format!("splits {}", entries(&answers::splits(&decode(c)))))
}

/// `webs SWEEPS: NUMBERS; MARKS`, or as `splits`.
fn choose(c: &Columns) -> Answer {
    asked(refuse_choose(c, ENTRIES, working_space(SPACE_LINES)))?;
    Ok(match answers::choose(&decode(c)) {
        Choice::Webs(w) => format!("webs {}", entries(&w)),
        Choice::Splits(w) => format!("splits {}", entries(&w)),
    })
}

/// `lines LINES; ADDRESSES; TOKENS; TEXT`.
fn pass(c: &Columns, pass: Pass) -> Answer {
    asked(refuse_pass(c, DESTINATION, pass))?;
    let out = encode(&passes::run(pass, &decode(c)).expect("question 6 was asked"));
    Ok(format!("lines{};{};{};{}", words(&out.lines), words(&out.addresses), words(&out.tokens), words(&out.text)))
}

fn entries(w: &Webs) -> String {
    format!("{}:{};{}", w.sweeps, words(&w.numbers), words(&w.marks))
}

/// Columns at the edges of questions 1 to 5 and of the program's room, on both sides.
pub fn edges() -> Vec<Columns> {
    let c = encode(&listing("0 int f()\n1 rax = 1;\n1 return rax;"));
    let with = |edit: fn(&mut Columns)| {
        let mut edited = c.clone();
        edit(&mut edited);
        edited
    };
    vec![
        with(|c| c.addresses[1] = u64::MAX),
        with(|c| c.lines.swap(0, 1)),
        with(|c| c.tokens.swap(0, 1)),
        with(|c| c.tokens.truncate(2)),
        with(|c| c.text.push(b'x')),
        with(|c| c.tokens[3] += 8 - c.tokens[3] % 256),
        with(|c| c.text[0] = 0xff),
        with(|c| c.text[3] = 0xc3),
        lines_of(0, ""),
        lines_of(MAX_LINES + 1, ""),
        lines_of(MAX_LINES, ""),
        lines_of(SPACE_LINES + 1, ""),
        lines_of(SPACE_LINES, "rax = 1;"),
        lines_of(1, &"[r|rax]".repeat(ENTRIES.numbers + 1)),
        lines_of(1, &"[r|rax]".repeat(ROOM.tokens + 1)),
    ]
}

/// Equal lines.
fn lines_of(count: usize, text: &str) -> Columns {
    encode(&listing(&format!("0 {text}\n").repeat(count)))
}

#[cfg(test)]
mod tests {
    use super::*;

    #[test]
    fn a_row_has_the_call_and_the_columns() {
        let c = encode(&listing("1 }\n0"));
        assert_eq!(row(Call::Webs, &c), "1\n2 513 512\n2 0 0\n1 262\n1 125\n");
        assert_eq!(answer(Call::Webs, &c), "refused 8");
    }

    #[test]
    fn edges_are_answered_by_their_question() {
        let answers: Vec<String> = edges().iter().map(|c| answer(Call::Webs, c)).collect();
        let starts: Vec<&str> = answers.iter().map(|a| a.split([':', ';']).next().expect("a split has a first part")).collect();
        let refused_2 = ["refused 2"; 5];
        assert_eq!(starts[0], "2");
        assert_eq!(starts[1..6], refused_2);
        assert_eq!(starts[6..10], ["refused 3", "refused 3", "refused 7", "refused 1"]);
        assert_eq!(starts[10..], ["refused 5", "refused 5", "2", "refused 4", "too large"]);
    }
}
