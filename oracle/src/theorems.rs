//! The reference answers of a listing as theorems about the definitions, in antt: one for each call, proved by computation; and what the strict
//! reader and the writer of `json` make of a text.

use std::fmt::Write;

use crate::answers::{self, Choice, Webs};
use crate::columns::KINDS;
use crate::json;
use crate::model::Token;
use crate::pseudo::PseudoLine;

/// What a file of theorems starts with.
pub const HEAD: &str = "\
use Rattle.std.specs.Prelude.{◌≡◌, refl, List, [], ◌∷◌}
use Rattle.std.specs.Prelude.{None, Some}
use Rattle.definitions.specs.Lists.{ascii}
use Rattle.definitions.specs.Model.{Line, tok, pseudo_line}
use Rattle.definitions.specs.Computed.{answer, loops_call, goto_loops_call, webs_call, splits_call, choose_call, refused, rewritten, by_webs, by_splits}
";

/// What a file of theorems about JSON starts with.
pub const JSON_HEAD: &str = "\
use Rattle.std.specs.Prelude.{◌≡◌, refl, List, [], ◌∷◌}
use Rattle.std.specs.Prelude.{None, Some}
use Rattle.definitions.specs.Lists.{ascii}
use Rattle.definitions.specs.Model.{tok, pseudo_line}
use Rattle.json_definitions.specs.Rows.{read_computed, write_computed}
";

/// So many damaged copies of each text are read.
const COPIES: usize = 5;

/// For a text and damaged copies of it the theorems `read_NUMBER_COPY`, what the definition reads of each, and where the text is a listing `write_NUMBER`,
/// what it writes of it.
pub fn of_text(number: usize, text: &[u8]) -> String {
    let mut out = String::new();
    for (k, copy) in json::copies(text, COPIES).enumerate() {
        let result = json::read(&copy).map_or("None".to_string(), |lines| format!("Some ({})", lines_term(&lines)));
        let _ = write!(out, "\nread_{number}_{k} : read_computed {} ≡ {result}\nunfolding read_computed\nread_{number}_{k} = refl\n", bytes_term(&copy));
    }
    if let Ok(lines) = json::read(text) {
        let written = bytes_term(&json::write(&lines));
        let _ = write!(out, "\nwrite_{number} : write_computed ({}) ≡ {written}\nunfolding write_computed\nwrite_{number} = refl\n", lines_term(&lines));
    }
    out
}

/// The listing under the name `listing_NUMBER`, and for each call the theorem `CALL_NUMBER` that the definitions answer as the original does.
pub fn of_listing(number: usize, lines: &[PseudoLine]) -> String {
    let listing = format!("listing_{number}");
    let mut out = format!("\nabbrev {listing} : List Line\n{listing} =\n    {}\n", lines_term(lines));
    for (call, result) in results(&listing, lines) {
        let _ = write!(out, "\n{call}_{number} : answer {call}_call {listing} ≡ {result}\nunfolding answer\n{call}_{number} = refl\n");
    }
    out
}

fn results(listing: &str, lines: &[PseudoLine]) -> [(&'static str, String); 5] {
    let pass = |answer: Result<Vec<PseudoLine>, u8>| match answer {
        Ok(after) if after == lines => format!("rewritten {listing}"),
        Ok(after) => format!("rewritten ({})", lines_term(&after)),
        Err(number) => format!("refused {number}"),
    };
    let by_splits = |w: &Webs| format!("by_splits ({})", numbered_term(w));
    let by_webs = |w: &Webs| format!("by_webs ({})", numbered_term(w));
    [
        ("loops", pass(answers::recover_loops(lines))),
        ("goto_loops", pass(answers::recover_goto_loops(lines))),
        ("webs", answers::webs(lines).map_or_else(|number| format!("refused {number}"), |w| by_webs(&w))),
        ("splits", by_splits(&answers::splits(lines))),
        ("choose", match answers::choose(lines) {
            Choice::Webs(w) => by_webs(&w),
            Choice::Splits(w) => by_splits(&w),
        }),
    ]
}

fn numbered_term(w: &Webs) -> String {
    let (numbers, marks) = (list(&w.numbers, u32::to_string), list(&w.marks, u8::to_string));
    format!("record {{ numbers = {numbers}; marks = {marks}; sweeps = {} }}", w.sweeps)
}

fn lines_term(lines: &[PseudoLine]) -> String {
    lines.iter().map(|l| line_term(l) + "\n    ∷ ").collect::<String>() + "[]"
}

fn line_term(l: &PseudoLine) -> String {
    let address = l.address.map_or("None".to_string(), |a| format!("(Some {a})"));
    format!("pseudo_line {address} {} {}", l.indent, list(&l.tokens, token_term))
}

fn token_term(t: &Token) -> String {
    let kind = KINDS.iter().position(|k| *k == t.k).expect("eight kinds");
    format!("tok {} {kind}", text_term(&t.t))
}

fn text_term(s: &str) -> String {
    bytes_term(s.as_bytes())
}

/// A text of plain characters in quotes, any other as the list of its bytes.
fn bytes_term(s: &[u8]) -> String {
    if s.iter().all(|b| matches!(b, b' '..=b'~')) {
        format!("(ascii \"{}\")", String::from_utf8_lossy(s).replace('\\', "\\\\").replace('"', "\\\""))
    } else {
        list(s, u8::to_string)
    }
}

fn list<T>(items: &[T], term: impl Fn(&T) -> String) -> String {
    let items: String = items.iter().map(|item| term(item) + " ∷ ").collect();
    format!("({items}[])")
}
