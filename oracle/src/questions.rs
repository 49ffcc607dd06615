//! The questions of document 01, in its order, and each call's refusal: the number of the first question answered no.
//!
//! Written from document 01 alone, apart from question 6, which asks the original itself.

use std::collections::HashSet;

use crate::columns::{decode, Columns};
use crate::json;
use crate::model::{Token, TokenKind};
use crate::passes::{self, Pass};
use crate::pseudo::PseudoLine;

pub const MAX_LINES: usize = 1_024;
pub const MAX_TOKENS: usize = 16_384;
pub const MAX_TEXT: usize = 262_144;

/// The lengths of a lent destination for a listing.
#[derive(Debug, Clone, Copy, PartialEq, Eq)]
pub struct Lent {
    pub lines: usize,
    pub addresses: usize,
    pub tokens: usize,
    pub text: usize,
}

/// The lengths of the lent outputs of the web, split and choosing calls.
#[derive(Debug, Clone, Copy, PartialEq, Eq)]
pub struct LentEntries {
    pub numbers: usize,
    pub marks: usize,
}

/// Whether a call takes the column of addresses: the passes and the JSON writer do, webs and splits do not.
#[derive(Debug, Clone, Copy, PartialEq, Eq)]
pub enum Addresses {
    Taken,
    NotTaken,
}

/// Question 1: at most 1,024 lines, 16,384 tokens, 262,144 text bytes?
pub fn question_1(c: &Columns) -> bool {
    c.lines.len() <= MAX_LINES && c.tokens.len() <= MAX_TOKENS && c.text.len() <= MAX_TEXT
}

/// Question 2: do line records cover the tokens, and tokens the text, in order without gap, kinds at most 7?
pub fn question_2(c: &Columns, addresses: Addresses) -> bool {
    let line_ends = c.lines.iter().map(|w| (w / 512) as usize);
    let token_ends = c.tokens.iter().map(|w| (w / 256) as usize);
    covers(line_ends, c.tokens.len())
        && covers(token_ends, c.text.len())
        && c.tokens.iter().all(|w| w % 256 <= 7)
        && (addresses == Addresses::NotTaken || c.addresses.len() == c.lines.len())
}

/// Whether the ends never fall and the last is `length` (0 where there is none).
fn covers(ends: impl Iterator<Item = usize>, length: usize) -> bool {
    let mut at = 0;
    for end in ends {
        if end < at {
            return false;
        }
        at = end;
    }
    at == length
}

/// Question 3: is each token's text UTF-8 (RFC 3629)?
pub fn question_3(c: &Columns) -> bool {
    let mut start = 0;
    c.tokens.iter().all(|w| {
        let end = (w / 256) as usize;
        let valid = std::str::from_utf8(&c.text[start..end]).is_ok();
        start = end;
        valid
    })
}

/// Question 4 of the passes: lines, tokens + 8 × lines, text + 32 × lines.
pub fn question_4_pass(c: &Columns, lent: Lent) -> bool {
    let n = c.lines.len();
    lent.lines >= n && lent.addresses >= n && lent.tokens >= c.tokens.len() + 8 * n && lent.text >= c.text.len() + 32 * n
}

/// Question 4 of webs, splits and the chooser: one entry per token.
pub fn question_4_entries(c: &Columns, lent: LentEntries) -> bool {
    lent.numbers >= c.tokens.len() && lent.marks >= c.tokens.len()
}

/// Question 4 of the JSON writer: the exact text.
pub fn question_4_json(c: &Columns, lent: usize) -> bool {
    lent >= json::write(&decode(c)).len()
}

/// The working space of webs and chooser for n lines, in words of 64 bits.
pub fn working_space(n: usize) -> usize {
    4 * n * n.div_ceil(64) + 8 * n + 64
}

/// Question 5: is the working space long enough?
pub fn question_5(c: &Columns, space: usize) -> bool {
    space >= working_space(c.lines.len())
}

/// Question 6: does every indent that the original works out stay in 0 to 255?
pub fn question_6(lines: &[PseudoLine], pass: Pass) -> bool {
    passes::run(pass, lines).is_some()
}

/// Question 7: two lines or more?
pub fn question_7(lines: &[PseudoLine]) -> bool {
    lines.len() >= 2
}

/// Question 8: does every brace match? Only braces in punct tokens count.
pub fn question_8(lines: &[PseudoLine]) -> bool {
    let puncts = lines.iter().flat_map(|l| &l.tokens).filter(|t| t.k == TokenKind::Punct);
    let mut open = 0u32;
    for byte in puncts.flat_map(|t| t.t.bytes()) {
        match byte {
            b'{' => open += 1,
            b'}' if open == 0 => return false,
            b'}' => open -= 1,
            _ => {}
        }
    }
    open == 0
}

/// Question 9: has every goto keyword a symbol after it, the first of which names a label?
pub fn question_9(lines: &[PseudoLine]) -> bool {
    let labels: HashSet<&str> = lines.iter().filter_map(label_name).collect();
    lines.iter().all(|l| gotos_resolve(&l.tokens, &labels))
}

/// The name of a label line: two tokens, a symbol and the text `:`.
fn label_name(l: &PseudoLine) -> Option<&str> {
    match l.tokens.as_slice() {
        [name, colon] if name.k == TokenKind::Symbol && colon.t == ":" => Some(&name.t),
        _ => None,
    }
}

/// Whether each goto of a line has a target among the labels, going from the last token to the first.
fn gotos_resolve(tokens: &[Token], labels: &HashSet<&str>) -> bool {
    let mut next_symbol = None;
    for t in tokens.iter().rev() {
        if t.k == TokenKind::Keyword && t.t == "goto" && !next_symbol.is_some_and(|s| labels.contains(s)) {
            return false;
        }
        if t.k == TokenKind::Symbol {
            next_symbol = Some(t.t.as_str());
        }
    }
    true
}

/// The first of the questions answered no; a later one is not asked.
fn first_no(questions: &[(u8, &dyn Fn() -> bool)]) -> Option<u8> {
    questions.iter().find(|(_, yes)| !yes()).map(|&(number, _)| number)
}

/// Questions 1 to 3, of every call that takes a listing.
fn refuse_listing(c: &Columns, addresses: Addresses) -> Option<u8> {
    first_no(&[(1, &|| question_1(c)), (2, &|| question_2(c, addresses)), (3, &|| question_3(c))])
}

/// The refusal of a loop pass.
pub fn refuse_pass(c: &Columns, lent: Lent, pass: Pass) -> Option<u8> {
    let own: [(u8, &dyn Fn() -> bool); 2] = [(4, &|| question_4_pass(c, lent)), (6, &|| question_6(&decode(c), pass))];
    refuse_listing(c, Addresses::Taken).or_else(|| first_no(&own))
}

/// The refusal of the web call.
pub fn refuse_webs(c: &Columns, lent: LentEntries, space: usize) -> Option<u8> {
    refuse_choose(c, lent, space).or_else(|| refuse_lines(&decode_lines(c)))
}

/// Questions 7 to 9, of a listing that is decoded already.
pub fn refuse_lines(lines: &[PseudoLine]) -> Option<u8> {
    first_no(&[(7, &|| question_7(lines)), (8, &|| question_8(lines)), (9, &|| question_9(lines))])
}

/// The refusal of the split call.
pub fn refuse_splits(c: &Columns, lent: LentEntries) -> Option<u8> {
    refuse_listing(c, Addresses::NotTaken).or_else(|| first_no(&[(4, &|| question_4_entries(c, lent))]))
}

/// The refusal of the chooser.
pub fn refuse_choose(c: &Columns, lent: LentEntries, space: usize) -> Option<u8> {
    refuse_splits(c, lent).or_else(|| first_no(&[(5, &|| question_5(c, space))]))
}

/// The refusal of the JSON writer.
pub fn refuse_json_writer(c: &Columns, lent: usize) -> Option<u8> {
    refuse_listing(c, Addresses::Taken).or_else(|| first_no(&[(4, &|| question_4_json(c, lent))]))
}

/// The refusal of the JSON reader, by question 10: RFC 8259, the given shape, within question 1 and the lent destination?
pub fn refuse_json_reader(bytes: &[u8], lent: Lent) -> Option<u8> {
    let fits = |lines: &Vec<PseudoLine>| {
        let tokens: usize = lines.iter().map(|l| l.tokens.len()).sum();
        let text: usize = lines.iter().flat_map(|l| &l.tokens).map(|t| t.t.len()).sum();
        lines.len() <= lent.lines && lines.len() <= lent.addresses && tokens <= lent.tokens && text <= lent.text
    };
    (!json::read(bytes).is_ok_and(|lines| fits(&lines))).then_some(10)
}

/// The lines of columns whose addresses are not taken and may have any length.
fn decode_lines(c: &Columns) -> Vec<PseudoLine> {
    let addresses = vec![0; c.lines.len()];
    decode(&Columns { addresses, ..c.clone() })
}

#[cfg(test)]
mod tests {
    use super::*;
    use crate::columns::encode;
    use crate::notation::listing;

    const PLENTY: Lent = Lent { lines: 100, addresses: 100, tokens: 1_000, text: 1_000 };
    const ENTRIES: LentEntries = LentEntries { numbers: 1_000, marks: 1_000 };

    #[test]
    fn questions_are_asked_in_order() {
        let mut c = encode(&listing("0 int f()\n0 {\n0 }\n0 goto L;"));
        assert_eq!(refuse_webs(&c, ENTRIES, 1_000), Some(9));
        assert_eq!(refuse_webs(&c, ENTRIES, working_space(4) - 1), Some(5));
        assert_eq!(refuse_choose(&c, ENTRIES, working_space(4)), None);
        assert_eq!(refuse_splits(&c, LentEntries { numbers: 9, ..ENTRIES }), Some(4));
        assert_eq!(refuse_pass(&c, PLENTY, Pass::Loops), None);
        c.text[0] = 0xff;
        assert_eq!(refuse_pass(&c, PLENTY, Pass::Loops), Some(3));
        c.tokens[0] |= 8;
        assert_eq!(refuse_splits(&c, ENTRIES), Some(2));
        c.text.resize(MAX_TEXT + 1, 0);
        assert_eq!(refuse_splits(&c, ENTRIES), Some(1));
    }

    #[test]
    fn lent_lengths_are_exact() {
        let c = encode(&listing("0 a\n0 b"));
        let exact = Lent { lines: 2, addresses: 2, tokens: 2 + 16, text: 2 + 64 };
        assert_eq!(refuse_pass(&c, exact, Pass::GotoLoops), None);
        assert_eq!(refuse_pass(&c, Lent { text: exact.text - 1, ..exact }, Pass::GotoLoops), Some(4));
        assert_eq!(refuse_pass(&c, Lent { tokens: exact.tokens - 1, ..exact }, Pass::GotoLoops), Some(4));
        let text = json::write(&decode(&c));
        assert_eq!(refuse_json_writer(&c, text.len()), None);
        assert_eq!(refuse_json_writer(&c, text.len() - 1), Some(4));
        let lent = Lent { lines: 2, addresses: 2, tokens: 2, text: 2 };
        assert_eq!(refuse_json_reader(&text, lent), None);
        assert_eq!(refuse_json_reader(&text, Lent { text: 1, ..lent }), Some(10));
    }

    #[test]
    fn columns_must_cover() {
        let c = encode(&listing("0 a\n0 b"));
        assert!(!question_2(&Columns { tokens: vec![512, 256], ..c.clone() }, Addresses::Taken));
        assert!(!question_2(&Columns { addresses: vec![0], ..c.clone() }, Addresses::Taken));
        assert!(question_2(&Columns { addresses: vec![0], ..c.clone() }, Addresses::NotTaken));
        assert!(!question_2(&Columns { lines: vec![512], ..c }, Addresses::NotTaken));
    }
}
