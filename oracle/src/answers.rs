//! The reference answers of one listing, as the original gives them.

use crate::model::Token;
use crate::passes::{self, Pass};
use crate::pseudo::PseudoLine;
use crate::pseudo_opt::fam_of;
use crate::pseudo_ssa;
use crate::pseudo_types::Seg;
use crate::questions::refuse_lines;
use crate::sweeps;

/// The number of a token that has no family.
pub const NO_FAMILY: u32 = u32::MAX;

/// One number and one mark per token, over all lines in order. A mark is 1 where the token is a definition.
#[derive(Debug, Clone, PartialEq, Eq)]
pub struct Webs {
    pub numbers: Vec<u32>,
    pub marks: Vec<u8>,
    pub sweeps: u64,
}

/// What the chooser gives.
#[derive(Debug, Clone, PartialEq, Eq)]
pub enum Choice {
    Webs(Webs),
    Splits(Webs),
}

/// The listing after `recover_loops`, or refusal 6.
pub fn recover_loops(lines: &[PseudoLine]) -> Result<Vec<PseudoLine>, u8> {
    passes::run(Pass::Loops, lines).ok_or(6)
}

/// The listing after `recover_goto_loops`, or refusal 6.
pub fn recover_goto_loops(lines: &[PseudoLine]) -> Result<Vec<PseudoLine>, u8> {
    passes::run(Pass::GotoLoops, lines).ok_or(6)
}

/// The webs, or refusal 7, 8 or 9. Panics if the original and the questions disagree on whether there are webs.
pub fn webs(lines: &[PseudoLine]) -> Result<Webs, u8> {
    match (Seg::new(lines, true), refuse_lines(lines)) {
        (seg @ Seg::Webs(_), None) => Ok(entries(lines, &seg, sweeps(lines))),
        (Seg::Old(_), Some(number)) => Err(number),
        (Seg::Webs(_), Some(number)) => panic!("the original accepts what question {number} refuses: {lines:?}"),
        (Seg::Old(_), None) => panic!("the original refuses what the questions accept: {lines:?}"),
    }
}

/// `recover` by itself, for its cost; whether there are webs.
pub fn recover(lines: &[PseudoLine]) -> bool {
    pseudo_ssa::recover(lines).is_some()
}

/// The original's numbers and marks of every token, for their cost.
pub fn numbered(lines: &[PseudoLine]) -> Webs {
    entries(lines, &Seg::new(lines, true), 0)
}

/// The splits; sweeps are 0.
pub fn splits(lines: &[PseudoLine]) -> Webs {
    entries(lines, &Seg::new(lines, false), 0)
}

/// Webs, or splits where webs refuse 7, 8 or 9. Panics if the original's own choice is another.
pub fn choose(lines: &[PseudoLine]) -> Choice {
    let choice = webs(lines).map_or_else(|_| Choice::Splits(splits(lines)), Choice::Webs);
    let seg = Seg::new(lines, true);
    let (Choice::Webs(chosen) | Choice::Splits(chosen)) = &choice;
    let own = entries(lines, &seg, chosen.sweeps);
    assert_eq!(matches!(seg, Seg::Webs(_)), matches!(choice, Choice::Webs(_)), "the original's choice on {lines:?}");
    assert_eq!(&own, chosen, "the original's numbers on {lines:?}");
    choice
}

/// The original's own choice, for its cost; sweeps are not counted.
pub fn chosen(lines: &[PseudoLine]) -> Webs {
    entries(lines, &Seg::new(lines, true), 0)
}

/// `Seg` of the split points by itself, for its cost; whether it is that.
pub fn split_points(lines: &[PseudoLine]) -> bool {
    matches!(Seg::new(lines, false), Seg::Old(_))
}

/// The name of a token's register family.
pub fn family_name(token: &Token) -> Option<String> {
    fam_of(token).map(|(family, _)| family)
}

/// Rows `line token family#web D|U`, one for each token with a family.
pub fn rows(lines: &[PseudoLine], webs: &Webs) -> String {
    let tokens = lines.iter().enumerate().flat_map(|(i, l)| l.tokens.iter().enumerate().map(move |(k, t)| (i, k, t)));
    let row = |((i, k, t), (number, mark)): ((usize, usize, &Token), (&u32, &u8))| {
        family_name(t).map(|family| format!("{i} {k} {family}#{number} {}\n", if *mark == 1 { 'D' } else { 'U' }))
    };
    tokens.zip(webs.numbers.iter().zip(&webs.marks)).filter_map(row).collect()
}

fn entries(lines: &[PseudoLine], seg: &Seg, sweeps: u64) -> Webs {
    let tokens = lines.iter().enumerate().flat_map(|(i, l)| l.tokens.iter().enumerate().map(move |(k, t)| (i, k, t)));
    let (numbers, marks) = tokens.map(|(i, k, t)| entry(seg, i, k, t)).unzip();
    Webs { numbers, marks, sweeps }
}

/// The number behind the last `#` of the token's key, and whether it starts a value.
fn entry(seg: &Seg, line: usize, tok: usize, token: &Token) -> (u32, u8) {
    let Some(family) = family_name(token) else { return (NO_FAMILY, 0) };
    let key = seg.key(&family, line, tok);
    let (_, number) = key.rsplit_once('#').expect("a key holds a `#`");
    (number.parse().expect("a key ends with its number"), u8::from(seg.starts(&family, line, tok)))
}
