//! `coverage KIND SEED COUNT`: how many listings meet what the comparison is to cover, one row for each.

use std::collections::HashSet;
use std::error::Error;

use oracle::answers::{choose, recover_goto_loops, recover_loops, splits, webs, Choice, Webs};
use oracle::generate::{listing, Kind};
use oracle::model::TokenKind;
use oracle::pseudo::PseudoLine;

const ROWS: [&str; 16] = [
    "recover_loops changes it",
    "recover_loops makes a for",
    "recover_loops refuses 6",
    "recover_goto_loops changes it",
    "recover_goto_loops makes a for",
    "recover_goto_loops refuses 6",
    "webs accept it",
    "webs refuse 7",
    "webs refuse 8",
    "webs refuse 9",
    "a web of number 2 or more",
    "three sweeps or more",
    "a family that takes three sweeps or more",
    "one split or more",
    "the chooser gives splits",
    "a definition of web 0",
];

fn fors(lines: &[PseudoLine]) -> usize {
    lines.iter().flat_map(|l| &l.tokens).filter(|t| t.k == TokenKind::Keyword && t.t == "for").count()
}

/// Changed, a for more, refused 6.
fn pass_facts(before: &[PseudoLine], after: Result<Vec<PseudoLine>, u8>) -> [bool; 3] {
    match after {
        Ok(after) => [after != before, fors(&after) > fors(before), false],
        Err(_) => [false, false, true],
    }
}

/// The number of families that have a definition; each takes two sweeps at least.
fn defined_families(lines: &[PseudoLine], w: &Webs) -> u64 {
    let tokens = lines.iter().flat_map(|l| &l.tokens);
    let defined = tokens.zip(&w.marks).filter(|(_, mark)| **mark == 1);
    // Only names of 64 and 32 bits define: `eax` is `rax`, `r8d` is `r8`.
    let family = |name: &str| name.trim_start_matches(['r', 'e']).trim_end_matches('d').to_string();
    defined.map(|(t, _)| family(&t.t)).collect::<HashSet<_>>().len() as u64
}

/// One fact for each row.
fn facts(lines: &[PseudoLine]) -> Vec<bool> {
    let webs = webs(lines);
    let split = splits(lines);
    let number = |w: &u32| *w != u32::MAX && *w >= 2;
    let zero_def = |w: &Webs| w.numbers.iter().zip(&w.marks).any(|(n, m)| *n == 0 && *m == 1);
    let mut out = pass_facts(lines, recover_loops(lines)).to_vec();
    out.extend(pass_facts(lines, recover_goto_loops(lines)));
    out.push(webs.is_ok());
    out.extend([7, 8, 9].map(|n| webs == Err(n)));
    out.push(webs.as_ref().is_ok_and(|w| w.numbers.iter().any(number)));
    out.push(webs.as_ref().is_ok_and(|w| w.sweeps >= 3));
    out.push(webs.as_ref().is_ok_and(|w| w.sweeps > 2 * defined_families(lines, w)));
    out.push(split.marks.contains(&1));
    out.push(matches!(choose(lines), Choice::Splits(_)));
    out.push(webs.as_ref().is_ok_and(zero_def));
    out
}

fn main() -> Result<(), Box<dyn Error>> {
    let args: Vec<String> = std::env::args().skip(1).collect();
    let [kind, seed, count] = args.as_slice() else { return Err("usage: coverage KIND SEED COUNT".into()) };
    let (kind, seed, count): (Kind, u64, u64) = (kind.parse()?, seed.parse()?, count.parse()?);
    let mut met = [0u64; ROWS.len()];
    for index in 0..count {
        for (row, fact) in met.iter_mut().zip(facts(&listing(kind, seed, index))) {
            *row += u64::from(fact);
        }
    }
    for (row, met) in ROWS.iter().zip(met) {
        println!("{:6.2} % {met:8} {row}", 100.0 * met as f64 / count.max(1) as f64);
    }
    Ok(())
}
