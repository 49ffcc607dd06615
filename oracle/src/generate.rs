//! Listings by kind, seed and index, the same on every run.
//!
//! | kind | listings |
//! |---|---|
//! | plausible | as the original prints them |
//! | damaged | plausible ones with one to four faults |
//! | tiny | a few lines each, walking through every combination of small choices |
//! | full | near the limits of question 1 |
//! | scaled | the shapes of `full` with 64 to 96 lines |
//! | directed | shapes for places that are rarely met |

mod damaged;
mod directed;
mod full;
mod plausible;
mod tiny;

use std::str::FromStr;

use crate::pseudo::PseudoLine;
use crate::random::Random;

#[derive(Debug, Clone, Copy, PartialEq, Eq)]
pub enum Kind {
    Plausible,
    Damaged,
    Tiny,
    Full,
    Scaled,
    Directed,
}

impl FromStr for Kind {
    type Err = String;

    fn from_str(name: &str) -> Result<Kind, String> {
        Ok(match name {
            "plausible" => Kind::Plausible,
            "damaged" => Kind::Damaged,
            "tiny" => Kind::Tiny,
            "full" => Kind::Full,
            "scaled" => Kind::Scaled,
            "directed" => Kind::Directed,
            _ => return Err(format!("{name}: the kinds are plausible, damaged, tiny, full, scaled, directed")),
        })
    }
}

/// The listing of that index; within question 1's limits, whatever the kind.
pub fn listing(kind: Kind, seed: u64, index: u64) -> Vec<PseudoLine> {
    let mut r = Random::new(seed, index);
    match kind {
        Kind::Plausible => plausible::listing(&mut r),
        Kind::Damaged => damaged::listing(&mut r),
        Kind::Tiny => tiny::listing(seed, index, &mut r),
        Kind::Full => full::listing(index, &mut r),
        Kind::Scaled => full::scaled(index, &mut r),
        Kind::Directed => directed::listing(index, &mut r),
    }
}

/// A plausible listing of about so many lines.
pub fn plausible(seed: u64, lines: usize) -> Vec<PseudoLine> {
    plausible::sized(&mut Random::new(seed, lines as u64), lines)
}

pub use full::{colliding_families, colliding_labels, creeping_back, full_buckets, uncrossed};

#[cfg(test)]
mod tests {
    use super::*;
    use crate::columns::{decode, encode};
    use crate::questions::{question_1, question_2, question_3, question_4_pass, Addresses, Lent};
    use crate::{answers, json};

    const ALL: [(Kind, u64); 6] =
        [(Kind::Plausible, 500), (Kind::Damaged, 500), (Kind::Tiny, 2_000), (Kind::Full, 9), (Kind::Scaled, 90), (Kind::Directed, 2_000)];

    /// Every generated listing passes questions 1 to 3, comes back from both forms, and has answers that do not contradict
    /// the questions (`answers` panics if they do).
    #[test]
    fn generated_listings_are_well_formed() {
        for (kind, count) in ALL {
            for index in 0..count {
                let lines = listing(kind, 7, index);
                let c = encode(&lines);
                assert!(question_1(&c) && question_2(&c, Addresses::Taken) && question_3(&c), "{kind:?} {index}");
                assert_eq!(decode(&c), lines);
                assert_eq!(json::read(&json::write(&lines)).as_ref(), Ok(&lines));
                answers::choose(&lines);
            }
        }
    }

    /// A pass never adds a line, and what it gives fits in the destination that question 4 asks for.
    #[test]
    fn rewritten_listings_fit() {
        for (kind, count) in ALL {
            for lines in (0..count).map(|index| listing(kind, 8, index)) {
                for after in [answers::recover_loops(&lines), answers::recover_goto_loops(&lines)].into_iter().flatten() {
                    let c = encode(&after);
                    let lengths = Lent { lines: c.lines.len(), addresses: c.lines.len(), tokens: c.tokens.len(), text: c.text.len() };
                    assert!(after.len() <= lines.len(), "{lines:?}");
                    assert!(fits(lengths, &lines), "{lines:?}");
                }
            }
        }
    }

    /// Whether a listing of these lengths fits in the least destination that is accepted for `lines`.
    fn fits(lengths: Lent, lines: &[PseudoLine]) -> bool {
        let c = encode(lines);
        let n = lines.len();
        let least = Lent { lines: n, addresses: n, tokens: c.tokens.len() + 8 * n, text: c.text.len() + 32 * n };
        question_4_pass(&c, least) && lengths.tokens <= least.tokens && lengths.text <= least.text
    }

    #[test]
    fn the_same_index_gives_the_same_listing() {
        assert!(ALL.iter().all(|&(kind, _)| listing(kind, 3, 5) == listing(kind, 3, 5)));
    }
}
