//! A few lines each. A scene has a list of choices for each line; its first choices make a shape that is rewritten, or a
//! graph that is accepted. Every combination that departs from them in at most three lines is walked through, and every
//! listing of one or two lines of an alphabet; as many again are drawn at random.
//!
//! A seed covers 10,000 numbers, so seeds 0, 1, 2 .. with so many listings each walk on through the space. The combinations
//! are taken with a stride, so that any few thousand are spread over all choices.

use super::damaged::shift_indents;
use crate::notation;
use crate::pseudo::PseudoLine;
use crate::random::Random;
use std::sync::LazyLock;

/// One list of choices per line; an empty choice leaves the line out.
type Scene = &'static [&'static [&'static str]];

/// A guarded do-while and what may stand around it.
const GUARDED: Scene = &[
    &["1 rcx = 0;", "", "1 rax = rcx;", "0 int f()"],
    &["", "1 rax = 1;", "1 rcx = 1;", "1 g();"],
    &["1 if (rcx < 4) {", "2 if (rcx < 4) {", "1 while (rcx < 4) {", "1 if (rcx) {"],
    &["2 do {", "1 do {", "3 do {"],
    &["", "3 g(rcx);", "2 L:", "0 L:", "3 if (rcx < 4) {", "3 continue;", "2 g();"],
    &["3 rcx++;", "", "3 ecx -= 2;", "2 rcx++;", "3 rax++;"],
    &["2 } while (rcx < 4);", "1 } while (rcx < 4);", "2 } while (rcx);", "3 } while (rcx < 4);"],
    &["1 }", "", "2 }", "1 } else {"],
];

/// A goto loop and what may stand around it.
const GOTO: Scene = &[
    &["2 rcx = 0;", "", "1 rcx = 0;", "0 int f()"],
    &["1 L:", "0 L:", "2 L:"],
    &["2 if (rcx >= 4) goto E;", "", "1 M:", "2 if (rcx == 0 && rax) goto E;", "2 if (rcx == 0) goto L;", "3 if (rcx == 4) goto E;"],
    &["", "2 g(rcx);", "2 goto L;", "2 goto E;", "2 M:", "2 goto M;"],
    &["2 rcx++;", "", "1 rcx++;", "3 rcx += 2;"],
    &["2 goto L;", "1 goto L;", "2 goto E;", "3 goto L;"],
    &["1 E:", "", "1 L:", "0 E:", "1 }"],
    &["", "2 return rcx;", "2 goto L;", "2 goto M;"],
];

/// Blocks, jumps, definitions and reads.
const GRAPH: Scene = &[
    &["0 int f()", "0 L:", "0 rax = 1;"],
    &["1 rax = 1;", "", "1 g(&rax);", "1 L:"],
    &["1 if (rbx) {", "1 while (rbx) {", "1 do {", "1 switch (rbx) {", "1 for (;;) {", "1 {"],
    &["2 rax = 2;", "2 g(rax);", "2 break;", "2 continue;", "2 case 1:", "2 goto L;", "2 L:", "2 rax++;", "2 if (rax) break;"],
    &["", "1 } else {", "1 } else if (rax) {", "1 } while (rax) {", "2 rax = 3;", "2 g(rax);"],
    &["", "2 rax = 4;", "2 g(rax);", "2 default:", "2 goto L;", "2 break;"],
    &["1 }", "1 } while (rax);", "", "1 }}"],
    &["1 return rax;", "", "1 goto L;", "1 L:"],
];

const SCENES: [Scene; 3] = [GUARDED, GOTO, GRAPH];

/// The lines of a scene that may depart from the first choice at once.
const DEPARTURES: usize = 3;

/// The combinations to walk through, one list for each scene.
static COMBINATIONS: LazyLock<[Vec<Vec<usize>>; 3]> = LazyLock::new(|| SCENES.map(|scene| combinations(scene, DEPARTURES)));

/// Every shape of line that the passes and the graph look at.
const ALPHABET: [&str; 27] = [
    "L:",
    "E:",
    "goto L;",
    "if (rax == 0) goto E;",
    "if (rcx < 4) {",
    "do {",
    "} while (rcx < 4);",
    "}",
    "} else {",
    "} else if (rcx) {",
    "while (rcx < 4) {",
    "for (rcx = 0; rcx < 4; rcx++) {",
    "switch (rax) {",
    "case 1:",
    "default:",
    "break;",
    "if (rax) break;",
    "continue;",
    "return rax;",
    "rcx++;",
    "rcx = 0;",
    "rax = 1;",
    "ax = 1;",
    "rax = rax + 1;",
    "g(rax);",
    "g(&rax);",
    "{",
];
const INDENTS: usize = 4;
const PLACES: usize = ALPHABET.len() * INDENTS;

/// A prime larger than any list of combinations.
const STRIDE: usize = 1_000_003;

pub fn listing(seed: u64, index: u64, r: &mut Random) -> Vec<PseudoLine> {
    let number = seed.wrapping_mul(10_000).wrapping_add(index);
    let (round, turn) = ((number / 8) as usize, (number % 8) as usize);
    let mut lines = match turn {
        0..3 => walked(turn, round, r),
        3..6 => chosen(SCENES[turn - 3], &departing(SCENES[turn - 3], r)),
        6 if round < PLACES + PLACES * PLACES => letters(round),
        _ => drawn(r),
    };
    if r.chance(6) {
        shift_indents(r, &mut lines);
    }
    for (i, l) in lines.iter_mut().enumerate() {
        l.address = r.chance(50).then_some(4 * i as u64);
    }
    lines
}

/// The combination of that number; where all are through, any combination.
fn walked(which: usize, number: usize, r: &mut Random) -> Vec<PseudoLine> {
    let (scene, all) = (SCENES[which], &COMBINATIONS[which]);
    if number < all.len() {
        return chosen(scene, &all[number * STRIDE % all.len()]);
    }
    chosen(scene, &scene.iter().map(|choices| r.below(choices.len())).collect::<Vec<_>>())
}

/// A combination that departs from the first choices in one line or two, mostly.
fn departing(scene: Scene, r: &mut Random) -> Vec<usize> {
    scene.iter().map(|choices| if r.chance(75) { 0 } else { r.below(choices.len()) }).collect()
}

/// Every combination, one choice per line, that departs from the first choices in at most so many lines.
fn combinations(scene: Scene, departures: usize) -> Vec<Vec<usize>> {
    let Some((choices, rest)) = scene.split_first() else { return vec![Vec::new()] };
    let mut out = Vec::new();
    for choice in 0..choices.len() {
        let Some(left) = departures.checked_sub(usize::from(choice > 0)) else { break };
        out.extend(combinations(rest, left).into_iter().map(|more| [&[choice], more.as_slice()].concat()));
    }
    out
}

fn chosen(scene: Scene, combination: &[usize]) -> Vec<PseudoLine> {
    let rows: Vec<&str> = scene.iter().zip(combination).map(|(choices, &k)| choices[k]).collect();
    notation::listing(&rows.join("\n"))
}

fn letter(place: usize) -> PseudoLine {
    notation::line((place % INDENTS) as u8, ALPHABET[place / INDENTS])
}

/// Every one-line listing of the alphabet at indents 0 to 3, then every two-line one.
fn letters(number: usize) -> Vec<PseudoLine> {
    match number.checked_sub(PLACES) {
        None => vec![letter(number)],
        Some(two) => vec![letter(two / PLACES), letter(two % PLACES)],
    }
}

/// Up to six lines of the alphabet.
fn drawn(r: &mut Random) -> Vec<PseudoLine> {
    let high = r.chance(8);
    let mut lines: Vec<PseudoLine> = (0..r.between(0, 6)).map(|_| letter(r.below(PLACES))).collect();
    for l in lines.iter_mut().filter(|_| high) {
        l.indent += 252;
    }
    lines
}
