//! Shapes for places that are rarely met, each with its parts chosen at random.

mod graphs;
mod loops;

use super::damaged::{damage, shift_indents};
use crate::notation;
use crate::pseudo::PseudoLine;
use crate::random::Random;

const SHAPES: [fn(&mut Random) -> String; 17] = [
    loops::early_stop,
    loops::leading_test,
    loops::split_leading_test,
    loops::register_with_brackets,
    loops::step_and_initialiser,
    loops::passed_over,
    loops::nested_guards,
    loops::labels_and_targets,
    loops::growing,
    loops::overflow,
    loops::overflow,
    graphs::braces,
    graphs::braces,
    graphs::short,
    graphs::round_line_0,
    graphs::many_definitions,
    graphs::crossing_jumps,
];

pub fn listing(index: u64, r: &mut Random) -> Vec<PseudoLine> {
    let rows = SHAPES[(index % SHAPES.len() as u64) as usize](r);
    let mut lines = notation::listing(&rows);
    match r.below(10) {
        0 => shift_indents(r, &mut lines),
        1 => damage(r, &mut lines),
        _ => {}
    }
    for l in &mut lines {
        l.address = r.chance(50).then(|| r.bits() >> r.below(64));
    }
    lines
}
