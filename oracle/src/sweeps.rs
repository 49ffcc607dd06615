//! The number of sweeps that `recover` makes: the verbatim file with a counter in its sweep loop (see build.rs).

use std::cell::Cell;

use crate::pseudo::PseudoLine;

#[allow(dead_code)] // the copy is run for its count only
mod counted {
    include!(concat!(env!("OUT_DIR"), "/pseudo_ssa_counted.rs"));

    /// Runs the counting copy.
    pub(super) fn run(lines: &[PseudoLine]) {
        recover(lines);
    }
}

thread_local! {
    static SWEEPS: Cell<u64> = const { Cell::new(0) };
}

/// Counts one turn of the sweep loop.
fn count() {
    SWEEPS.set(SWEEPS.get() + 1);
}

/// The total number of sweeps over all families; 0 where `recover` gives nothing.
pub fn sweeps(lines: &[PseudoLine]) -> u64 {
    SWEEPS.set(0);
    counted::run(lines);
    SWEEPS.get()
}

#[cfg(test)]
mod tests {
    use super::*;
    use crate::notation::listing;

    #[test]
    fn sweeps_are_counted_per_defined_family() {
        assert_eq!(sweeps(&listing("0 int f()\n1 g(rax);")), 0);
        assert_eq!(sweeps(&listing("0 int f()\n1 rax = 1;")), 2);
        assert_eq!(sweeps(&listing("0 int f()\n1 rax = 1;\n1 rbx = 1;")), 4);
        assert_eq!(sweeps(&listing("0 int f()\n1 rax = 1;\n1 g(&rax);")), 0);
        assert_eq!(sweeps(&listing("0 int f()\n1 rax = 1;\n1 }")), 0);
    }

    /// The definition on line 3 comes back to line 1 in the second sweep, so the third is the one without a change.
    #[test]
    fn a_value_that_comes_back_takes_a_sweep_more() {
        assert_eq!(sweeps(&listing("0 int f()\n0 L:\n1 g(rax);\n1 rax = 1;\n1 goto L;")), 3);
    }
}
