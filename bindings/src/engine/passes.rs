//! The loop passes on the engine's lines.

use super::columns::Columns;
use super::PseudoLine;
use crate::{Counts, Destination, Listing, Refusal};

/// Guarded do-while loops made `while` and `for`; a listing that is refused stays as it was.
pub fn recover_loops(lines: &mut Vec<PseudoLine>) {
    _ = try_recover_loops(lines);
}

/// `recover_loops`, or its refusal: 1, too large, or 6, an indent would leave 0 to 255. The lines are then as they were.
pub fn try_recover_loops(lines: &mut Vec<PseudoLine>) -> Result<(), Refusal> {
    rewrite(lines, crate::recover_loops)
}

/// Backward gotos made `while` and `for`; a listing that is refused stays as it was.
pub fn recover_goto_loops(lines: &mut Vec<PseudoLine>) {
    _ = try_recover_goto_loops(lines);
}

/// `recover_goto_loops`, or its refusal, as `try_recover_loops`.
pub fn try_recover_goto_loops(lines: &mut Vec<PseudoLine>) -> Result<(), Refusal> {
    rewrite(lines, crate::recover_goto_loops)
}

fn rewrite(lines: &mut Vec<PseudoLine>, pass: fn(Listing, &[u64], Destination) -> Result<Counts, Refusal>) -> Result<(), Refusal> {
    let columns = Columns::of(lines)?;
    let mut room = columns.room();
    let counts = pass(columns.listing(), columns.addresses(), room.destination())?;
    *lines = room.unpack(counts);
    Ok(())
}
