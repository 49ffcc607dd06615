//! The engine's own types and calls over the proved library, with the signatures that `pseudo_types` and `pseudo_ssa` of the original have.
//!
//! A listing is packed into columns, lent to the library, and what comes back is unpacked. Beside each call stands a `try_` form that hands back the
//! refusal. The plain forms have no place for one: a pass leaves the listing as it was, `recover` answers `None`, and without split points a register
//! is one variable. So a listing beyond the limits is printed as it stands, with fewer loops and fewer names, and nothing panics.

mod columns;
mod passes;
mod variables;

pub use passes::{recover_goto_loops, recover_loops, try_recover_goto_loops, try_recover_loops};
pub use variables::{recover, split_points, try_recover, try_split_points, Seg, Webs};

/// Token classes, in the order of their numbers 0 to 7.
#[derive(Debug, Clone, Copy, PartialEq, Eq)]
pub enum TokenKind {
    Text,
    Register,
    Number,
    Keyword,
    Symbol,
    Address,
    Punct,
    Prefix,
}

#[derive(Debug, Clone, PartialEq, Eq)]
pub struct Token {
    pub t: String,
    pub k: TokenKind,
}

#[derive(Debug, Clone, PartialEq, Eq)]
pub struct PseudoLine {
    /// Instruction address this line came from.
    pub address: Option<u64>,
    pub indent: u8,
    pub tokens: Vec<Token>,
}
