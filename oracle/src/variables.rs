//! The original's `Seg` itself, for any family, line and token, whether or not such a token stands there.

use crate::pseudo::PseudoLine;
use crate::pseudo_types::Seg;

pub struct Variables(Seg);

impl Variables {
    /// `Seg::new`.
    pub fn new(lines: &[PseudoLine], webs: bool) -> Variables {
        Variables(Seg::new(lines, webs))
    }

    /// Whether they are webs.
    pub fn are_webs(&self) -> bool {
        matches!(self.0, Seg::Webs(_))
    }

    /// `Seg::key`, of webs `Webs::key`.
    pub fn key(&self, family: &str, line: usize, tok: usize) -> String {
        self.0.key(family, line, tok)
    }

    /// `Seg::starts`, of webs at token 0 `Webs::is_def`.
    pub fn starts(&self, family: &str, line: usize, tok: usize) -> bool {
        self.0.starts(family, line, tok)
    }
}
