//! The original's readers of one token or one line, for a comparison function by function.
//!
//! `goto_target` and `defines` stand inside longer functions of the original, as a closure each; here they are written out.

use crate::model::{Token, TokenKind};
use crate::pseudo::PseudoLine;
use crate::{pseudo_opt, pseudo_types};

pub fn fam_of(t: &Token) -> Option<(String, u32)> {
    pseudo_opt::fam_of(t)
}

pub fn is_label(l: &PseudoLine) -> bool {
    pseudo_opt::is_label(l)
}

pub fn has_kw(l: &PseudoLine, kw: &str) -> bool {
    pseudo_opt::has_kw(l, kw)
}

pub fn call_at(l: &PseudoLine) -> Option<usize> {
    pseudo_opt::call_at(l)
}

/// The tokens of the right side.
pub fn assignment(l: &PseudoLine) -> Option<Vec<Token>> {
    pseudo_opt::assignment(l).map(|(_, expr)| expr)
}

pub fn condition(l: &PseudoLine, kw: &str) -> Option<Vec<Token>> {
    pseudo_types::condition(l, kw)
}

/// The target of the first goto, as in `recover_goto_loops`.
pub fn goto_target(l: &PseudoLine) -> Option<&str> {
    let g = l.tokens.iter().position(|t| t.k == TokenKind::Keyword && t.t == "goto")?;
    l.tokens[g + 1..].iter().find(|t| t.k == TokenKind::Symbol).map(|t| t.t.as_str())
}

/// The family that the line defines, as in `recover`.
pub fn defines(l: &PseudoLine) -> Option<String> {
    let (lhs, expr) = pseudo_opt::assignment(l)?;
    let (f, w) = fam_of(lhs)?;
    let reads_self = expr.iter().any(|t| fam_of(t).is_some_and(|x| x.0 == f));
    (w >= 32 && !f.starts_with("var_") && !reads_self).then_some(f)
}
