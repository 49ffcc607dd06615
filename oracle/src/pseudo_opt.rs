// An excerpt of Altumptic/paranoia at 87f676eb02 (Apache-2.0), crates/paranoia-core/src/pseudo_opt.rs: the functions that the ported passes call; use lines changed, all other items left out.

use crate::model::{Token, TokenKind};
use crate::pseudo::PseudoLine;

/// Register family (`eax`, `ax`, `al` → `rax`) and width in bits.
pub(crate) fn family(name: &str) -> Option<(String, u32)> {
    const LEGACY: [(&str, [&str; 4]); 8] = [
        ("rax", ["rax", "eax", "ax", "al"]),
        ("rbx", ["rbx", "ebx", "bx", "bl"]),
        ("rcx", ["rcx", "ecx", "cx", "cl"]),
        ("rdx", ["rdx", "edx", "dx", "dl"]),
        ("rsi", ["rsi", "esi", "si", "sil"]),
        ("rdi", ["rdi", "edi", "di", "dil"]),
        ("rbp", ["rbp", "ebp", "bp", "bpl"]),
        ("rsp", ["rsp", "esp", "sp", "spl"]),
    ];
    for (f, names) in LEGACY {
        if let Some(i) = names.iter().position(|n| *n == name) {
            return Some((f.to_string(), [64, 32, 16, 8][i]));
        }
    }
    if matches!(name, "ah" | "bh" | "ch" | "dh") {
        return Some((format!("r{}x", &name[..1]), 8));
    }
    if let Some(rest) = name.strip_prefix('r') {
        let digits: String = rest.chars().take_while(|c| c.is_ascii_digit()).collect();
        if !digits.is_empty() {
            let width = match &rest[digits.len()..] {
                "" => 64,
                "d" => 32,
                "w" => 16,
                "b" | "l" => 8,
                _ => return None,
            };
            return Some((format!("r{digits}"), width));
        }
    }
    // Stack variables behave like registers for propagation (outgoing argument slots).
    if name.starts_with("var_") {
        return Some((name.to_string(), 64));
    }
    None
}

pub(crate) fn fam_of(t: &Token) -> Option<(String, u32)> {
    (t.k == TokenKind::Register).then(|| family(&t.t)).flatten()
}

pub(crate) fn is_label(l: &PseudoLine) -> bool {
    l.tokens.len() == 2 && l.tokens[1].t == ":" && l.tokens[0].k == TokenKind::Symbol
}

pub(crate) fn has_kw(l: &PseudoLine, kw: &str) -> bool {
    l.tokens.iter().any(|t| t.k == TokenKind::Keyword && t.t == kw)
}

/// Index of the callee token when the line performs a call (`f(` / `((void (*)())`).
pub(crate) fn call_at(l: &PseudoLine) -> Option<usize> {
    l.tokens.windows(2).position(|w| {
        (w[0].k == TokenKind::Symbol && w[1].k == TokenKind::Punct && w[1].t.starts_with('('))
            || (w[0].k == TokenKind::Keyword && w[0].t.starts_with("((void"))
    })
}

/// `reg = expr;` → (reg token, expression tokens). Compound assignments return None.
pub(crate) fn assignment(l: &PseudoLine) -> Option<(&Token, Vec<Token>)> {
    let [lhs, eq, rest @ ..] = l.tokens.as_slice() else { return None };
    if lhs.k != TokenKind::Register || eq.k != TokenKind::Punct || !eq.t.starts_with(" = ") {
        return None;
    }
    let mut expr = Vec::new();
    let head = &eq.t[3..];
    if !head.is_empty() {
        expr.push(Token { t: head.to_string(), k: TokenKind::Punct });
    }
    expr.extend(rest.iter().cloned());
    let last = expr.last_mut()?;
    if !last.t.ends_with(';') {
        return None;
    }
    last.t.pop();
    if last.t.is_empty() {
        expr.pop();
    }
    (!expr.is_empty()).then_some((lhs, expr))
}

/// Re-merges adjacent punctuation so lines stay compact after edits.
pub(crate) fn merge(v: Vec<Token>) -> Vec<Token> {
    let mut out: Vec<Token> = Vec::with_capacity(v.len());
    for t in v {
        if let Some(last) = out.last_mut() {
            if last.k == t.k && matches!(t.k, TokenKind::Punct | TokenKind::Text) {
                last.t.push_str(&t.t);
                continue;
            }
        }
        out.push(t);
    }
    out
}
