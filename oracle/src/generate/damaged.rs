//! Plausible listings with one to four faults: what a reader of tokens must not trip over.

// One type for all damages: some add or remove lines.
#![allow(clippy::ptr_arg)]

use super::plausible;
use crate::columns::KINDS;
use crate::model::{Token, TokenKind};
use crate::notation;
use crate::pseudo::PseudoLine;
use crate::random::Random;

const CODE_POINTS: [&str; 6] = ["é", "€", "😀", "\u{7ff}", "\u{ffff}", "\u{10ffff}"];

type Damage = fn(&mut Random, &mut Vec<PseudoLine>);

const DAMAGES: [Damage; 19] = [
    other_kind,
    split_token,
    merge_tokens,
    empty_token,
    multi_byte,
    multi_byte_at_end,
    set_indent,
    nudge_indent,
    shift_indents,
    drop_brace,
    add_brace,
    break_goto,
    second_goto,
    take_address,
    odd_register,
    remove_line,
    copy_line,
    other_address,
    label_kind,
];

pub fn listing(r: &mut Random) -> Vec<PseudoLine> {
    let mut lines = plausible::listing(r);
    for _ in 0..r.between(1, 4) {
        damage(r, &mut lines);
    }
    lines
}

/// One fault somewhere.
pub fn damage(r: &mut Random, lines: &mut Vec<PseudoLine>) {
    if !lines.is_empty() {
        r.pick(&DAMAGES)(r, lines);
    }
}

fn any_line<'a>(r: &mut Random, lines: &'a mut [PseudoLine]) -> &'a mut PseudoLine {
    let at = r.below(lines.len());
    &mut lines[at]
}

/// Some token that the test takes, if there is one.
fn some_token<'a>(r: &mut Random, lines: &'a mut [PseudoLine], test: fn(&Token) -> bool) -> Option<&'a mut Token> {
    let mut found: Vec<&mut Token> = lines.iter_mut().flat_map(|l| &mut l.tokens).filter(|t| test(t)).collect();
    let at = (!found.is_empty()).then(|| r.below(found.len()))?;
    Some(found.swap_remove(at))
}

/// A place between two characters of the text, its ends included.
fn place(r: &mut Random, text: &str) -> usize {
    let mut places: Vec<usize> = text.char_indices().map(|(i, _)| i).collect();
    places.push(text.len());
    r.pick(&places)
}

fn other_kind(r: &mut Random, lines: &mut Vec<PseudoLine>) {
    if let Some(t) = some_token(r, lines, |_| true) {
        t.k = r.pick(&KINDS);
    }
}

fn split_token(r: &mut Random, lines: &mut Vec<PseudoLine>) {
    let l = any_line(r, lines);
    if l.tokens.is_empty() {
        return;
    }
    let at = r.below(l.tokens.len());
    let cut = place(r, &l.tokens[at].t);
    let rest = Token { t: l.tokens[at].t.split_off(cut), k: l.tokens[at].k };
    l.tokens.insert(at + 1, rest);
}

fn merge_tokens(r: &mut Random, lines: &mut Vec<PseudoLine>) {
    let l = any_line(r, lines);
    if l.tokens.len() < 2 {
        return;
    }
    let at = r.below(l.tokens.len() - 1);
    let next = l.tokens.remove(at + 1);
    l.tokens[at].t.push_str(&next.t);
}

fn empty_token(r: &mut Random, lines: &mut Vec<PseudoLine>) {
    let l = any_line(r, lines);
    let at = if r.chance(50) { l.tokens.len() } else { r.below(l.tokens.len() + 1) };
    l.tokens.insert(at, Token { t: String::new(), k: r.pick(&KINDS) });
}

fn multi_byte(r: &mut Random, lines: &mut Vec<PseudoLine>) {
    let c = r.pick(&CODE_POINTS);
    if let Some(t) = some_token(r, lines, |_| true) {
        let at = place(r, &t.t);
        t.t.insert_str(at, c);
    }
}

/// At the end of a line, where initialiser and step lose their last code point; sometimes in place of the last one.
fn multi_byte_at_end(r: &mut Random, lines: &mut Vec<PseudoLine>) {
    if let Some(t) = any_line(r, lines).tokens.last_mut() {
        if r.chance(30) {
            t.t.pop();
        }
        t.t.push_str(r.pick(&CODE_POINTS));
    }
}

fn set_indent(r: &mut Random, lines: &mut Vec<PseudoLine>) {
    any_line(r, lines).indent = r.pick(&[0, 0, 254, 255]);
}

fn nudge_indent(r: &mut Random, lines: &mut Vec<PseudoLine>) {
    let l = any_line(r, lines);
    l.indent = if r.chance(50) { l.indent.saturating_add(1) } else { l.indent.saturating_sub(1) };
}

/// The whole listing up, so that its deepest line is near 255, or down, so that its least is 0.
pub fn shift_indents(r: &mut Random, lines: &mut Vec<PseudoLine>) {
    let most = lines.iter().map(|l| l.indent).max().unwrap_or(0);
    let least = lines.iter().map(|l| l.indent).min().unwrap_or(0);
    let (up, down) = if r.chance(75) { (255 - most, r.below(3) as u8) } else { (0, least.saturating_add(r.below(2) as u8)) };
    let over = r.below(3) as u8;
    for l in lines {
        l.indent = l.indent.saturating_add(up).saturating_add(over).saturating_sub(down);
    }
}

fn is_brace(t: &Token) -> bool {
    t.k == TokenKind::Punct && t.t.contains(['{', '}'])
}

fn drop_brace(r: &mut Random, lines: &mut Vec<PseudoLine>) {
    if let Some(t) = some_token(r, lines, is_brace) {
        t.t = t.t.replacen(['{', '}'], "", 1);
    }
}

fn add_brace(r: &mut Random, lines: &mut Vec<PseudoLine>) {
    if let Some(t) = some_token(r, lines, |t| t.k == TokenKind::Punct) {
        let at = if r.chance(50) { 0 } else { t.t.len() };
        t.t.insert_str(at, r.pick(&["{", "}", "{}", "}{"]));
    }
}

/// A goto without a symbol, or with one that may name no label.
fn break_goto(r: &mut Random, lines: &mut Vec<PseudoLine>) {
    let to = notation::tokens(r.pick(&["[r|rax]", "[s|nowhere]", "[t|]", "[a|loc_1010]", "[s|loc_1010]", "[s|loc_1020]"]));
    let gotos = lines.iter_mut().filter(|l| l.tokens.iter().any(|t| t.t == "goto"));
    let mut symbols: Vec<&mut Token> = gotos.filter_map(|l| l.tokens.iter_mut().rfind(|t| t.k == TokenKind::Symbol)).collect();
    if !symbols.is_empty() {
        let at = r.below(symbols.len());
        *symbols[at] = to[0].clone();
    }
}

fn second_goto(r: &mut Random, lines: &mut Vec<PseudoLine>) {
    let more = notation::tokens(r.pick(&[" goto loc_1010;", " goto loc_1020;", "goto ", "[k|goto]"]));
    let l = any_line(r, lines);
    let at = if r.chance(30) { 0 } else { l.tokens.len() };
    l.tokens.splice(at..at, more);
}

fn take_address(r: &mut Random, lines: &mut Vec<PseudoLine>) {
    let l = any_line(r, lines);
    let Some(at) = l.tokens.iter().rposition(|t| t.k == TokenKind::Register) else { return };
    match at.checked_sub(1) {
        Some(before) if r.chance(60) => l.tokens[before].t.push('&'),
        _ => l.tokens.insert(at, Token { t: "&".to_string(), k: r.pick(&KINDS) }),
    }
}

fn odd_register(r: &mut Random, lines: &mut Vec<PseudoLine>) {
    let digits = format!("r{}", "1234567890".repeat(r.between(2, 9)));
    let plain = ["rax;", "var_8;", "r08", "r8", "r8x", "r", "r8d", "var_", "Rax", "rcx) {", "rax ", "r8é", "r99999", "#", "var_#1"];
    let name = if r.chance(10) { digits } else { r.pick(&plain).to_string() };
    if let Some(t) = some_token(r, lines, |t| t.k == TokenKind::Register) {
        t.t = name;
    }
}

fn remove_line(r: &mut Random, lines: &mut Vec<PseudoLine>) {
    let at = r.below(lines.len());
    lines.remove(at);
}

/// A line again elsewhere, or two lines in each other's place.
fn copy_line(r: &mut Random, lines: &mut Vec<PseudoLine>) {
    let (from, to) = (r.below(lines.len()), r.below(lines.len()));
    if r.chance(50) {
        lines.swap(from, to);
    } else {
        lines.insert(to, lines[from].clone());
    }
}

fn other_address(r: &mut Random, lines: &mut Vec<PseudoLine>) {
    any_line(r, lines).address = r.pick(&[None, Some(0), Some(u64::MAX), Some(1 << 63)]);
}

/// Another kind for both tokens of a label; the second one's does not matter.
fn label_kind(r: &mut Random, lines: &mut Vec<PseudoLine>) {
    let labels = lines.iter_mut().filter(|l| l.tokens.len() == 2 && l.tokens[1].t == ":");
    if let Some(l) = labels.last() {
        let at = usize::from(r.chance(80));
        l.tokens[at].k = r.pick(&KINDS);
    }
}
