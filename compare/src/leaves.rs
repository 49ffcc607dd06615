//! The reading layer beside the original: every token and every line of a listing through each function.

use oracle::columns::{encode, Columns};
use oracle::leaves as original;
use oracle::model::Token;
use oracle::pseudo::PseudoLine;
use oracle::questions::{question_1, question_2, question_3, Addresses};
use oracle::random::Random;

/// The library's functions, as crates/leaves exports them. A slice is a pointer and a length.
mod library {
    extern "C" {
        pub fn leaves_refusal(l: *const u32, ln: usize, t: *const u32, tn: usize, x: *const u8, xn: usize) -> usize;
        pub fn leaves_fam_of(kind: usize, s: *const u8, n: usize, out: *mut u64, on: usize);
        pub fn leaves_same_family(a: *const u8, an: usize, b: *const u8, bn: usize) -> usize;
        pub fn leaves_is_label(l: *const u32, ln: usize, t: *const u32, tn: usize, x: *const u8, xn: usize, i: usize) -> usize;
        pub fn leaves_has_kw(l: *const u32, ln: usize, t: *const u32, tn: usize, x: *const u8, xn: usize, i: usize, kw: *const u8, kn: usize) -> usize;
        pub fn leaves_call_at(l: *const u32, ln: usize, t: *const u32, tn: usize, x: *const u8, xn: usize, i: usize, out: *mut u64, on: usize);
        pub fn leaves_goto_target(l: *const u32, ln: usize, t: *const u32, tn: usize, x: *const u8, xn: usize, i: usize, out: *mut u64, on: usize);
        pub fn leaves_assignment(l: *const u32, ln: usize, t: *const u32, tn: usize, x: *const u8, xn: usize, i: usize, out: *mut u64, on: usize);
        pub fn leaves_expr_length(l: *const u32, ln: usize, t: *const u32, tn: usize, x: *const u8, xn: usize, i: usize, k: usize) -> usize;
        pub fn leaves_defines(l: *const u32, ln: usize, t: *const u32, tn: usize, x: *const u8, xn: usize, i: usize, out: *mut u64, on: usize);
        pub fn leaves_braces(l: *const u32, ln: usize, t: *const u32, tn: usize, x: *const u8, xn: usize, i: usize, out: *mut u64, on: usize);
        pub fn leaves_condition(
            l: *const u32, ln: usize, t: *const u32, tn: usize, x: *const u8, xn: usize, i: usize, kw: *const u8, kn: usize, out: *mut u64, on: usize,
        );
    }
}

/// Calls a function of the library with the columns, then the other arguments.
macro_rules! call {
    ($f:ident, $c:expr $(, $arg:expr)*) => {
        // SAFETY: each pointer goes with the length of its slice, and the library is proved to stay within them.
        unsafe {
            library::$f($c.lines.as_ptr(), $c.lines.len(), $c.tokens.as_ptr(), $c.tokens.len(), $c.text.as_ptr(), $c.text.len() $(, $arg)*)
        }
    };
}

/// The three numbers that a function writes.
macro_rules! answer {
    ($f:ident, $c:expr $(, $arg:expr)*) => {{
        let mut out = [u64::MAX; 3];
        call!($f, $c $(, $arg)*, out.as_mut_ptr(), out.len());
        out.map(|n| n as usize)
    }};
}

const KEYWORDS: [&str; 13] =
    ["if", "else", "do", "while", "for", "switch", "case", "default", "break", "continue", "goto", "return", "else "];

const LEGACY: [&str; 8] = ["rax", "rbx", "rcx", "rdx", "rsi", "rdi", "rbp", "rsp"];

/// Where the library's answers of the listing are not the original's.
pub fn differences(lines: &[PseudoLine]) -> Vec<String> {
    let c = encode(lines);
    let mut found = Vec::new();
    for (i, l) in lines.iter().enumerate() {
        let mut check = |what: &str, same: bool| {
            if !same {
                found.push(format!("line {i}: {what}"));
            }
        };
        l.tokens.iter().for_each(|t| check("fam_of", fam_of(t) == original::fam_of(t)));
        l.tokens.windows(2).for_each(|w| check("same_family", same_family(&w[0], &w[1])));
        check("is_label", (call!(leaves_is_label, c, i) == 1) == original::is_label(l));
        KEYWORDS.iter().for_each(|kw| check("has_kw", (call!(leaves_has_kw, c, i, kw.as_ptr(), kw.len()) == 1) == original::has_kw(l, kw)));
        check("call_at", place(answer!(leaves_call_at, c, i)) == original::call_at(l));
        check("goto_target", goto_target(&c, l, i) == original::goto_target(l).map(str::to_string));
        check("assignment", assignment(&c, l, i) == original::assignment(l));
        check("defines", family_name(&l.tokens, answer!(leaves_defines, c, i)) == original::defines(l));
        check("braces", answer!(leaves_braces, c, i) == braces(l));
        ["if", "while"].iter().for_each(|kw| check("condition", condition(&c, l, i, kw) == original::condition(l, kw)));
    }
    found.extend(refusals(&c, lines.len() as u64));
    found
}

fn place([case, at, _]: [usize; 3]) -> Option<usize> {
    (case == 1).then_some(at)
}

/// The family's name and width that the numbers of a register stand for.
fn register(text: &str, [case, at, width]: [usize; 3]) -> Option<(String, u32)> {
    let name = match case {
        0 => return None,
        1 => LEGACY[at],
        2 => &text[..at],
        _ => text,
    };
    Some((name.to_string(), width as u32))
}

fn fam_of(t: &Token) -> Option<(String, u32)> {
    let mut out = [u64::MAX; 3];
    // SAFETY: as in `call`.
    unsafe { library::leaves_fam_of(t.k as usize, t.t.as_ptr(), t.t.len(), out.as_mut_ptr(), out.len()) };
    register(&t.t, out.map(|n| n as usize))
}

/// Whether the library says of two names, both taken for registers, what the original's families say.
fn same_family(a: &Token, b: &Token) -> bool {
    let family = |t: &Token| original::fam_of(&Token { t: t.t.clone(), k: oracle::model::TokenKind::Register }).map(|f| f.0);
    // SAFETY: as in `call`.
    let same = unsafe { library::leaves_same_family(a.t.as_ptr(), a.t.len(), b.t.as_ptr(), b.t.len()) };
    (same == 1) == (family(a).is_some() && family(a) == family(b))
}

fn family_name(tokens: &[Token], numbers: [usize; 3]) -> Option<String> {
    tokens.first().and_then(|t| register(&t.t, numbers)).map(|f| f.0)
}

fn goto_target(c: &Columns, l: &PseudoLine, i: usize) -> Option<String> {
    let [case, at, length] = answer!(leaves_goto_target, c, i);
    (case == 1).then(|| l.tokens[at].t[..length].to_string())
}

/// The right side that the places of its tokens stand for.
fn assignment(c: &Columns, l: &PseudoLine, i: usize) -> Option<Vec<Token>> {
    let [case, from, to] = answer!(leaves_assignment, c, i);
    let part = |k: usize| {
        let front = if k == 1 { 3 } else { 0 };
        Token { t: l.tokens[k].t[front..front + call!(leaves_expr_length, c, i, k)].to_string(), k: l.tokens[k].k }
    };
    (case == 1).then(|| (from..to).map(part).collect())
}

/// The condition that the keyword's place and the bytes cut off stand for.
fn condition(c: &Columns, l: &PseudoLine, i: usize, kw: &str) -> Option<Vec<Token>> {
    let [case, keyword, end] = answer!(leaves_condition, c, i, kw.as_ptr(), kw.len());
    if case == 0 {
        return None;
    }
    let mut tokens = l.tokens[keyword + 1..].to_vec();
    tokens[0].t.drain(..2);
    let last = tokens.last_mut().expect("a condition has a token");
    last.t.truncate(last.t.len() - end);
    tokens.retain(|t| !t.t.is_empty());
    Some(tokens)
}

/// Blocks that a line opens and closes, counted as document 01 says.
fn braces(l: &PseudoLine) -> [usize; 3] {
    let (mut opens, mut closes) = (0, 0);
    for t in l.tokens.iter().filter(|t| t.k == oracle::model::TokenKind::Punct) {
        for byte in t.t.bytes() {
            match byte {
                b'{' => opens += 1,
                b'}' if opens > 0 => opens -= 1,
                b'}' => closes += 1,
                _ => {}
            }
        }
    }
    [1, opens, closes]
}

/// Questions 1 to 3 of the columns and of twenty damaged copies.
fn refusals(c: &Columns, seed: u64) -> Vec<String> {
    let mut r = Random::new(seed, c.text.len() as u64);
    let copies = (0..20).map(|_| damaged(c, &mut r));
    let wrong = |c: &Columns| {
        let (own, library) = (refusal(c), call!(leaves_refusal, c));
        (own != library).then(|| format!("refusal {library}, the questions say {own}"))
    };
    wrong(c).into_iter().chain(copies.filter_map(|d| wrong(&d))).collect()
}

fn refusal(c: &Columns) -> usize {
    if !question_1(c) {
        1
    } else if !question_2(c, Addresses::NotTaken) {
        2
    } else if !question_3(c) {
        3
    } else {
        0
    }
}

/// One word or byte changed, or a column cut short.
fn damaged(c: &Columns, r: &mut Random) -> Columns {
    let mut d = Columns { lines: c.lines.clone(), addresses: c.addresses.clone(), tokens: c.tokens.clone(), text: c.text.clone() };
    match r.below(6) {
        0 if !d.lines.is_empty() => change(&mut d.lines, r),
        1 if !d.tokens.is_empty() => change(&mut d.tokens, r),
        2 | 3 if !d.text.is_empty() => {
            let at = r.below(d.text.len());
            d.text[at] = r.bits() as u8;
        }
        4 => drop(d.tokens.pop()),
        _ => drop(d.lines.pop()),
    }
    d
}

fn change(words: &mut [u32], r: &mut Random) {
    let at = r.below(words.len());
    words[at] = if r.below(2) == 0 { r.bits() as u32 } else { words[at] ^ (1 << r.below(32)) };
}
