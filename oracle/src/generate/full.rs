//! Listings near the limits of question 1, plausible and damaged ones and shapes that cost most; and the same shapes with fewer lines.

use super::{damaged, plausible};
use crate::model::{Token, TokenKind};
use crate::notation::line;
use crate::pseudo::PseudoLine;
use crate::questions::{MAX_LINES, MAX_TEXT, MAX_TOKENS};
use crate::random::Random;

/// A shape of at most so many lines.
type Shape = fn(&mut Random, usize) -> Vec<PseudoLine>;

const SHAPES: [Shape; 9] = [long, long_damaged, many_families, deep_nesting, many_gotos, creeping, many_loops, many_goto_loops, nested_loops];

fn shaped(index: u64, r: &mut Random, most: usize) -> Vec<PseudoLine> {
    let mut lines = SHAPES[(index % SHAPES.len() as u64) as usize](r, most);
    lines.truncate(most);
    lines
}

pub fn listing(index: u64, r: &mut Random) -> Vec<PseudoLine> {
    let mut lines = shaped(index, r, MAX_LINES);
    if r.chance(60) {
        fill(r, &mut lines);
    }
    lines
}

/// As many lines as the checker computes definitions of.
pub fn scaled(index: u64, r: &mut Random) -> Vec<PseudoLine> {
    let most = r.between(64, 96);
    shaped(index, r, most)
}

/// So many of the most lines as `part` is of 1,024.
fn share(most: usize, part: usize) -> usize {
    most * part / MAX_LINES
}

/// Widens calls until the listing is at the limits of tokens and bytes, or just below.
fn fill(r: &mut Random, lines: &mut [PseudoLine]) {
    let calls = |l: &&mut PseudoLine| l.tokens.len() > 2 && l.tokens[0].k == TokenKind::Symbol && l.tokens[1].t.starts_with('(');
    let tokens: usize = lines.iter().map(|l| l.tokens.len()).sum();
    let text: usize = lines.iter().flat_map(|l| &l.tokens).map(|t| t.t.len()).sum();
    let room = MAX_TOKENS - tokens - r.below(3);
    let bytes = MAX_TEXT - text - r.below(3);
    let wide: Vec<&mut PseudoLine> = lines.iter_mut().filter(calls).collect();
    let count = wide.len();
    let each = bytes / room;
    // What does not divide evenly goes to the first call and to its first token.
    let mut spare_bytes = bytes % room;
    for (i, l) in wide.into_iter().enumerate() {
        let share = room / count + if i == 0 { room % count } else { 0 };
        let extra = (0..share).map(|_| Token { t: "x".repeat(each + std::mem::take(&mut spare_bytes)), k: TokenKind::Address });
        l.tokens.splice(2..2, extra);
    }
}

fn long(r: &mut Random, most: usize) -> Vec<PseudoLine> {
    let room = r.between(share(most, 900), share(most, 1_000));
    plausible::sized(r, room)
}

fn long_damaged(r: &mut Random, most: usize) -> Vec<PseudoLine> {
    let mut lines = long(r, most);
    for _ in 0..r.between(1, 40) {
        damaged::damage(r, &mut lines);
    }
    lines
}

/// Lines of a body within `int f()`, `{` and `}`.
fn function(most: usize, body: impl Iterator<Item = PseudoLine>) -> Vec<PseudoLine> {
    let mut lines = vec![line(0, "int f()"), line(0, "{")];
    lines.extend(body.take(most - 3));
    lines.push(line(0, "}"));
    lines
}

/// Hundreds of families, each defined and read.
fn many_families(r: &mut Random, most: usize) -> Vec<PseudoLine> {
    let families = r.between(share(most, 100), share(most, 510));
    function(most, (0..most).map(|i| {
        let k = (i / 2) % families;
        if i % 2 == 0 { line(1, &format!("r{k} = {i};")) } else { line(1, &format!("g(r{});", r.below(families))) }
    }))
}

/// Loops within loops, each with a break or continue, then all closed.
fn deep_nesting(r: &mut Random, most: usize) -> Vec<PseudoLine> {
    let depth = r.between(share(most, 200), share(most, 250));
    let opens = (0..depth).flat_map(|d| {
        let open = ["while (rax) {", "do {", "switch (rbx) {", "if (rcx) {"][d % 4];
        let inner = ["rax = 1;", "if (rax) break;", "g(rax);", "continue;"];
        [line(d as u8 + 1, open), line(d as u8 + 2, r.pick(&inner)), line(d as u8 + 2, r.pick(&inner))]
    });
    let opens: Vec<PseudoLine> = opens.collect();
    let closes = (0..depth).rev().map(|d| line(d as u8 + 1, "}"));
    function(most, opens.into_iter().chain(closes))
}

/// Hundreds of labels and gotos, forward and back.
fn many_gotos(r: &mut Random, most: usize) -> Vec<PseudoLine> {
    let labels = most / 3 - 1;
    function(most, (0..3 * labels).map(|i| match i % 3 {
        0 => line(0, &format!("L{}:", i / 3)),
        1 => line(1, &format!("if (rcx) goto L{};", r.below(labels))),
        _ if r.chance(30) => line(1, &format!("rax = {i};")),
        _ => line(1, "g(rax, rcx);"),
    }))
}

/// Hundreds of gotos and of definitions, none of which a goto crosses: each goto leads to the label right behind it or right before it.
pub fn uncrossed() -> Vec<PseudoLine> {
    function(MAX_LINES, (0..MAX_LINES / 3).flat_map(|k| {
        let definition = line(1, &format!("{} = {k};", ["rax", "rbx", "rcx", "r8"][k % 4]));
        let (label, goto) = (line(0, &format!("L{k}:")), line(1, &format!("if (rcx) goto L{k};")));
        if k % 2 == 0 { [definition, goto, label] } else { [definition, label, goto] }
    }))
}

/// The first names `{prefix}16`, `{prefix}17`, .. that a hash takes to one place of its table.
fn colliding(prefix: &str, count: usize, hash: impl Fn(&str) -> u64) -> Vec<String> {
    (16..).map(|n| format!("{prefix}{n}")).filter(|s| hash(s) == 7).take(count).collect()
}

/// The library's hash of a name by a multiplier: four bytes a step, modulo 2^33 - 9, and at the end a square.
fn name_hash(multiplier: u64, s: &str) -> u64 {
    let factor = (multiplier + 65_536).pow(2) / 64;
    let sum = s.as_bytes().chunks(4).fold(1, |h, bytes| {
        let x = (h + bytes.iter().rev().fold(0, |c, &b| c * 256 + u64::from(b))) * factor;
        x % (1 << 33) + 9 * (x >> 33)
    });
    (sum % (1 << 32)).pow(2) >> 16
}

/// The place of a label in the library's table, by its first multiplier.
fn label_place(s: &str) -> u64 {
    name_hash(19_241, s) % 1_023
}

/// The place of a family in the library's table, by its first multiplier.
fn family_place(s: &str) -> u64 {
    name_hash(4_339, s) % 247
}

/// Labels of these names, and 500 lines with five gotos each, the j-th of which leads to the label at place `to(j)`.
fn labels_and_gotos(names: &[String], to: impl Fn(usize) -> usize) -> Vec<PseudoLine> {
    let token = |t: &str, k| Token { t: t.to_string(), k };
    let labels = names.iter().map(|n| line(0, &format!("{n}:")));
    let goto = |j| [token("goto", TokenKind::Keyword), token(&names[to(j)], TokenKind::Symbol)];
    let gotos = (0..500).map(|i| PseudoLine { tokens: (5 * i..5 * i + 5).flat_map(goto).collect(), ..line(1, "return;") });
    function(MAX_LINES, labels.chain(gotos))
}

/// 500 labels whose names collide in the library's table by its first multiplier, and 500 lines with five gotos each.
pub fn colliding_labels() -> Vec<PseudoLine> {
    labels_and_gotos(&colliding("L", 500, label_place), |j| (j / 5 * 7 + j % 5 * 91) % 500)
}

/// 498 labels that fill 166 buckets of the library's table by its first multiplier, and 500 lines with five gotos each, all to the label that is
/// met last in its bucket.
pub fn full_buckets() -> Vec<PseudoLine> {
    let mut buckets = vec![Vec::new(); 166];
    for name in (0..).map(|n| format!("L{n}")) {
        if let Some(bucket) = buckets.get_mut(label_place(&name) as usize).filter(|b| b.len() < 3) {
            bucket.push(name);
        }
        if buckets.iter().all(|b| b.len() == 3) {
            break;
        }
    }
    let names: Vec<_> = (0..498).map(|i| buckets[i % 166][i / 166].clone()).collect();
    labels_and_gotos(&names, |j| j % 166)
}

/// 300 families whose names collide in the library's table by its first multiplier, among hundreds of gotos.
pub fn colliding_families() -> Vec<PseudoLine> {
    let names = colliding("r", 300, family_place);
    let is_definition = |l: &PseudoLine| l.tokens.get(1).is_some_and(|t| t.t.trim() == "=");
    let mut lines = uncrossed();
    for (k, l) in lines.iter_mut().filter(|l| is_definition(l)).enumerate() {
        l.tokens[0].t.clone_from(&names[k % 300]);
    }
    lines
}

/// Values that creep back one line a sweep: each line closes a loop that the line before opens.
fn creeping(r: &mut Random, most: usize) -> Vec<PseudoLine> {
    let families = r.between(1, 12.min(most / 16));
    let loops = r.between(share(most, 800), most - 10 - families);
    let reads = r.chance(70);
    let turn = |k: usize| if reads { format!("}} while (r{}) {{", k % (families + 1)) } else { "} while (1) {".to_string() };
    let turns = (0..loops).map(|k| line(1, &turn(k)));
    let definitions = (0..families).map(|k| line(2, &format!("r{k} = {k};")));
    let end = [line(2, "g(r0, r1);"), line(1, "}"), line(1, "return r0;")];
    function(most, std::iter::once(line(1, "while (1) {")).chain(turns).chain(definitions).chain(end))
}

/// As many lines as there may be, each closing a loop that the line before opens; the last of them define a family each, and each value
/// creeps back to line 1, one line a sweep.
pub fn creeping_back(families: usize) -> Vec<PseudoLine> {
    let token = |t: &str, k| Token { t: t.to_string(), k };
    let turn = || [token("}", TokenKind::Punct), token("while", TokenKind::Keyword), token("{", TokenKind::Punct)];
    let body = (1..MAX_LINES - 1).map(|i| {
        let mut tokens = turn().to_vec();
        if i + families >= MAX_LINES - 1 {
            tokens.splice(0..0, [token(&format!("r{i}"), TokenKind::Register), token(" = ", TokenKind::Punct)]);
            tokens.push(token(";", TokenKind::Punct));
        }
        PseudoLine { address: None, indent: 1, tokens }
    });
    std::iter::once(line(0, "while (1) {")).chain(body).chain([line(0, "}")]).collect()
}

/// Guarded do-while loops one after another, most with initialiser and step.
fn many_loops(r: &mut Random, most: usize) -> Vec<PseudoLine> {
    function(most, (0..most / 7 - 1).flat_map(|_| {
        let v = r.pick(&["rcx", "rax", "r8", "var_8"]);
        let init = line(1, &format!("{} = 0;", if r.chance(80) { v } else { "rbx" }));
        let test = format!("{v} < {}", r.below(9));
        let step = line(3, &format!("{v}++;"));
        let close = line(2, &format!("}} while ({test});"));
        [init, line(1, &format!("if ({test}) {{")), line(2, "do {"), line(3, "g();"), step, close, line(1, "}")]
    }))
}

/// Goto loops one after another; the number of lines lets no pass be quadratic unnoticed.
fn many_goto_loops(r: &mut Random, most: usize) -> Vec<PseudoLine> {
    function(most, (0..most / 7 - 1).flat_map(|k| {
        let v = r.pick(&["rcx", "rax", "r8"]);
        let test = line(1, &format!("if ({v} >= {}) goto E{k};", r.below(9)));
        let (head, exit) = (line(0, &format!("L{k}:")), line(0, &format!("E{k}:")));
        let back = line(1, &format!("goto L{k};"));
        [line(1, &format!("{v} = 0;")), head, test, line(1, "g();"), line(1, &format!("{v}++;")), back, exit]
    }))
}

/// Guarded loops within each other, up to the largest indents.
fn nested_loops(r: &mut Random, most: usize) -> Vec<PseudoLine> {
    let depth = r.between(share(most, 100), share(most, 126));
    let opens = (0..depth).flat_map(|k| {
        let d = 2 * k as u8 + 1;
        [line(d, &format!("r{k} = 0;")), line(d, &format!("if (r{k} < 4) {{")), line(d + 1, "do {"), line(d + 2, "g();")]
    });
    let closes = (0..depth).rev().flat_map(|k| {
        let d = 2 * k as u8 + 1;
        [line(d + 2, &format!("r{k}++;")), line(d + 1, &format!("}} while (r{k} < 4);")), line(d, "}")]
    });
    function(most, opens.chain(closes))
}
