//! Listings as the original prints them: structured code over a few registers, with guarded do-while loops and goto loops,
//! which the passes rewrite, drawn most often.

use crate::model::{Token, TokenKind};
use crate::notation;
use crate::pseudo::PseudoLine;
use crate::random::Random;

/// Families with their names of 64, 32, 16 and 8 bits.
const FAMILIES: [[&str; 4]; 14] = [
    ["rax", "eax", "ax", "al"],
    ["rcx", "ecx", "cx", "cl"],
    ["rdx", "edx", "dx", "dl"],
    ["rbx", "ebx", "bx", "bl"],
    ["rsi", "esi", "si", "sil"],
    ["rdi", "edi", "di", "dil"],
    ["rbp", "ebp", "bp", "bpl"],
    ["rsp", "esp", "sp", "spl"],
    ["r8", "r8d", "r8w", "r8b"],
    ["r9", "r9d", "r9w", "r9l"],
    ["r10", "r10d", "r10w", "r10b"],
    ["r12", "r12d", "r12w", "r12b"],
    ["r15", "r15d", "r15w", "r15l"],
    ["r13", "r13d", "r13w", "r13b"],
];
const OTHERS: [&str; 12] = ["var_8", "var_18", "var_20", "arg_0", "arg_8", "rip", "ah", "bh", "ch", "dh", "rsp", "spl"];
const COMPARISONS: [&str; 6] = ["==", "!=", "<", ">", "<=", ">="];

/// A listing of about 12 lines, now and then of up to 40.
pub fn listing(r: &mut Random) -> Vec<PseudoLine> {
    let room = if r.chance(85) { r.between(3, 9) } else { r.between(10, 32) };
    sized(r, room)
}

/// A listing of about so many lines.
pub fn sized(r: &mut Random, room: usize) -> Vec<PseudoLine> {
    let families = (0..r.between(2, 4)).map(|_| r.pick(&FAMILIES)).collect();
    let whole = r.chance(90);
    let indent = if whole || r.chance(80) { 1 } else { r.between(2, 4) as u8 };
    let mut w = Writer { r, lines: Vec::new(), room, families, placed: Vec::new(), wanted: Vec::new(), labels: 0 };
    if whole {
        w.signature();
    }
    while w.room > 0 {
        w.statement(indent, false);
    }
    w.place_wanted(indent);
    if whole {
        w.put(0, "}");
    }
    w.lines
}

struct Writer<'a> {
    r: &'a mut Random,
    lines: Vec<PseudoLine>,
    /// Lines that may still be added; at 0 only what is begun is ended.
    room: usize,
    families: Vec<[&'static str; 4]>,
    /// Labels that stand in the listing, and those that a goto still needs.
    placed: Vec<String>,
    wanted: Vec<String>,
    labels: usize,
}

impl Writer<'_> {
    fn put(&mut self, indent: u8, text: &str) {
        let mut l = notation::line(indent, text);
        if self.r.chance(70) {
            l.address = Some(0x1400_01000 + 4 * self.lines.len() as u64);
        }
        if self.r.chance(8) {
            self.vary(&mut l);
        }
        self.lines.push(l);
        self.room = self.room.saturating_sub(1);
    }

    /// The same text in other tokens: a punct token as two, or a blank after a keyword as punct.
    fn vary(&mut self, l: &mut PseudoLine) {
        let split = self.r.chance(50);
        for k in (0..l.tokens.len()).rev() {
            let t = &mut l.tokens[k];
            if split && t.k == TokenKind::Punct && t.t.len() > 1 {
                let rest = Token { t: t.t.split_off(1), k: t.k };
                l.tokens.insert(k + 1, rest);
                return;
            }
            if !split && t.k == TokenKind::Text {
                t.k = TokenKind::Punct;
            }
        }
    }

    fn signature(&mut self) {
        let parameter = self.families[0][0];
        let text = ["int f()".to_string(), format!("__int64 f(__int64 {parameter})"), "void f()".to_string()];
        let text = self.r.pick(&text.each_ref()).clone();
        self.put(0, &text);
        self.put(0, "{");
    }

    fn register(&mut self) -> &'static str {
        if self.r.chance(12) {
            return self.r.pick(&OTHERS);
        }
        let width = self.r.pick(&[0, 0, 0, 0, 0, 1, 1, 1, 2, 3]);
        let family = self.r.below(self.families.len());
        self.families[family][width]
    }

    /// A register of 64 or 32 bits among the listing's few.
    fn wide(&mut self) -> &'static str {
        let family = self.r.below(self.families.len());
        self.families[family][usize::from(self.r.chance(30))]
    }

    fn number(&mut self) -> String {
        let n = self.r.below(40);
        if n < 10 { n.to_string() } else { format!("{n:#x}") }
    }

    fn value(&mut self) -> String {
        let (a, b, n) = (self.register(), self.register(), self.number());
        match self.r.below(10) {
            0..=4 => n,
            5 => a.to_string(),
            6 => format!("{a} + {n}"),
            7 => format!("({a} * {n}) - {b}"),
            8 => format!("g({a})"),
            _ => format!("[k|*(_DWORD *)(]{a} + {n})"),
        }
    }

    /// A condition that names `v` most of the time.
    fn condition(&mut self, v: &str) -> String {
        let (op, other) = (self.r.pick(&COMPARISONS), self.r.pick(&COMPARISONS));
        let (a, n, m) = (self.register(), self.number(), self.number());
        match self.r.below(16) {
            0..=8 => format!("{v} {op} {n}"),
            9 => v.to_string(),
            10 => format!("{v} {op} {n} && {a} {other} {m}"),
            11 => format!("({v} {op} {n}) || ({a} {other} {m})"),
            12 => format!("({v} & {n}) {op} {m}"),
            13 => format!("g({v}) {op} {n}"),
            14 => format!("{a} {op} {n}"),
            _ => format!("[k|LOBYTE(]{v}) {op} {n}"),
        }
    }

    fn any_condition(&mut self) -> String {
        let v = self.register();
        self.condition(v)
    }

    fn step(&mut self, v: &str) -> String {
        let n = self.number();
        match self.r.below(5) {
            0 | 1 => format!("{v}++;"),
            2 => format!("{v}--;"),
            3 => format!("{v} += {n};"),
            _ => format!("{v} -= {n};"),
        }
    }

    fn statement(&mut self, d: u8, in_loop: bool) {
        if self.room < 4 || d > 200 || self.r.chance(45) {
            return self.simple(d, in_loop);
        }
        match self.r.below(12) {
            0..=3 => self.guarded_loop(d),
            4..=6 => self.goto_loop(d),
            7 | 8 => self.branches(d, in_loop),
            9 => self.switch(d),
            _ => self.plain_loop(d),
        }
    }

    fn block(&mut self, d: u8, in_loop: bool) {
        for _ in 0..self.r.pick(&[0, 1, 1, 1, 2, 2, 3]) {
            self.statement(d, in_loop);
        }
    }

    fn simple(&mut self, d: u8, in_loop: bool) {
        let (v, a, value) = (self.wide(), self.register(), self.value());
        let text = match self.r.below(20) {
            0..=5 => format!("{v} = {value};"),
            6 => format!("{a} = {value};"),
            7 => format!("{v} = {v} + {value};"),
            8 => self.step(a),
            9 | 10 => format!("g({a});"),
            11 => format!("{v} = g({a}, {value});"),
            12 if self.r.chance(40) => format!("g(&{v}, {a});"),
            12 => format!("[k|*(_DWORD *)(]{a} + 8) = {v};"),
            13 => format!("if ({}) {v} = {value};", self.any_condition()),
            14 => format!("g({v}, {a}, {value});"),
            15 => "return rax;".to_string(),
            16 if self.r.chance(30) => "__asm { [t|int 0x29] }".to_string(),
            16 => format!("return {v};"),
            _ => return self.jump(d, in_loop),
        };
        self.put(d, &text);
    }

    fn jump(&mut self, d: u8, in_loop: bool) {
        let test = if self.r.chance(60) { format!("if ({}) ", self.any_condition()) } else { String::new() };
        let target = match self.r.below(10) {
            0..=4 if in_loop => (if self.r.chance(60) { "break" } else { "continue" }).to_string(),
            0 | 1 if self.r.chance(8) => format!("goto *{}", self.wide()),
            _ if !self.placed.is_empty() && self.r.chance(40) => format!("goto {}", self.placed[self.r.below(self.placed.len())]),
            _ if !self.wanted.is_empty() && self.r.chance(50) => format!("goto {}", self.wanted[self.r.below(self.wanted.len())]),
            2 => format!("goto {}", self.wanted_label()),
            _ => return self.put(d, "g();"),
        };
        self.put(d, &format!("{test}{target};"));
    }

    fn new_label(&mut self) -> String {
        self.labels += 1;
        format!("loc_{:x}", 0x1000 + 16 * self.labels)
    }

    fn wanted_label(&mut self) -> String {
        let l = self.new_label();
        self.wanted.push(l.clone());
        l
    }

    fn label(&mut self, d: u8, name: &str) {
        self.put(d.saturating_sub(1), &format!("{name}:"));
        self.placed.push(name.to_string());
    }

    /// Places the labels that gotos still need, but for a few.
    fn place_wanted(&mut self, d: u8) {
        for name in std::mem::take(&mut self.wanted) {
            if self.r.chance(90) {
                self.label(d, &name);
                self.put(d, "return rax;");
            }
            if self.r.chance(5) {
                self.label(d, &name);
            }
        }
    }

    /// `v = 0;` and up to five lines between it and a loop, which mostly leave v alone.
    fn initialiser(&mut self, d: u8, v: &str) {
        let n = self.number();
        self.put(d, &format!("{v} = {n};"));
        for _ in 0..self.r.pick(&[0, 0, 0, 0, 1, 1, 2, 3, 4, 5]) {
            let (a, n) = (self.wide(), self.number());
            match self.r.below(12) {
                0 => self.put(d, "g();"),
                1 => self.put(d, &format!("{a} = {v};")),
                2 => self.put(d, &format!("{a} = g({n});")),
                3 => self.put(d, &format!("{v} = {n};")),
                4 => self.put(d + 1, &format!("{a} = {n};")),
                _ => self.put(d, &format!("var_{} = {n};", n.trim_start_matches("0x"))),
            }
        }
    }

    /// `if (C) { do { .. } while (C); }`, the shape of `recover_loops`.
    fn guarded_loop(&mut self, d: u8) {
        let v = self.wide();
        let c = self.condition(v);
        if self.r.chance(75) {
            self.initialiser(d, v);
        }
        self.put(d, &format!("if ({c}) {{"));
        self.put(d + 1, "do {");
        self.block(d + 2, true);
        if self.r.chance(75) {
            let step = self.step(v);
            self.put(d + 2, &step);
        } else if self.r.chance(50) {
            self.put(d + 2, "g();");
        }
        let last = if self.r.chance(90) { c } else { self.condition(v) };
        self.put(d + 1, &format!("}} while ({last});"));
        self.put(d, "}");
    }

    /// `H: if (C) goto E; .. goto H; E:`, the shape of `recover_goto_loops`.
    fn goto_loop(&mut self, d: u8) {
        let (head, exit, v) = (self.new_label(), self.new_label(), self.wide());
        if self.r.chance(75) {
            self.initialiser(d, v);
        }
        self.label(d, &head);
        if self.r.chance(80) {
            let c = self.condition(v);
            self.put(d, &format!("if ({c}) goto {exit};"));
        }
        self.block(d, false);
        for (target, percent) in [(&head, 10), (&exit, 20)] {
            if self.r.chance(percent) {
                let c = self.any_condition();
                self.put(d, &format!("if ({c}) goto {target};"));
            }
        }
        if self.r.chance(80) {
            let step = self.step(v);
            self.put(d, &step);
        }
        self.put(d, &format!("goto {head};"));
        if self.r.chance(95) {
            self.label(d, &exit);
        }
        if self.r.chance(4) {
            self.label(d, &head);
        }
    }

    fn branches(&mut self, d: u8, in_loop: bool) {
        let c = self.any_condition();
        self.put(d, &format!("if ({c}) {{"));
        self.block(d + 1, in_loop);
        for _ in 0..self.r.pick(&[0, 0, 0, 1, 2]) {
            let c = self.any_condition();
            self.put(d, &format!("}} else if ({c}) {{"));
            self.block(d + 1, in_loop);
        }
        if self.r.chance(60) {
            self.put(d, "} else {");
            self.block(d + 1, in_loop);
        }
        self.put(d, "}");
    }

    fn switch(&mut self, d: u8) {
        let v = self.wide();
        self.put(d, &format!("switch ({v}) {{"));
        for n in 0..self.r.between(1, 3) {
            if self.r.chance(30) {
                let target = self.wanted_label();
                self.put(d + 1, &format!("case {n}: goto {target};"));
                continue;
            }
            let case = if self.r.chance(80) { format!("case {n}:") } else { "default:".to_string() };
            self.put(d + 1, &case);
            self.block(d + 2, true);
            if self.r.chance(60) {
                self.put(d + 2, "break;");
            }
        }
        self.put(d, "}");
    }

    /// A loop as later passes print it.
    fn plain_loop(&mut self, d: u8) {
        let v = self.wide();
        let (c, step) = (self.condition(v), self.step(v));
        let (open, close) = match self.r.below(4) {
            0 => (format!("while ({c}) {{"), "}".to_string()),
            1 => (format!("for ({v} = 0; {c}; {}) {{", step.trim_end_matches(';')), "}".to_string()),
            2 => ("while (1) {".to_string(), "}".to_string()),
            _ => ("do {".to_string(), format!("}} while ({c});")),
        };
        self.put(d, &open);
        self.block(d + 1, true);
        self.put(d, &close);
    }
}
