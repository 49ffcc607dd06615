//! Shapes for the loop passes, as rows `INDENT TEXT`.

use crate::random::Random;

/// `recover_loops` stops as a whole at a guard without a close, so that a later overflow is never worked out.
pub fn early_stop(r: &mut Random) -> String {
    let before = r.pick(&["", "1 rcx = 0;", "1 if (rax) {\n2 do {\n3 g();\n2 } while (rax);\n1 }", "255 g();\n1 g();"]);
    let close = r.pick(&["", "", "2 L:", "2 } while (rcx);", "2 } while (rcx);\n1 }", "1 g();"]);
    let overflow = r.pick(&["255 g();\n255 do {", "255 if (rax) {\n254 do {", "255 g();\n255 g();", "254 if (rax) {\n255 do {\n255 g();"]);
    format!("{before}\n1 if (rcx) {{\n2 do {{\n3 g();\n{close}\n{overflow}")
}

/// Conditions, for their negation.
const TESTS: [&str; 34] = [
    "rax == 0 || rbx",
    "rax == 0 && rbx == 0",
    "(rax == 0 || rbx) != 0",
    "(rax && rbx) <= 4",
    "rax == == 0",
    "rax != == 0",
    "rax < > 4",
    "rax <  > 4",
    "rax) == (0",
    "rax)) == ((0 != 1",
    "[k|LOBYTE(]rax) == 0",
    "[k|f(]rax == 0",
    "[k|)]rax == 0",
    "[k|)(]rax == 0",
    "[t|(]rax == 0[t|)]",
    "rax[t| == ]0",
    "rax == 0[t| && ]rbx",
    "rax < 4",
    "rax > 4",
    "rax <= 4",
    "rax >= 4",
    "rax == 0é",
    "é == 😀",
    "a",
    "(a) && (b)",
    "((rax)) >= 4",
    "rax == 0 [p|== 1]",
    "!rax",
    "rax ==0",
    " == ",
    "",
    "rax[p| <][p|= ]4",
    "[p| == ][p| != ]rax",
    "rax[p| =][p|= ]0",
];

/// A goto loop whose leading test is negated.
pub fn leading_test(r: &mut Random) -> String {
    let test = r.pick(&TESTS);
    let init = r.pick(&["", "2 rax = 0;", "2 rax = 0;\n2 rbx = 1;"]);
    let step = r.pick(&["", "2 rax++;", "2 rax -= 2;"]);
    let exit = r.pick(&["1 L2:\n2 return;", "1 L2:\n2 return;", "1 L2:", "2 return;\n1 L2:"]);
    format!("{init}\n1 L1:\n2 if ({test}) goto L2;\n2 g();\n{step}\n2 goto L1;\n{exit}")
}

/// First body lines that are a leading test, or nearly.
const SPLIT_TESTS: [&str; 23] = [
    "if (rax == 0[p|)][p| ]goto L2;",
    "if (rax == 0) break;",
    "if (rax == 0[p|)][t| ]break;",
    "if[p| ][p|(]rax) break;",
    "if (rax) [k|break][p|;]",
    "if (rax) [s|break];",
    "if (rax) break; break;",
    "if (rax) [t|]goto L2;",
    "if ([r|rax) ]break;",
    "if () goto L2;",
    "if (break) break;",
    "if (break) goto L2;",
    "if [p|() ]break;",
    "if[p| () ]break;",
    "if[p| ()][p| ]break;",
    "if (rax) g(); else break;",
    "if (rax) goto L2; goto L1;",
    "if (goto L2) break;",
    "[s|if] (rax) goto L2;",
    "if (rax)  goto L2;",
    "if (rax) goto L2",
    "rax = [k|goto] L2;",
    "if (rax) rbx = goto L1;",
];

/// Leading tests split into tokens in other ways.
pub fn split_leading_test(r: &mut Random) -> String {
    let test = r.pick(&SPLIT_TESTS);
    let indent = r.pick(&[2, 2, 2, 3]);
    let second = r.pick(&["2 g();", "2 if (rbx) goto L2;", "2 if (rbx) goto L1;", "2 if (rbx) {\n3 goto L2;\n2 }"]);
    let exit = r.pick(&["1 L2:", "1 L2:", "0 L2:", "2 L2:"]);
    format!("2 rax = 1;\n1 L1:\n{indent} {test}\n{second}\n2 goto L1;\n{exit}\n2 return;")
}

/// Guards with their closes, the conditions in unusual tokens.
const GUARDS_AND_CLOSES: [(&str, &str); 15] = [
    ("if ([r|rcx) {]", "} while ([r|rcx);]"),
    ("if ([r|rcx) {]", "} while (rcx);"),
    ("if[r| (rcx) {]", "} while[r| (rcx);]"),
    ("if (rcx < [n|4) {]", "} while (rcx < 4);"),
    ("if () {", "} while ();"),
    ("if[p| () {]", "} while[p| ();]"),
    ("if (rcx[p|) ][p|{]", "} while (rcx);"),
    ("if (rcx[p|)][p| {]", "} while (rcx);"),
    ("if [p|(]rcx) {", "} while (rcx);"),
    ("if (if (rcx) {", "} while (if (rcx);"),
    ("if (rcx) {", "while (rcx);"),
    ("if (rcx) {", "} while (rcx) {"),
    ("if (rcx) {", "} while (while (rcx);"),
    ("if (rcx) {[t|]", "} while (rcx);[t|]"),
    ("if ([t|]rcx[t|]) {", "} while (rcx);"),
];

/// Cut tokens keep their kind: a register token may end a condition.
pub fn register_with_brackets(r: &mut Random) -> String {
    let (guard, close) = r.pick(&GUARDS_AND_CLOSES);
    let dos = r.pick(&["do {", "do {", "do {", "[k|do]", "x do;"]);
    format!("1 rcx = 0;\n1 {guard}\n2 {dos}\n3 g();\n3 rcx++;\n2 {close}\n1 }}")
}

/// Lines that step rcx, or nearly.
const STEPS: [&str; 19] = [
    "rcx++;",
    "rcx--;",
    "rcx += 4;é",
    "rcx += 4[t|;]",
    "rcx += 4;[t|]",
    "rcx -= [t|😀]",
    "rcx += é",
    "rcx++[p|;]",
    "rcx[p|+][p|+;]",
    "rcx += ",
    "rcx[t| -= ][t|]",
    "ecx++;",
    "ch--;",
    "rcx++;[t|]",
    "rcx++",
    "rcx *= 2;",
    "[s|rcx]++;",
    "rcx",
    "rax++;",
];

/// Lines that initialise rcx, or nearly.
const INITIALISERS: [&str; 15] = [
    "rcx = 0;",
    "rcx = 0;",
    "rcx = [n|0;]",
    "rcx = 0[p|;]",
    "rcx = [t|é;]",
    "rcx[p| = é;]",
    "rcx[p| = ][p|][p|;]",
    "rcx[p| = ;]",
    "ecx = 0;",
    "cl = 0;",
    "rcx = [r|rcx;]",
    "rcx = rcx + 1;",
    "rcx = 0",
    "rcx = 0;[t|]",
    "rcx = g(0);",
];

/// Steps and initialisers that end in anything: the last code point goes.
pub fn step_and_initialiser(r: &mut Random) -> String {
    let init = r.pick(&INITIALISERS);
    let between = (0..r.below(5)).map(|_| {
        let quiet = ["1 rax = 1;", "1 rax = 1;", "1 rax = 1;", "1 var_8 = 2;", "1 rdx = [t|;]"];
        let void = "1 rax = [k|((void (*)())]1();";
        let stops = ["1 rax = rcx;", "1 rax = g();", "2 rax = 1;", "1 g();", "1 L1:", "1 ", void, "1 rax = g ();"];
        format!("{}\n", if r.chance(85) { r.pick(&quiet) } else { r.pick(&stops) })
    });
    let between: String = between.collect();
    let step = r.pick(&STEPS);
    let body = r.pick(&["3 g(rcx);", "3 g(rcx);", "3 if (rax) continue;", "", "3 [k|break];", "2 L5:"]);
    let test = r.pick(&["rcx < 4", "rcx < 4", "cl", "rax", "rcx && rax", "[s|rcx]"]);
    format!("1 {init}\n{between}1 if ({test}) {{\n2 do {{\n{body}\n3 {step}\n2 }} while ({test});\n1 }}\n1 return;")
}

/// A for header moves up one, and the caller goes on at the next index: a loop on the first body line is passed over.
pub fn passed_over(r: &mut Random) -> String {
    let inner_test = r.pick(&["rbx", "rcx", "rdx < 2"]);
    let guarded = format!("3 if ({inner_test}) {{\n4 do {{\n5 g();\n5 rdx++;\n4 }} while ({inner_test});\n3 }}");
    let gotos = format!("2 L3:\n3 if ({inner_test}) goto L4;\n3 g();\n3 goto L3;\n2 L4:");
    let inner = r.pick(&[&guarded, &gotos]);
    let first = r.pick(&["", "", "3 g();\n", "3 rdx = 0;\n"]);
    let init = r.pick(&["rcx = 0;", "rcx = 0;", "g();", "rdx = 0;"]);
    if r.chance(50) {
        return format!("1 {init}\n1 if (rcx < 4) {{\n2 do {{\n{first}{inner}\n3 rcx++;\n2 }} while (rcx < 4);\n1 }}\n1 return;");
    }
    format!("3 {init}\n2 L1:\n3 if (rcx >= 4) goto L2;\n{first}{inner}\n3 rcx++;\n3 goto L1;\n2 L2:\n3 return;")
}

/// Guarded loops within and after each other, closed in several ways.
pub fn nested_guards(r: &mut Random) -> String {
    let depth = r.between(1, 4);
    let mut open = String::new();
    let mut close = String::new();
    for k in 0..depth {
        let d = 1 + 2 * k;
        let v = r.pick(&["rcx", "rax", "r8d", "var_8"]);
        let init = if r.chance(60) { format!("{d} {v} = 0;\n") } else { String::new() };
        let step = if r.chance(70) { format!("{} {v}++;\n", d + 2) } else { String::new() };
        let end = r.pick(&["}", "}", "}", "}", "} else {", "[t|}]", "g();"]);
        open.push_str(&format!("{init}{d} if ({v} < 4) {{\n{} do {{\n", d + 1));
        close = format!("{step}{} }} while ({v} < {});\n{d} {end}\n{close}", d + 1, if r.chance(85) { 4 } else { 5 });
    }
    let body = r.pick(&["", "g();", "break;", "continue;", "L9:"]);
    let body = if body.is_empty() { String::new() } else { format!("{} {body}\n", 2 * depth + r.below(2)) };
    format!("0 int f()\n0 {{\n{open}{body}{close}1 return rax;\n0 }}")
}

/// Lines with a goto, and some without.
const JUMPS: [&str; 17] = [
    "goto L1;",
    "goto L2;",
    "goto L3;",
    "goto L2, L1;",
    "goto g(L1);",
    "goto [a|L1] L2;",
    "if (f(rax)) goto L2; goto L1;",
    "if (rax) goto L1;",
    "if (L1) goto L2;",
    "goto *rax;",
    "goto",
    "goto [r|L1];",
    "g();",
    "g();",
    "g();",
    "rax = 1;",
    "return rax;",
];

/// Equal labels, labels within the body, targets by the first symbol only, jumps into the body.
pub fn labels_and_targets(r: &mut Random) -> String {
    let labels = ["L1:", "L2:", "L3:", "L2[t|:]", "[s|L3][k|:]", "[t|L3]:", "L3: ", "L3[p|:][t|]"];
    let mut row = |label_share: usize| {
        if r.chance(label_share) {
            return format!("{} {}\n", r.pick(&[1, 1, 1, 2, 0]), r.pick(&labels));
        }
        format!("2 {}\n", r.pick(&JUMPS))
    };
    let before: String = (0..2).map(|_| row(15)).collect();
    let body: String = (0..2).map(|_| row(20)).collect();
    let after: String = (0..3).map(|_| row(45)).collect();
    format!("0 int f()\n{before}1 L1:\n{body}2 goto L1;\n{after}0 g();")
}

/// Loops of the fewest tokens and bytes, which a pass makes larger: names may be empty, and a goto may stand without blank.
pub fn growing(r: &mut Random) -> String {
    let (head, exit) = r.pick(&[("", "E"), ("L", ""), ("L", "E"), ("", "")]);
    let test = r.pick(&["", "2 [k|if][p| () ][k|goto]EXIT\n", "2 [k|if][p| (][p|) ][k|goto]EXIT\n", "2 [k|if][p| ( == ) ][k|goto]EXIT\n"]);
    let jumps = ["2 [k|goto]HEAD\n", "2 [k|goto]EXIT\n", "2 \n", "1 [s|x]:\n"];
    let body: String = (0..r.between(1, 4)).map(|_| r.pick(&jumps)).collect();
    let loops = r.between(1, 3);
    let rows = format!("1 HEAD:\n{test}{body}2 [t|goto {head};]\n1 EXIT:\n");
    let one = rows.replace("HEAD", &format!("[s|{head}]")).replace("EXIT", &format!("[s|{exit}]"));
    let rest: String = (1..loops).map(|k| format!("1 [s|{k}]:\n2 [k|goto][s|{k}]\n2 [t|goto {k};]\n")).collect();
    format!("{one}{rest}2 ")
}

/// Each place where an indent can leave 0 to 255, and its neighbours that stay within.
pub fn overflow(r: &mut Random) -> String {
    let d = r.pick(&[252usize, 253, 254, 255]);
    let e = (d + 1).min(255);
    let (deep, low) = (r.pick(&[253, 254, 255]), r.pick(&[0, 0, 1, 2]));
    let rows = [
        format!("{d} L1:\n{e} g();\n{e} goto L1;\n{d} L2:"),
        format!("{d} L1:\n{d} L2:\n{e} goto L1;\n{d} L3:"),
        format!("{d} L1:\n{d} g();\n{d} g();"),
        format!("{d} L1:\n{d} g();"),
        format!("1 L1:\n{deep} g();\n2 goto L1;\n1 L2:"),
        format!("1 L1:\n2 if (rax) goto L2;\n{deep} g();\n2 goto L1;\n1 L2:"),
        format!("1 if (rcx) {{\n2 do {{\n{low} L1:\n3 g();\n2 }} while (rcx);\n1 }}"),
        format!("0 if (rcx) {{\n1 do {{\n{low} L1:\n2 g();\n1 }} while (rcx);\n0 }}"),
        format!("{d} if (rcx) {{\n{e} do {{\n{e} }} while (rcx);\n{d} }}"),
        format!("{d} g();\n{e} do {{\n{d} g();"),
        format!("{d} if (rcx) {{\n{deep} g();\n{d} {{\n{deep} x do"),
    ];
    r.pick(&rows.each_ref()).clone()
}
