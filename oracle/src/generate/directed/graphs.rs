//! Shapes for the flow graph, webs and splits, as rows `INDENT TEXT`.

use crate::random::Random;

/// Lines with the blocks that they close and then open.
const BLOCK_LINES: [(&str, usize, usize); 37] = [
    ("if (rax) {", 0, 1),
    ("while (rax) {", 0, 1),
    ("do {", 0, 1),
    ("switch (rbx) {", 0, 1),
    ("for (;;) {", 0, 1),
    ("{", 0, 1),
    ("if (rax) { while (rbx) {", 0, 2),
    ("} else {", 1, 1),
    ("} else {", 1, 1),
    ("} else if (rax) {", 1, 1),
    ("} else if (rax) {", 1, 1),
    ("} else", 1, 0),
    ("else {", 0, 1),
    ("else { }", 0, 0),
    ("{ } else {", 0, 1),
    ("}}", 2, 0),
    ("} while (rbx) {", 1, 1),
    ("} while (rbx);", 1, 0),
    ("}{", 1, 1),
    ("} } {", 2, 1),
    ("{ }{", 0, 1),
    ("}", 1, 0),
    ("__asm { [t|x] }", 0, 0),
    ("[t|{]", 0, 0),
    ("case 1:", 0, 0),
    ("default: rax = 5;", 0, 0),
    ("break;", 0, 0),
    ("if (rax) continue;", 0, 0),
    ("goto L1;", 0, 0),
    ("L1:", 0, 0),
    ("rax = 1;", 0, 0),
    ("rax = 2;", 0, 0),
    ("rax = } while {;", 1, 1),
    ("rbx = 1;", 0, 0),
    ("g(rax);", 0, 0),
    ("g(rbx);", 0, 0),
    ("return rax;", 0, 0),
];

/// Lines that open and close blocks in every way, closed at the end.
pub fn braces(r: &mut Random) -> String {
    let mut open = 0;
    let mut rows = vec!["0 int f()".to_string()];
    for _ in 0..r.between(4, 14) {
        let (text, closes, opens) = r.pick(&BLOCK_LINES);
        if closes <= open {
            open = open - closes + opens;
            rows.push(format!("1 {text}"));
        }
    }
    let ends = ["}", "} while (rax);", "} else", "}"];
    rows.extend((0..open).map(|_| format!("1 {}", r.pick(&ends))));
    if rows.iter().any(|l| l == "1 goto L1;") && r.chance(90) {
        rows.insert(r.between(1, rows.len()), "1 L1:".to_string());
    }
    if r.chance(60) {
        rows.push("1 return rax;".to_string());
    }
    rows.join("\n")
}

/// No line, one line or two.
pub fn short(r: &mut Random) -> String {
    let rows = ["0 int f()", "1 rax = 1;", "0 }", "0 {", "1 g(rax);", "1 L1:", "2 goto L1;", "2 do {", "1 if (rax) {", "0 ", "0 { }"];
    let row = |r: &mut Random| r.pick(&rows);
    match r.below(12) {
        0 | 1 => String::new(),
        2 => format!("{}\n{}", row(r), row(r)),
        _ => row(r).to_string(),
    }
}

/// Definitions, reads and jumps around line 0.
const LINE_0_STATEMENTS: [&str; 28] = [
    "g(rax);",
    "rax = 1;",
    "rax = 2;",
    "goto L0;",
    "if (rbx) goto L0;",
    "rsp = 2;",
    "g(rsp);",
    "g(&rsp);",
    "rsp = rsp - 8;",
    "var_8 = 3;",
    "g(var_8);",
    "g(&var_8);",
    "L0:",
    "L0:",
    "g(rax, &rbx);",
    "g(rax &rbx);",
    "rbx = [t|&]rax;",
    "rbx = 1;",
    "g(rbx);",
    "[r|rax;]",
    "rax = [r|rax;]",
    "rax = [r|rbx;]",
    "al = 1;",
    "r08 = 1;",
    "r8 = 2;",
    "g(r8, r08);",
    "rax = [t|];",
    "rax = ;",
];

/// Line 0 as a label or an assignment; values that would come round through it.
pub fn round_line_0(r: &mut Random) -> String {
    let first = r.pick(&["0 L0:", "0 L0:", "0 rax = 1;", "0 g(&rax);", "0 while (rax) {", "0 goto L0;"]);
    let body: Vec<String> = (0..r.between(2, 8)).map(|_| format!("1 {}", r.pick(&LINE_0_STATEMENTS))).collect();
    let close = if first.ends_with('{') { "\n0 }" } else { "" };
    let label = if r.chance(70) { "\n0 L0:" } else { "" };
    format!("{first}\n{}{}{close}", body.join("\n"), if first.starts_with("0 L0") { "" } else { label })
}

/// Reads that several definitions reach, linked in chains.
pub fn many_definitions(r: &mut Random) -> String {
    let cases = r.between(2, 6);
    let mut rows = String::from("0 int f()\n0 {\n");
    if r.chance(40) {
        rows.push_str("1 rax = 9;\n");
    }
    let looping = r.pick(&["", "", "1 while (rcx) {\n", "1 do {\n"]);
    rows.push_str(looping);
    rows.push_str("1 switch (rbx) {\n");
    for k in 0..cases {
        rows.push_str(&format!("2 case {k}:\n3 rax = {k};\n"));
        if r.chance(30) {
            rows.push_str("3 g(rax);\n");
        }
        rows.push_str(r.pick(&["3 break;\n", "3 break;\n", "", "3 goto L1;\n", "3 continue;\n"]));
    }
    rows.push_str("1 }\n");
    rows.push_str(r.pick(&["1 g(rax);\n", "1 rax = 7;\n", "1 rcx = 7;\n", ""]));
    if !looping.is_empty() {
        rows.push_str(r.pick(&["1 }\n", "1 } while (rax);\n"]));
    }
    rows.push_str(r.pick(&["0 L1:\n1 return rax;\n0 }", "0 L1:\n1 rax = 1;\n1 return rax;\n0 }", "1 return rax;\n0 L1:\n0 }"]));
    rows
}

/// Definitions that split or not, and what crosses them.
const SPLIT_STATEMENTS: [&str; 20] = [
    "1 rax = 1;",
    "1 rax = 2;",
    "1 eax = 3;",
    "1 rax = rax + 1;",
    "1 ax = 4;",
    "2 rax = 5;",
    "1 rsp = 6;",
    "1 var_8 = 7;",
    "1 g(&rax);",
    "1 g(rax, rsp);",
    "1 goto L1;",
    "1 goto L2;",
    "1 goto L3; goto L1;",
    "1 L1:",
    "0 L1:",
    "0 L2:",
    "1 rcx = 8;",
    "1 g(rcx);",
    "1 goto *rax;",
    "1 }",
];

/// Definitions at indent 1 that jumps cross or not, for the splits; webs often refuse these.
pub fn crossing_jumps(r: &mut Random) -> String {
    let body: Vec<&str> = (0..r.between(3, 10)).map(|_| r.pick(&SPLIT_STATEMENTS)).collect();
    format!("{}\n{}", r.pick(&["0 int f()", "1 rax = 0;", "0 L1:"]), body.join("\n"))
}
