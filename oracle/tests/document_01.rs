//! Document 01's listings to try, 1 to 11, with the answers its text gives.

use oracle::answers::{choose, recover_goto_loops, recover_loops, webs, Choice, Webs, NO_FAMILY};
use oracle::model::TokenKind;
use oracle::notation::listing;
use oracle::pseudo::PseudoLine;

/// A body at indent 1 within `int f()`, `{` and `}`.
fn body(rows: &str) -> Vec<PseudoLine> {
    let rows: String = rows.lines().map(|r| format!("1 {}\n", r.trim())).collect();
    listing(&format!("0 int f()\n0 {{\n{rows}0 }}"))
}

fn text(l: &PseudoLine) -> String {
    l.tokens.iter().map(|t| t.t.as_str()).collect()
}

fn texts(lines: &[PseudoLine]) -> Vec<String> {
    lines.iter().map(text).collect()
}

/// The number and mark of one token.
fn entry(lines: &[PseudoLine], w: &Webs, line: usize, tok: usize) -> (u32, u8) {
    let at = lines[..line].iter().map(|l| l.tokens.len()).sum::<usize>() + tok;
    (w.numbers[at], w.marks[at])
}

/// The rows that the web program prints, as line, token, number and mark.
fn rows(lines: &[PseudoLine]) -> Vec<(usize, usize, u32, u8)> {
    let w = webs(lines).unwrap();
    let places = lines.iter().enumerate().flat_map(|(i, l)| (0..l.tokens.len()).map(move |k| (i, k)));
    let all = places.map(|(i, k)| (i, k, entry(lines, &w, i, k)));
    all.filter(|(_, _, e)| e.0 != NO_FAMILY).map(|(i, k, (number, mark))| (i, k, number, mark)).collect()
}

#[test]
fn listing_1_two_values_have_two_webs() {
    let mut lines = body("rax = 1;\n g(rax);\n rax = 2;\n return rax;");
    lines[5].tokens[1].k = TokenKind::Punct;
    assert_eq!(rows(&lines), [(2, 0, 1, 1), (3, 2, 1, 0), (4, 0, 2, 1), (5, 2, 2, 0)]);
}

#[test]
fn listing_2_both_branches_are_one_web() {
    let lines = body("if (rbx) {\n rax = 1;\n } else {\n rax = 2;\n }\n return rax;");
    assert_eq!(rows(&lines), [(2, 2, 0, 0), (3, 0, 1, 1), (5, 0, 1, 1), (7, 2, 1, 0)]);
}

#[test]
fn listing_3_no_edge_arrives_at_the_else_line() {
    let lines = body("rcx = 1;\n if (rax) {\n g();\n } else if (rcx) {\n g();\n }");
    assert_eq!(rows(&lines), [(2, 0, 1, 1), (3, 2, 0, 0), (5, 5, 0, 0)]);
}

#[test]
fn listing_4_a_guarded_loop_becomes_for() {
    let lines = listing(
        "1 rcx = 0;
         1 if (rcx < 4) {
         2 do {
         3 g(rcx);
         3 rcx++;
         2 } while (rcx < 4);
         1 }",
    );
    let after = recover_loops(&lines).unwrap();
    assert_eq!(texts(&after), ["for (rcx = 0; rcx < 4; rcx++) {", "g(rcx);", "}"]);
    assert_eq!(after.iter().map(|l| l.indent).collect::<Vec<_>>(), [1, 2, 1]);
}

#[test]
fn listing_5_the_initialiser_stands_at_most_four_lines_up() {
    let header = |between: usize| {
        let rows: String = (0..between).map(|k| format!("1 r{} = 1;\n", 8 + k)).collect();
        let rest = "1 if (rcx < 4) {\n2 do {\n3 g(rcx);\n3 rcx++;\n2 } while (rcx < 4);\n1 }";
        let after = recover_loops(&listing(&format!("1 rcx = 0;\n{rows}{rest}"))).unwrap();
        texts(&after).into_iter().find(|t| t.ends_with(") {")).unwrap()
    };
    assert_eq!(header(3), "for (rcx = 0; rcx < 4; rcx++) {");
    assert_eq!(header(4), "while (rcx < 4) {");
}

/// The goto loop of listings 6 and 11, with its leading test.
fn goto_loop(test: &str) -> Vec<PseudoLine> {
    listing(&format!("1 L1:\n2 if ({test}) goto L2;\n2 g();\n2 goto L1;\n1 L2:\n2 return;"))
}

#[test]
fn listing_6_a_goto_loop_becomes_while() {
    let after = recover_goto_loops(&goto_loop("rax == 0")).unwrap();
    assert_eq!(texts(&after), ["while (rax != 0) {", "g();", "}", "L2:", "return;"]);
    assert_eq!(after.iter().map(|l| l.indent).collect::<Vec<_>>(), [2, 3, 2, 1, 2]);
}

#[test]
fn listing_7_short_label_loops_stay() {
    for rows in ["1 L1:\n2 goto L1;", "1 L1:\n2 goto L1;\n2 g();\n2 g();"] {
        let lines = listing(rows);
        assert_eq!(recover_goto_loops(&lines).as_ref(), Ok(&lines));
    }
}

#[test]
fn listing_8_a_label_at_indent_255_is_refused_6() {
    assert_eq!(recover_goto_loops(&listing("255 L1:\n255 g();\n255 g();")), Err(6));
    assert!(recover_goto_loops(&listing("255 L1:\n255 g();")).is_ok());
    assert!(recover_loops(&listing("255 L1:\n255 g();\n255 g();")).is_ok());
}

#[test]
fn listing_9_narrow_writes_and_self_reads_do_not_define() {
    let mark = |row: &str| {
        let lines = body(row);
        entry(&lines, &webs(&lines).unwrap(), 2, 0)
    };
    assert_eq!(mark("eax = 1;"), (1, 1));
    assert_eq!(mark("ax = 1;"), (0, 0));
    assert_eq!(mark("rax = rax + 1;"), (0, 0));
}

#[test]
fn listing_10_one_line_is_refused_7_and_a_lone_brace_8() {
    assert_eq!(webs(&listing("0 int f()")), Err(7));
    assert_eq!(webs(&listing("0 int f()\n0 }")), Err(8));
    assert_eq!(webs(&listing("0 int f()\n0 goto L1;")), Err(9));
    assert!(matches!(choose(&listing("0 int f()\n0 }")), Choice::Splits(Webs { sweeps: 0, .. })));
}

#[test]
fn listing_11_two_comparisons_are_negated_as_a_whole() {
    let after = recover_goto_loops(&goto_loop("rax == 0 && rbx == 0")).unwrap();
    assert_eq!(text(&after[0]), "while (!(rax == 0 && rbx == 0)) {");
}

/// The traps that document 01 names after its listings.
#[test]
fn traps() {
    let three = body("if (rbx) {\n rax = 1;\n } else if (rbx) {\n rax = 2;\n } else {\n rax = 3;\n }\n return rax;");
    assert!(rows(&three).iter().filter(|r| three[r.0].tokens[r.1].t == "rax").all(|r| r.2 == 1));
    let round = listing("0 L0:\n0 {\n1 g(rax);\n1 rax = 1;\n1 goto L0;\n0 }");
    assert_eq!(rows(&round), [(2, 2, 0, 0), (3, 0, 1, 1)]);
    let twice = body("rax = 1;\n goto L1;\n L1:\n rax = 2;\n L1:\n return rax;");
    assert_eq!(rows(&twice), [(2, 0, 1, 1), (5, 0, 1, 1), (7, 2, 1, 0)]);
}
