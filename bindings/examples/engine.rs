//! The engine's own calls on a short listing: a guarded do-while loop becomes a `for`, then each register is printed with its variable.
//!   cargo run --release --offline --manifest-path bindings/Cargo.toml --example engine

use javrenzu::engine::{recover_goto_loops, recover_loops, PseudoLine, Seg, Token, TokenKind};

/// A line of tokens, each with the first letter of its kind.
fn line(indent: u8, tokens: &[(&str, char)]) -> PseudoLine {
    let kind = |k| match k {
        'r' => TokenKind::Register,
        'n' => TokenKind::Number,
        'k' => TokenKind::Keyword,
        's' => TokenKind::Symbol,
        _ => TokenKind::Punct,
    };
    let tokens = tokens.iter().map(|&(t, k)| Token { t: t.to_string(), k: kind(k) }).collect();
    PseudoLine { address: None, indent, tokens }
}

fn main() {
    let mut lines = vec![
        line(0, &[("f", 's'), ("()", 'p')]),
        line(0, &[("{", 'p')]),
        line(1, &[("rcx", 'r'), (" = ", 'p'), ("0", 'n'), (";", 'p')]),
        line(1, &[("if", 'k'), (" (", 'p'), ("rcx", 'r'), (" < ", 'p'), ("4", 'n'), (") {", 'p')]),
        line(2, &[("do", 'k'), (" {", 'p')]),
        line(3, &[("g", 's'), ("(", 'p'), ("rcx", 'r'), (");", 'p')]),
        line(3, &[("rcx", 'r'), ("++;", 'p')]),
        line(2, &[("} ", 'p'), ("while", 'k'), (" (", 'p'), ("rcx", 'r'), (" < ", 'p'), ("4", 'n'), (");", 'p')]),
        line(1, &[("}", 'p')]),
        line(1, &[("rcx", 'r'), (" = ", 'p'), ("h", 's'), ("();", 'p')]),
        line(1, &[("return", 'k'), (" ", 'p'), ("rcx", 'r'), (";", 'p')]),
        line(0, &[("}", 'p')]),
    ];
    recover_goto_loops(&mut lines);
    recover_loops(&mut lines);
    let seg = Seg::new(&lines, true);
    for (i, l) in lines.iter().enumerate() {
        let word = |(k, t): (usize, &Token)| match t.k {
            TokenKind::Register => seg.key(&t.t, i, k),
            _ => t.t.clone(),
        };
        println!("{}{}", "    ".repeat(l.indent.into()), l.tokens.iter().enumerate().map(word).collect::<String>());
    }
}
