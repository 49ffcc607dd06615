//! A line from its text, split into tokens as the original prints lines.
//!
//! Words are keywords, registers, numbers or symbols; what stands between them is one punct token, but a lone blank after a
//! keyword is text (`goto L1;` is keyword, text, symbol, punct). `[r|rcx) {]` is a token given outright: the letter is the
//! kind's first, with `x` for prefix, and the text runs to the next `]`.

use crate::model::{Token, TokenKind};
use crate::pseudo::PseudoLine;
use crate::pseudo_opt::family;

const KEYWORDS: [&str; 17] = [
    "if", "else", "do", "while", "for", "switch", "case", "default", "break", "continue", "goto", "return", "int", "void", "char",
    "__int64", "__asm",
];

/// The listings of a file, each with its name: a row `# NAME: what it shows` starts one, and the rows up to the next such row are its lines.
pub fn listings(file: &str) -> Vec<(String, Vec<PseudoLine>)> {
    let named = |part: &str| {
        let (title, rows) = part.split_once('\n').unwrap_or((part, ""));
        let name = title.split(':').next().expect("a split has a first part");
        (name.to_string(), listing(rows))
    };
    format!("\n{file}").split("\n# ").skip(1).map(named).collect()
}

/// A listing of lines `INDENT TEXT`, one to a row; rows may be indented, empty rows are passed over.
pub fn listing(rows: &str) -> Vec<PseudoLine> {
    let row = |r: &str| {
        let (indent, text) = r.split_once(' ').unwrap_or((r, ""));
        line(indent.parse().expect("a row starts with its indent"), text)
    };
    rows.lines().map(str::trim_start).filter(|r| !r.is_empty()).map(row).collect()
}

/// One line without an address.
pub fn line(indent: u8, text: &str) -> PseudoLine {
    PseudoLine { address: None, indent, tokens: tokens(text) }
}

/// The tokens of a text.
pub fn tokens(text: &str) -> Vec<Token> {
    let mut out: Vec<Token> = Vec::new();
    let mut rest = text;
    while !rest.is_empty() {
        let (token, after) = given(rest).or_else(|| word(rest)).unwrap_or_else(|| between(rest, &out));
        out.push(token);
        rest = after;
    }
    out
}

/// A token written out with its kind, as `[r|rcx) {]`.
fn given(rest: &str) -> Option<(Token, &str)> {
    let inner = rest.strip_prefix('[')?;
    let k = match inner.get(..2)? {
        "t|" => TokenKind::Text,
        "r|" => TokenKind::Register,
        "n|" => TokenKind::Number,
        "k|" => TokenKind::Keyword,
        "s|" => TokenKind::Symbol,
        "a|" => TokenKind::Address,
        "p|" => TokenKind::Punct,
        "x|" => TokenKind::Prefix,
        _ => return None,
    };
    let end = inner.find(']')?;
    Some((Token { t: inner[2..end].to_string(), k }, &inner[end + 1..]))
}

fn is_word(c: char) -> bool {
    c.is_ascii_alphanumeric() || c == '_'
}

fn word(rest: &str) -> Option<(Token, &str)> {
    let end = rest.find(|c| !is_word(c)).unwrap_or(rest.len());
    let t = (end > 0).then(|| rest[..end].to_string())?;
    let k = if KEYWORDS.contains(&t.as_str()) {
        TokenKind::Keyword
    } else if t.starts_with(|c: char| c.is_ascii_digit()) {
        TokenKind::Number
    } else if family(&t).is_some() || t == "rip" || t.starts_with("arg_") {
        TokenKind::Register
    } else {
        TokenKind::Symbol
    };
    Some((Token { t, k }, &rest[end..]))
}

/// The token up to the next word or written-out token.
fn between<'a>(rest: &'a str, before: &[Token]) -> (Token, &'a str) {
    let stops = |&(i, c): &(usize, char)| i > 0 && (is_word(c) || given(&rest[i..]).is_some());
    let end = rest.char_indices().find(stops).map_or(rest.len(), |(i, _)| i);
    let lone_blank = &rest[..end] == " " && before.last().is_some_and(|t| t.k == TokenKind::Keyword);
    let k = if lone_blank { TokenKind::Text } else { TokenKind::Punct };
    (Token { t: rest[..end].to_string(), k }, &rest[end..])
}

#[cfg(test)]
mod tests {
    use super::*;

    fn split(text: &str) -> Vec<(String, TokenKind)> {
        tokens(text).into_iter().map(|t| (t.t, t.k)).collect()
    }

    #[test]
    fn tokens_are_split_as_printed() {
        use TokenKind::*;
        let expected = [("if", Keyword), (" (", Punct), ("rax", Register), (" == ", Punct), ("0", Number), (") ", Punct)];
        let goto = [("goto", Keyword), (" ", Text), ("L2", Symbol), (";", Punct)];
        let all: Vec<_> = expected.iter().chain(&goto).map(|(t, k)| (t.to_string(), *k)).collect();
        assert_eq!(split("if (rax == 0) goto L2;"), all);
    }

    #[test]
    fn a_token_can_be_written_out() {
        let expected = [("g", TokenKind::Symbol), ("(", TokenKind::Punct), ("rcx) {", TokenKind::Register), ("", TokenKind::Text)];
        assert_eq!(split("g([r|rcx) {][t|]"), expected.map(|(t, k)| (t.to_string(), k)));
    }
}
