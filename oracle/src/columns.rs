//! A listing as four columns of words, the form in which it is lent to the calls.
//!
//! | column | one word holds |
//! |---|---|
//! | `lines` | `token_end * 512 + has_address * 256 + indent` |
//! | `addresses` | a line's address, 0 where it has none |
//! | `tokens` | `text_end * 256 + kind` |
//! | `text` | a byte of UTF-8 |
//!
//! A line's tokens run from the end of the line before (0 for the first) to its own end; a token's bytes likewise.

use crate::model::{Token, TokenKind};
use crate::pseudo::PseudoLine;

#[derive(Debug, Clone, Default, PartialEq, Eq)]
pub struct Columns {
    pub lines: Vec<u32>,
    pub addresses: Vec<u64>,
    pub tokens: Vec<u32>,
    pub text: Vec<u8>,
}

/// The kinds, in the order of their numbers 0 to 7.
pub const KINDS: [TokenKind; 8] = [
    TokenKind::Text,
    TokenKind::Register,
    TokenKind::Number,
    TokenKind::Keyword,
    TokenKind::Symbol,
    TokenKind::Address,
    TokenKind::Punct,
    TokenKind::Prefix,
];

/// The columns of a listing. Panics if an end does not fit in its word (beyond 2^23 tokens or 2^24 bytes).
pub fn encode(lines: &[PseudoLine]) -> Columns {
    let mut c = Columns::default();
    for l in lines {
        for t in &l.tokens {
            c.text.extend_from_slice(t.t.as_bytes());
            c.tokens.push(word(c.text.len(), 256, t.k as u32));
        }
        let flags = 256 * u32::from(l.address.is_some()) + u32::from(l.indent);
        c.lines.push(word(c.tokens.len(), 512, flags));
        c.addresses.push(l.address.unwrap_or(0));
    }
    c
}

fn word(end: usize, unit: u32, rest: u32) -> u32 {
    u32::try_from(end).ok().and_then(|e| e.checked_mul(unit)).expect("the end fits in its word") + rest
}

/// The listing that the columns hold, given yes to questions 1 to 3 (panics where they do not hold).
pub fn decode(c: &Columns) -> Vec<PseudoLine> {
    let mut tokens = c.tokens.iter();
    let (mut token_start, mut text_start) = (0, 0);
    let mut next_token = || {
        let word = *tokens.next().expect("the lines' ends stay within the tokens");
        let end = (word / 256) as usize;
        let t = std::str::from_utf8(&c.text[text_start..end]).expect("each token is UTF-8").to_string();
        text_start = end;
        Token { t, k: KINDS[(word % 256) as usize] }
    };
    let line = |(&word, &address): (&u32, &u64)| {
        let end = (word / 512) as usize;
        let tokens = (token_start..end).map(|_| next_token()).collect();
        token_start = end;
        PseudoLine { address: (word / 256 % 2 == 1).then_some(address), indent: (word % 256) as u8, tokens }
    };
    c.lines.iter().zip(&c.addresses).map(line).collect()
}

#[cfg(test)]
mod tests {
    use super::*;
    use crate::notation::listing;

    #[test]
    fn words_hold_ends_and_flags() {
        let mut lines = listing("1 rax = 1;\n255 }");
        lines[1].address = Some(u64::MAX);
        let c = encode(&lines);
        assert_eq!(c.lines, [4 * 512 + 1, 5 * 512 + 256 + 255]);
        assert_eq!(c.addresses, [0, u64::MAX]);
        assert_eq!(c.tokens, [3 * 256 + 1, 6 * 256 + 6, 7 * 256 + 2, 8 * 256 + 6, 9 * 256 + 6]);
        assert_eq!(c.text, b"rax = 1;}");
        assert_eq!(decode(&c), lines);
    }

    #[test]
    fn an_empty_listing_has_empty_columns() {
        assert_eq!(encode(&[]), Columns::default());
        assert_eq!(decode(&Columns::default()), []);
    }
}
