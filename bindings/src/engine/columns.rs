//! A listing packed into the four columns that are lent to the library, and back.

use super::{PseudoLine, Token, TokenKind};
use crate::{Counts, Destination, Listing, Refusal};

/// The kinds, in the order of their numbers.
const KINDS: [TokenKind; 8] = [
    TokenKind::Text,
    TokenKind::Register,
    TokenKind::Number,
    TokenKind::Keyword,
    TokenKind::Symbol,
    TokenKind::Address,
    TokenKind::Punct,
    TokenKind::Prefix,
];

/// The limits of question 1, asked here too so that nothing is copied in vain.
const MAX_LINES: usize = 1_024;
const MAX_TOKENS: usize = 16_384;
const MAX_TEXT: usize = 262_144;

#[derive(Debug, Default)]
pub(super) struct Columns {
    lines: Vec<u32>,
    addresses: Vec<u64>,
    tokens: Vec<u32>,
    text: Vec<u8>,
}

impl Columns {
    /// The columns of a listing, or refusal 1.
    pub(super) fn of(lines: &[PseudoLine]) -> Result<Columns, Refusal> {
        let tokens = || lines.iter().flat_map(|l| &l.tokens);
        if lines.len() > MAX_LINES || tokens().count() > MAX_TOKENS || tokens().map(|t| t.t.len()).sum::<usize>() > MAX_TEXT {
            return Err(1);
        }
        let mut c = Columns::default();
        for line in lines {
            for token in &line.tokens {
                c.text.extend_from_slice(token.t.as_bytes());
                c.tokens.push(c.text.len() as u32 * 256 + token.k as u32);
            }
            c.lines.push(c.tokens.len() as u32 * 512 + 256 * u32::from(line.address.is_some()) + u32::from(line.indent));
            c.addresses.push(line.address.unwrap_or(0));
        }
        Ok(c)
    }

    pub(super) fn listing(&self) -> Listing<'_> {
        Listing { lines: &self.lines, tokens: &self.tokens, text: &self.text }
    }

    pub(super) fn addresses(&self) -> &[u64] {
        &self.addresses
    }

    /// Columns of zeros, as long as question 4 asks for a pass over these.
    pub(super) fn room(&self) -> Columns {
        let n = self.lines.len();
        Columns { lines: vec![0; n], addresses: vec![0; n], tokens: vec![0; self.tokens.len() + 8 * n], text: vec![0; self.text.len() + 32 * n] }
    }

    pub(super) fn destination(&mut self) -> Destination<'_> {
        Destination { lines: &mut self.lines, addresses: &mut self.addresses, tokens: &mut self.tokens, text: &mut self.text }
    }

    /// The listing in the first lines, as many as a call has filled.
    pub(super) fn unpack(&self, counts: Counts) -> Vec<PseudoLine> {
        let (mut token_start, mut text_start) = (0, 0);
        let mut token = |&word: &u32| {
            let text_end = (word / 256) as usize;
            let t = std::str::from_utf8(&self.text[text_start..text_end]).expect("a pass leaves UTF-8 (loop_theory/proofs/Utf8Kept.antt)").to_string();
            text_start = text_end;
            Token { t, k: KINDS[(word % 256) as usize] }
        };
        let line = |(&word, &address): (&u32, &u64)| {
            let token_end = (word / 512) as usize;
            let tokens = self.tokens[token_start..token_end].iter().map(&mut token).collect();
            token_start = token_end;
            PseudoLine { address: (word / 256 % 2 == 1).then_some(address), indent: (word % 256) as u8, tokens }
        };
        self.lines[..counts.lines].iter().zip(&self.addresses).map(line).collect()
    }
}
