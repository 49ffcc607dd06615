// An excerpt of Altumptic/paranoia at 87f676eb02 (Apache-2.0), crates/paranoia-core/src/model.rs: the two token types; derives changed, all other items left out.

/// Token classes used by the UI for syntax highlighting.
#[derive(Debug, Clone, Copy, PartialEq, Eq)]
pub enum TokenKind {
    Text,
    Register,
    Number,
    Keyword,
    Symbol,
    Address,
    Punct,
    Prefix,
}

#[derive(Debug, Clone, PartialEq, Eq)]
pub struct Token {
    pub t: String,
    pub k: TokenKind,
}
