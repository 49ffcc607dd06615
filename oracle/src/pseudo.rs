// An excerpt of Altumptic/paranoia at 87f676eb02 (Apache-2.0), crates/paranoia-core/src/pseudo.rs: the line type; derives and use lines changed, all other items left out.

use crate::model::Token;

#[derive(Debug, Clone, PartialEq, Eq)]
pub struct PseudoLine {
    /// Instruction address this line came from (for listing sync).
    pub address: Option<u64>,
    pub indent: u8,
    pub tokens: Vec<Token>,
}
