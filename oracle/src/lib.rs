//! The oracle: the original Rust, verbatim, and what is needed to ask it.
//!
//! | module | holds |
//! |---|---|
//! | `model`, `pseudo`, `pseudo_opt`, `pseudo_ssa`, `pseudo_types` | the original functions (see diff-with-source) |
//! | `sweeps` | the number of sweeps of `recover`, by a counting copy |
//! | `passes` | the two loop passes, run so that an overflow is an answer |
//! | `columns` | a listing as four columns of words, and back |
//! | `questions` | the questions of document 01 and each call's refusal |
//! | `answers` | the reference answers of one listing |
//! | `variables` | `Seg` with `key` and `starts`, for any arguments |
//! | `leaves` | the original, function by function |
//! | `json` | strict reader and writer of document 01's JSON |
//! | `notation` | a line from its text, split into tokens as the original prints it |
//! | `random`, `generate` | listings by kind, seed and index |
//! | `theorems` | reference answers as theorems about the definitions |
//! | `vectors` | reference answers as the lines that the program `replay` is to print |

pub mod answers;
pub mod columns;
pub mod generate;
pub mod json;
pub mod leaves;
pub mod model;
pub mod notation;
pub mod passes;
pub mod pseudo;
mod pseudo_opt;
mod pseudo_ssa;
mod pseudo_types;
pub mod questions;
pub mod random;
mod sweeps;
pub mod theorems;
pub mod variables;
pub mod vectors;

pub use sweeps::sweeps;
