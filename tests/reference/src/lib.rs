//! An independent, plain implementation of the scope paper's rules, and of the
//! change requests that have landed.
//!
//! It is meant to be read beside the paper: every rule stands where the paper
//! puts it, and nothing is made fast at the price of being less plain. The
//! module `plain` settles the same questions a second time by textbook
//! algorithms, so that this reference can itself be tested.

pub mod answer;
pub mod case;
pub mod chart;
pub mod checker;
pub mod claim;
pub mod claim_label;
pub mod claim_tokens;
pub mod entries;
pub mod graph;
pub mod older;
pub mod plain;
pub mod product;
pub mod refusal;
pub mod run;
pub mod text;
