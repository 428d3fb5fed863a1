//! Inputs for the comparisons: cases, lists of acts, answers, claims, charts,
//! charts with claims and damaged files, all chosen by one seeded generator of
//! numbers, so that every run of a program with the same seed sees the same inputs.

pub mod acts;
pub mod answers;
pub mod chart_rows;
pub mod charts;
pub mod claim_changes;
pub mod claim_rows;
pub mod claims;
pub mod damage;
pub mod graphs;
pub mod kept;
pub mod product_rows;
pub mod products;
mod readings;
pub mod rng;
pub mod written_out;
