//! What the measuring programs share: the graphs, the claims, the charts, the
//! pairs of both, the clock and the table for a reader.

pub mod charts;
pub mod claims;
pub mod clock;
pub mod graphs;
pub mod products;
pub mod readers;
