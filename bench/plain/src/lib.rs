//! Plain Rust versions of what the library does, written for speed, to be
//! measured beside it.

pub mod answers;
pub mod charts;
pub mod claims;
mod cursor;
pub mod nested;
pub mod product;
pub mod reader;
mod rest;
pub mod rounds;
mod writer;
