//! The job of `callsheet` as one would write it in Rust for use: a sorted slot list in a `Vec`, binary search, no proof. It is here to compare speed with.
pub mod board;
pub mod growth;
pub mod refusal;
pub mod search;
pub mod sheet;
pub mod timeline;
