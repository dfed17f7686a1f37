//! The booking board once more, written from docs/RULES.md alone and minute by minute, to compare the proved programs with. Nothing here is clever, and nothing is fast.
pub mod board;
pub mod events;
pub mod file;
pub mod kind;
pub mod minutes;
pub mod office;
pub mod policy;
pub mod refusal;
pub mod row;
pub mod search;
pub mod sheet;
