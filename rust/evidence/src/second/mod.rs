//! A second evaluator, written from papers 01 and 02 alone. It shares no code and no table with the engine, and takes the plainest way
//! everywhere: it is slow, and easy to hold against the paper.
mod core;
pub mod formula;
pub mod in_test;
pub mod journal;
pub mod moves;
pub mod penalty;
pub mod plan;
pub mod table;
pub mod text;
pub mod write;
