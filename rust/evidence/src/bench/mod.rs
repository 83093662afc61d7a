//! What the program `bench` measures: the archive beside the plain engine, sampled in turn in one run.
pub mod against;
pub mod calls;
pub mod clock;
pub mod deep;
pub mod growth;
pub mod plans;
pub mod state;
