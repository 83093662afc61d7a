//! The calls of papers 01 and 02 and their answers, as every evaluator here gives them; a refusal is its number. These are records
//! and no code, so that evaluators which answer in them share nothing else.

#[derive(Debug, Clone, Copy, PartialEq, Eq, Default)]
pub struct Move {
    pub kind: u32,
    pub s: u32,
    pub t: u32,
    pub p: u32,
    pub q: u32,
}

/// A lent journal: its records, and how many of them are moves that were made and not taken back, the newest last.
#[derive(Debug, Clone, PartialEq, Eq, Default)]
pub struct Journal {
    pub records: Vec<Move>,
    pub count: usize,
}

/// Node count and cell total of a text that is read.
#[derive(Debug, Clone, Copy, PartialEq, Eq)]
pub struct Read {
    pub nodes: usize,
    pub cells: usize,
}

/// The root's penalty and the cell total.
#[derive(Debug, Clone, Copy, PartialEq, Eq)]
pub struct Loaded {
    pub root: u32,
    pub cells: usize,
}

/// Root before, root after, how many cells differ.
#[derive(Debug, Clone, Copy, PartialEq, Eq)]
pub struct Numbers {
    pub before: u32,
    pub after: u32,
    pub changed: u32,
}

/// What improve answers where it is accepted: the move that it made, or "no better move" with the root.
#[derive(Debug, Clone, Copy, PartialEq, Eq)]
pub enum Improved {
    Made(Move, Numbers),
    NoBetter(u32),
}

/// Which of the two calls of request 2026-05: a port is put in test, or taken out.
#[derive(Debug, Clone, Copy, PartialEq, Eq)]
pub enum Test {
    Begin,
    End,
}

/// The calls over tables that a list is made of. Masks are one for each set, then that of the ports in test.
pub trait Calls {
    fn make_move(&self, table: &[u8], masks: &mut [u64], cells: &mut [u32], journal: &mut Journal, m: &Move) -> Result<Numbers, u32>;
    fn undo(&self, table: &[u8], masks: &mut [u64], cells: &mut [u32], journal: &mut Journal) -> Result<Numbers, u32>;
    fn trial(&self, table: &[u8], masks: &[u64], cells: &[u32], scratch: &mut [u32], m: &Move) -> Result<Numbers, u32>;
    fn improve(
        &self,
        table: &[u8],
        masks: &mut [u64],
        cells: &mut [u32],
        scratch: &mut [u32],
        journal: &mut Journal,
        kinds: u32,
    ) -> Result<Improved, u32>;
    fn test(&self, table: &[u8], masks: &mut [u64], cells: &mut [u32], call: Test, port: u32) -> Result<Numbers, u32>;
    /// Answers how many moves it has listed.
    fn best_moves(
        &self,
        table: &[u8],
        masks: &[u64],
        cells: &[u32],
        scratch: &mut [u32],
        kinds: u32,
        list: &mut [Move],
    ) -> Result<usize, u32>;
}
