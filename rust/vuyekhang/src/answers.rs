//! What an accepted call answers.
use crate::moves::Move;

/// What an accepted [`read`](crate::read) answers.
#[derive(Debug, Clone, Copy, PartialEq, Eq, Hash)]
pub struct Read {
    /// The plan's nodes, the root included: 2 to 512.
    pub nodes: usize,
    /// How many cells the plan has: what its cell table must hold.
    pub cells: usize,
}

impl Read {
    /// The bytes of the plan table that was written: a header of 9, and 8 a node. What stands behind them plays no part.
    pub const fn table_len(&self) -> usize {
        9 + 8 * self.nodes
    }
}

/// What an accepted [`load`](crate::load) answers.
#[derive(Debug, Clone, Copy, PartialEq, Eq, Hash)]
pub struct Loaded {
    /// The root's penalty: 0 exactly when the plan is true.
    pub root: u32,
    /// How many cells the plan has; so many were written.
    pub cells: usize,
}

/// What an accepted [`make_move`](crate::make_move), [`trial`](crate::trial), [`undo`](crate::undo),
/// [`test_begin`](crate::test_begin) or [`test_end`](crate::test_end) answers.
#[derive(Debug, Clone, Copy, PartialEq, Eq, Hash)]
pub struct Moved {
    /// The root before the call.
    pub before: u32,
    /// The root after it; for a trial, as if the move were made.
    pub after: u32,
    /// How many cells differ from before.
    pub changed: usize,
}

/// What an accepted [`improve`](crate::improve) answers.
#[derive(Debug, Clone, Copy, PartialEq, Eq, Hash)]
pub enum Improved {
    /// A move was made: the first of those that leave the least root.
    Made {
        /// The move.
        chosen: Move,
        /// What [`make_move`](crate::make_move) answers for it.
        moved: Moved,
    },
    /// No legal move of the kinds leaves a smaller root than now; masks, cells and journal are as they were.
    NoBetter {
        /// The root.
        root: u32,
    },
}
