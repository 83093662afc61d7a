//! The exported calls over the tables that they are lent.
use std::fmt;

use vuyekhang::{raw, Move, MOST_MOVES, MOST_RECORDS, MOST_TABLE, MOST_TEXT};

use crate::bench::plans::KINDS;

/// An exported function with what it is asked.
#[derive(Debug, Clone, Copy, PartialEq)]
pub enum Call {
    Read,
    Write,
    Load,
    /// Of a node.
    NodeCells(usize),
    Move(Move),
    Undo,
    /// Of a port.
    TestBegin(u32),
    TestEnd(u32),
    Trial(Move),
    /// Of kinds.
    Improve(u32),
    BestMoves(u32),
}

impl Call {
    /// The name in the archive.
    pub fn name(self) -> &'static str {
        match self {
            Call::Read => "vk_read",
            Call::Write => "vk_write",
            Call::Load => "vk_load",
            Call::NodeCells(_) => "vk_node_cells",
            Call::Move(_) => "vk_move",
            Call::Undo => "vk_undo",
            Call::TestBegin(_) => "vk_test_begin",
            Call::TestEnd(_) => "vk_test_end",
            Call::Trial(_) => "vk_trial",
            Call::Improve(_) => "vk_improve",
            Call::BestMoves(_) => "vk_best_moves",
        }
    }
}

/// The name with what is asked; kinds as their sum.
impl fmt::Display for Call {
    fn fmt(&self, f: &mut fmt::Formatter) -> fmt::Result {
        let name = self.name();
        match self {
            Call::Move(m) | Call::Trial(m) => write!(f, "`{name}` {}", KINDS[m.kind as usize - 1]),
            Call::Improve(asked) | Call::BestMoves(asked) | Call::TestBegin(asked) | Call::TestEnd(asked) => write!(f, "`{name}` {asked}"),
            Call::NodeCells(node) => write!(f, "`{name}` {node}"),
            _ => write!(f, "`{name}`"),
        }
    }
}

/// Every exported function, in the order of the header.
pub const NAMES: [&str; 11] = [
    "vk_read",
    "vk_write",
    "vk_load",
    "vk_node_cells",
    "vk_move",
    "vk_undo",
    "vk_test_begin",
    "vk_test_end",
    "vk_trial",
    "vk_improve",
    "vk_best_moves",
];

/// What the calls over one text or one plan table are lent.
pub struct Tables {
    pub u: u64,
    /// A text that is read, or has room for one that is written.
    pub text: Vec<u8>,
    pub table: Vec<u8>,
    pub masks: Vec<u64>,
    pub cells: Vec<u32>,
    pub scratch: Vec<u32>,
    pub journal: Vec<Move>,
    pub count: usize,
    pub list: Vec<Move>,
}

impl Tables {
    /// For a text that is read over some ports.
    pub fn of_text(u: u64, text: &[u8]) -> Self {
        let (text, table) = (text.to_vec(), vec![0; MOST_TABLE]);
        let (masks, cells, scratch, journal, list) = Default::default();
        Tables { u, text, table, masks, cells, scratch, journal, count: 0, list }
    }

    /// For the calls over a plan table, its masks and so many cells.
    pub fn of_plan(table: &[u8], masks: Vec<u64>, cells: usize) -> Self {
        let (table, text, cells) = (table.to_vec(), vec![0; MOST_TEXT], vec![0; cells]);
        let (journal, list) = (vec![Move::default(); MOST_RECORDS], vec![Move::default(); MOST_MOVES]);
        Tables { u: 0, text, table, masks, scratch: cells.clone(), cells, journal, count: 0, list }
    }

    /// Makes a call by the binding's raw functions and says its number. A node's cells have none: 0.
    ///
    /// It is inlined where it is called, as those functions are: no frame stands between the caller's and the archive's.
    #[inline(always)]
    pub fn make(&mut self, call: Call) -> u32 {
        let Tables { u, text, table, masks, cells, scratch, journal, count, list } = self;
        match call {
            Call::Read => raw::read(*u, text, table).number,
            Call::Write => raw::write(table, text).number,
            Call::Load => raw::load(table, masks, cells).number,
            Call::NodeCells(node) => {
                raw::node_cells(table, cells, node);
                0
            }
            Call::Move(m) => raw::make_move(table, masks, cells, journal, count, m).number,
            Call::Undo => raw::undo(table, masks, cells, journal, count).number,
            Call::TestBegin(port) => raw::test_begin(table, masks, cells, port).number,
            Call::TestEnd(port) => raw::test_end(table, masks, cells, port).number,
            Call::Trial(m) => raw::trial(table, masks, cells, scratch, m).number,
            Call::Improve(kinds) => raw::improve(table, masks, cells, scratch, journal, count, kinds).number,
            Call::BestMoves(kinds) => raw::best_moves(table, masks, cells, scratch, kinds, list).number,
        }
    }
}
