//! A plan that is read and loaded, with the tables that one engine works on.
use vuyekhang::{Move, MOST_RECORDS, MOST_TABLE};

use super::plans::Plan;
use crate::archive::{load, read};
use crate::calls::Read;

#[derive(Clone, PartialEq)]
pub struct State {
    pub table: Vec<u8>,
    pub masks: Vec<u64>,
    pub cells: Vec<u32>,
    pub scratch: Vec<u32>,
    /// The archive's; the plain engine keeps no journal.
    pub journal: Vec<Move>,
    pub count: usize,
}

impl State {
    /// Reads and loads a plan with the archive.
    pub fn of(plan: &Plan) -> (Read, State) {
        let mut table = vec![0; MOST_TABLE];
        let answer = read(plan.u, plan.text.as_bytes(), &mut table).unwrap_or_else(|n| panic!("the text of {} is refused: {n}", plan.name));
        table.truncate(9 + 8 * answer.nodes);
        let (masks, cells) = (plan.masks(), vec![0; answer.cells]);
        let journal = vec![Move::default(); MOST_RECORDS];
        let mut state = State { table, masks, scratch: cells.clone(), cells, journal, count: 0 };
        load(&state.table, &state.masks, &mut state.cells).unwrap_or_else(|n| panic!("the masks of {} are refused: {n}", plan.name));
        (answer, state)
    }

    /// Begins the journal again before it is full, so that no move is refused for it.
    pub fn make_room(&mut self) {
        if self.count == MOST_RECORDS {
            self.count = 0;
        }
    }

    /// A full journal of a move and its opposite by turns, made from this state, which undoing all of it leads back to.
    pub fn fill_journal(&mut self, m: Move, opposite: Move) {
        self.journal.iter_mut().enumerate().for_each(|(at, record)| *record = if at % 2 == 0 { m } else { opposite });
        self.count = MOST_RECORDS;
    }

    /// Both engines are to leave the same masks and cells.
    pub fn same(&self, other: &State) {
        assert_eq!(self.masks, other.masks, "masks differ");
        assert!(self.cells == other.cells, "cells differ");
    }
}
