//! Lists of calls with damage done: one bit that a call leaves is changed, and the comparison must report it.
use std::cell::{Cell, RefCell};

use crate::calls::{Calls, Improved, Journal, Move, Numbers, Test};
use crate::counts::Counts;
use crate::damage::other_answer;
use crate::lists::{one_list, SHORT};
use crate::random::Random;
use crate::second::table::decode;

/// What the damaging mode changes after one call of a list. Of the best moves: a record that was listed, one that must stay as it
/// was, or the count. Of the journal: a record, above the count or below, or the record count. `InTest`: the mask in test after an undo
/// or a call that changes it. `TestCell`, `TestAnswer`: what such a call leaves and answers.
#[derive(Debug, Clone, Copy, PartialEq)]
pub enum Hit {
    Cell,
    Mask,
    Scratch,
    Answer,
    Listed,
    Kept,
    Count,
    Record,
    RecordCount,
    InTest,
    TestCell,
    TestAnswer,
}

/// Every one of them.
pub const HITS: [Hit; 12] = [
    Hit::Cell,
    Hit::Mask,
    Hit::Scratch,
    Hit::Answer,
    Hit::Listed,
    Hit::Kept,
    Hit::Count,
    Hit::Record,
    Hit::RecordCount,
    Hit::InTest,
    Hit::TestCell,
    Hit::TestAnswer,
];

/// The calls of `inner`, with one bit changed after the first call from number `from` on that leaves such a thing to change.
pub struct Damaging<'a> {
    inner: &'a dyn Calls,
    hit: Hit,
    left: Cell<u64>,
    random: RefCell<Random>,
    done: Cell<bool>,
}

impl Damaging<'_> {
    /// Whether this call is damaged, if it leaves `places` to damage.
    fn turn(&self, hit: Hit, places: usize) -> bool {
        let now = self.hit == hit && places > 0 && self.left.get() == 0 && !self.done.get();
        self.done.set(self.done.get() || now);
        now
    }

    fn called(&self) {
        self.left.set(self.left.get().saturating_sub(1));
    }

    fn mask(&self, hit: Hit, masks: &mut [u64]) {
        if self.turn(hit, masks.len()) {
            let mut r = self.random.borrow_mut();
            masks[r.below(masks.len())] ^= 1 << r.below(64);
        }
    }

    fn cell(&self, hit: Hit, cells: &mut [u32]) {
        if self.turn(hit, cells.len()) {
            let mut r = self.random.borrow_mut();
            cells[r.below(cells.len())] ^= 1 << r.below(32);
        }
    }

    fn tables(&self, masks: &mut [u64], cells: &mut [u32]) {
        self.cell(Hit::Cell, cells);
        self.mask(Hit::Mask, masks);
    }

    fn in_test(&self, table: &[u8], masks: &mut [u64]) {
        let own = decode(table).and_then(|plan| masks.get_mut(plan.n..=plan.n));
        self.mask(Hit::InTest, own.unwrap_or_default());
    }

    /// What an accepted call leaves in the plan's own part of scratch is free.
    fn scratch(&self, table: &[u8], scratch: &mut [u32], accepted: bool) {
        let from = if accepted { decode(table).map_or(0, |p| p.cells()) } else { 0 };
        self.cell(Hit::Scratch, &mut scratch[from..]);
    }

    fn bit(&self) -> u32 {
        1 << self.random.borrow_mut().below(32)
    }

    fn record(&self, m: &mut Move) {
        let field = self.random.borrow_mut().below(5);
        *[&mut m.kind, &mut m.s, &mut m.t, &mut m.p, &mut m.q][field] ^= self.bit();
    }

    /// One of some records that a call has left.
    fn records(&self, hit: Hit, records: &mut [Move]) {
        if self.turn(hit, records.len()) {
            let at = self.random.borrow_mut().below(records.len());
            self.record(&mut records[at]);
        }
    }

    fn journal(&self, journal: &mut Journal) {
        self.records(Hit::Record, &mut journal.records);
        if self.turn(Hit::RecordCount, 1) {
            journal.count ^= 1 << self.random.borrow_mut().below(64);
        }
    }

    fn answer(&self, hit: Hit, answer: Result<Numbers, u32>) -> Result<Numbers, u32> {
        if self.turn(hit, 1) {
            other_answer(answer, &mut self.random.borrow_mut())
        } else {
            answer
        }
    }

    fn numbers(&self, answer: Result<Numbers, u32>) -> Result<Numbers, u32> {
        self.answer(Hit::Answer, answer)
    }
}

impl Calls for Damaging<'_> {
    fn make_move(&self, table: &[u8], masks: &mut [u64], cells: &mut [u32], journal: &mut Journal, m: &Move) -> Result<Numbers, u32> {
        self.called();
        let answer = self.inner.make_move(table, masks, cells, journal, m);
        self.tables(masks, cells);
        self.journal(journal);
        self.numbers(answer)
    }

    fn undo(&self, table: &[u8], masks: &mut [u64], cells: &mut [u32], journal: &mut Journal) -> Result<Numbers, u32> {
        self.called();
        let answer = self.inner.undo(table, masks, cells, journal);
        self.tables(masks, cells);
        self.in_test(table, masks);
        self.journal(journal);
        self.numbers(answer)
    }

    fn test(&self, table: &[u8], masks: &mut [u64], cells: &mut [u32], call: Test, port: u32) -> Result<Numbers, u32> {
        self.called();
        let answer = self.inner.test(table, masks, cells, call, port);
        self.tables(masks, cells);
        self.in_test(table, masks);
        self.cell(Hit::TestCell, cells);
        self.answer(Hit::TestAnswer, self.numbers(answer))
    }

    fn trial(&self, table: &[u8], masks: &[u64], cells: &[u32], scratch: &mut [u32], m: &Move) -> Result<Numbers, u32> {
        self.called();
        let answer = self.inner.trial(table, masks, cells, scratch, m);
        self.scratch(table, scratch, answer.is_ok());
        self.numbers(answer)
    }

    fn improve(
        &self,
        table: &[u8],
        masks: &mut [u64],
        cells: &mut [u32],
        scratch: &mut [u32],
        journal: &mut Journal,
        kinds: u32,
    ) -> Result<Improved, u32> {
        self.called();
        let answer = self.inner.improve(table, masks, cells, scratch, journal, kinds);
        self.tables(masks, cells);
        self.journal(journal);
        self.scratch(table, scratch, answer.is_ok());
        match answer {
            Ok(Improved::Made(mut m, numbers)) => {
                if self.random.borrow_mut().chance(50) && self.turn(Hit::Answer, 1) {
                    self.record(&mut m);
                }
                self.numbers(Ok(numbers)).map(|n| Improved::Made(m, n))
            }
            Ok(Improved::NoBetter(root)) if self.turn(Hit::Answer, 1) => Ok(Improved::NoBetter(root ^ self.bit())),
            Err(number) if self.turn(Hit::Answer, 1) => Err(number ^ self.bit()),
            kept => kept,
        }
    }

    fn best_moves(
        &self,
        table: &[u8],
        masks: &[u64],
        cells: &[u32],
        scratch: &mut [u32],
        kinds: u32,
        list: &mut [Move],
    ) -> Result<usize, u32> {
        self.called();
        let answer = self.inner.best_moves(table, masks, cells, scratch, kinds, list);
        self.scratch(table, scratch, answer.is_ok());
        let (best, kept) = list.split_at_mut(answer.unwrap_or(0).min(list.len()));
        self.records(Hit::Listed, best);
        self.records(Hit::Kept, kept);
        match answer {
            Ok(count) if self.turn(Hit::Count, 1) => Ok(count ^ self.bit() as usize),
            Err(number) if self.turn(Hit::Answer, 1) => Err(number ^ self.bit()),
            kept => kept,
        }
    }
}

/// Runs one short list with one bit changed after some call: whether it was changed, and whether that was reported.
pub fn damaged_list(calls: &dyn Calls, hit: Hit, seed: u64, list: u64) -> (bool, bool) {
    let mut random = Random::new(seed.wrapping_add(list));
    let left = Cell::new(1 + random.below(SHORT as usize / 2) as u64);
    let damaging = Damaging { inner: calls, hit, left, random: RefCell::new(random), done: Cell::new(false) };
    let result = one_list(&damaging, SHORT, seed, list, &mut Counts::default());
    (damaging.done.get(), result.is_err())
}
