//! The driver of lists of calls reports a journal that is not kept by the rules of request 2026-03 of paper 02: each mistake stands in
//! the place of the second evaluator, and so does none.
use evidence::calls::{Calls, Improved, Journal, Move, Numbers, Test};
use evidence::counts::Counts;
use evidence::lists::{run, Second};
use evidence::second::journal::{full, opposite, past, MOST};

const CALLS: u64 = 2_000;

#[derive(Debug, Clone, Copy, PartialEq)]
enum Mistake {
    Right,
    RecordTooFar,
    RecordOfTheOpposite,
    RecordOnRefusal,
    CountOnRefusal,
    FullBeforeIllegal,
    FullTooSoon,
    FullAtItsLengthOnly,
    FullButMade,
    FullWithNoneBetter,
    ImproveUnrecorded,
    ImproveRecordsNothing,
    PastItsLengthOnly,
    PastAfterMasks,
    PastBeforeTable,
    PastUnlessMade,
    UndoMakesTheRecord,
    UndoMakesTheTransfer,
    UndoMakesTheSwap,
    UndoMasksOnly,
    UndoKeepsTheCount,
    UndoClearsTheRecord,
    UndoOfTheOldest,
    UndoFull,
    UndoEmptyBeforeMasks,
    UndoPastTheCount,
    UndoUnusedField,
}

use Mistake::*;

struct Wrong(Mistake);

/// The same records and more, with room.
fn roomy(journal: &Journal) -> Journal {
    let count = journal.count.min(journal.records.len());
    Journal { records: [&journal.records[..count], &[Move::default()]].concat(), count: count.min(MOST - 1) }
}

impl Wrong {
    /// What a call with the record count past its journal answers: 12, unless a mistake is made. `others` are its other grounds.
    fn past(&self, journal: &Journal, others: Result<(), u32>) -> Result<(), u32> {
        match (self.0, others) {
            (PastItsLengthOnly, Ok(())) if journal.count <= journal.records.len() => Err(18),
            (PastAfterMasks, Err(13)) => Err(13),
            (PastBeforeTable, _) => Err(12),
            (_, Err(11)) => Err(11),
            _ => Err(12),
        }
    }

    /// After an accepted move.
    fn recorded(&self, journal: &mut Journal, before: &Journal, m: &Move) {
        let at = before.count;
        match self.0 {
            RecordTooFar if journal.count < journal.records.len() => {
                journal.records[at] = before.records[at];
                journal.records[at + 1] = *m;
            }
            RecordOfTheOpposite => journal.records[at] = opposite(m),
            _ => {}
        }
    }
}

impl Calls for Wrong {
    fn make_move(&self, table: &[u8], masks: &mut [u64], cells: &mut [u32], journal: &mut Journal, m: &Move) -> Result<Numbers, u32> {
        let before = journal.clone();
        let with_room = |masks: &mut [u64], cells: &mut [u32]| Second.make_move(table, masks, cells, &mut roomy(&before), m);
        if past(journal) {
            let others = with_room(&mut masks.to_vec(), &mut cells.to_vec());
            self.past(journal, others.map(|_| ()))?;
        }
        let last = journal.count + 1 == journal.records.len();
        let answer = Second.make_move(table, &mut masks.to_vec(), &mut cells.to_vec(), &mut journal.clone(), m);
        match (self.0, answer) {
            (RecordOnRefusal, Err(15)) if !full(journal) => journal.records[journal.count] = *m,
            (CountOnRefusal, Err(15)) if !full(journal) => journal.count += 1,
            (FullBeforeIllegal, Err(15)) if full(journal) => return Err(18),
            (FullTooSoon, Ok(_)) if last => return Err(18),
            (FullAtItsLengthOnly, Err(18)) if journal.count < journal.records.len() => return with_room(masks, cells),
            (FullButMade, Err(18)) => drop(with_room(masks, cells)),
            (_, Ok(_)) => {
                Second.make_move(table, masks, cells, journal, m)?;
                self.recorded(journal, &before, m);
            }
            _ => {}
        }
        answer
    }

    fn undo(&self, table: &[u8], masks: &mut [u64], cells: &mut [u32], journal: &mut Journal) -> Result<Numbers, u32> {
        if past(journal) {
            let others = Second.undo(table, &mut masks.to_vec(), &mut cells.to_vec(), &mut roomy(journal));
            self.past(journal, others.map(|_| ()))?;
        }
        let mut wrong = journal.clone();
        let newest = journal.count.checked_sub(1).and_then(|at| wrong.records.get_mut(at));
        match (self.0, newest) {
            (UndoMakesTheRecord, Some(m)) => *m = opposite(m),
            (UndoMakesTheTransfer, Some(m)) if m.kind == 3 => *m = opposite(m),
            (UndoMakesTheSwap, Some(m)) if m.kind == 4 => *m = opposite(m),
            (UndoUnusedField, Some(m)) if m.kind != 3 => m.t = 0,
            (UndoOfTheOldest, Some(m)) => *m = journal.records[0],
            (UndoPastTheCount, None) if !journal.records.is_empty() => wrong.count = 1,
            _ => {}
        }
        let before = cells.to_vec();
        if self.0 == UndoFull && full(journal) && journal.count > 0 {
            Second.undo(table, &mut masks.to_vec(), &mut cells.to_vec(), &mut wrong)?;
            return Err(18);
        }
        let answer = Second.undo(table, masks, cells, &mut wrong);
        if answer.is_ok() {
            journal.count = wrong.count;
        }
        match (self.0, answer) {
            (UndoMasksOnly, Ok(_)) => cells.copy_from_slice(&before),
            (UndoKeepsTheCount, Ok(_)) => journal.count += 1,
            (UndoClearsTheRecord, Ok(_)) => journal.records[journal.count] = Move::default(),
            (UndoEmptyBeforeMasks, Err(13)) if journal.count == 0 => return Err(19),
            _ => {}
        }
        answer
    }

    fn test(&self, table: &[u8], masks: &mut [u64], cells: &mut [u32], call: Test, port: u32) -> Result<Numbers, u32> {
        Second.test(table, masks, cells, call, port)
    }

    fn trial(&self, table: &[u8], masks: &[u64], cells: &[u32], scratch: &mut [u32], m: &Move) -> Result<Numbers, u32> {
        Second.trial(table, masks, cells, scratch, m)
    }

    fn improve(
        &self,
        table: &[u8],
        masks: &mut [u64],
        cells: &mut [u32],
        scratch: &mut [u32],
        journal: &mut Journal,
        kinds: u32,
    ) -> Result<Improved, u32> {
        let before = journal.clone();
        if past(journal) {
            let others = Second.improve(table, &mut masks.to_vec(), &mut cells.to_vec(), scratch, &mut roomy(journal), kinds);
            match (self.0, others) {
                (PastUnlessMade, Ok(Improved::NoBetter(_))) => return others,
                _ => self.past(journal, others.map(|_| ()))?,
            }
        }
        let answer = Second.improve(table, masks, cells, scratch, journal, kinds);
        match (self.0, answer) {
            (FullWithNoneBetter, Ok(Improved::NoBetter(_))) if full(&before) => return Err(18),
            (ImproveUnrecorded, Ok(_)) => *journal = before,
            (ImproveRecordsNothing, Ok(Improved::NoBetter(_))) if !full(&before) => journal.count += 1,
            (_, Ok(Improved::Made(m, _))) => self.recorded(journal, &before, &m),
            _ => {}
        }
        answer
    }

    fn best_moves(
        &self,
        table: &[u8],
        masks: &[u64],
        cells: &[u32],
        scratch: &mut [u32],
        kinds: u32,
        list: &mut [Move],
    ) -> Result<usize, u32> {
        Second.best_moves(table, masks, cells, scratch, kinds, list)
    }
}

/// The difference that a run reports, if it does.
fn reported(mistake: Mistake) -> Option<String> {
    run(&Wrong(mistake), CALLS, 1, &mut Counts::default()).err()
}

#[test]
fn no_mistake_is_not_reported() {
    assert_eq!(reported(Right), None);
}

/// Each is reported by what it is: the answer, the masks, the cells, a record or the count.
fn reported_by(what: &str, mistakes: &[Mistake]) {
    for mistake in mistakes {
        let difference = reported(*mistake).unwrap_or_else(|| panic!("{mistake:?} is not reported"));
        assert!(difference.contains(what), "{mistake:?} is reported as {difference}");
    }
}

#[test]
fn wrong_records_are_reported() {
    reported_by("journal at", &[RecordTooFar, RecordOfTheOpposite, RecordOnRefusal, ImproveUnrecorded, UndoClearsTheRecord]);
}

#[test]
fn wrong_counts_are_reported() {
    reported_by("record count: ", &[CountOnRefusal, ImproveRecordsNothing, UndoKeepsTheCount]);
}

#[test]
fn wrong_numbers_of_a_move_are_reported() {
    reported_by("answer of Move", &[FullBeforeIllegal, FullTooSoon, FullAtItsLengthOnly]);
    reported_by("improve's answer of", &[FullWithNoneBetter, PastUnlessMade]);
    reported_by("answer of", &[PastItsLengthOnly, PastAfterMasks, PastBeforeTable]);
    reported_by("masks at", &[FullButMade]);
}

#[test]
fn wrong_undos_are_reported() {
    let wrong_moves = [UndoMakesTheRecord, UndoMakesTheTransfer, UndoMakesTheSwap, UndoOfTheOldest];
    reported_by("answer of undo", &wrong_moves);
    reported_by("answer of undo", &[UndoFull, UndoEmptyBeforeMasks, UndoPastTheCount, UndoUnusedField]);
    reported_by("cells at", &[UndoMasksOnly]);
}
