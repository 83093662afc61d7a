//! The driver of lists of calls reports ports in test that are not kept by the rules of request 2026-05 of paper 02: each mistake stands
//! in the place of the second evaluator, and so does none.
use std::cell::RefCell;

use evidence::calls::{Calls, Improved, Journal, Move, Numbers, Test};
use evidence::counts::Counts;
use evidence::lists::{run, Second};
use evidence::second::moves::{numbers, updated};
use evidence::second::penalty::{cells as cells_of, in_set};
use evidence::second::plan::{Plan, IN, NOT_IN, SIZE};
use evidence::second::table::decode;

const CALLS: u64 = 2_000;

#[derive(Debug, Clone, Copy, PartialEq)]
enum Mistake {
    Right,
    MembershipLooks,
    OneSetOnly,
    EverySetWritten,
    TuplesOfThePortOnly,
    MembershipTouched,
    SizeCountsAll,
    SetsLoseThePort,
    MaskUnwritten,
    MaskOnRefusal,
    InventedCount,
    AlreadyBeforeUnknown,
    AlreadyUnseen,
    PortCutToSixBits,
    InTestUnchecked,
    SetMasksEnough,
    UndoRestoresInTest,
    MoveLeavesSizesOfTested,
}

use Mistake::*;

/// With the mask in test at each record count, for the mistake that brings it back.
struct Wrong {
    mistake: Mistake,
    stood: RefCell<Vec<u64>>,
}

/// Whether a literal on some sets' sizes stands at or below a node.
fn sized(plan: &Plan, node: usize, counts: impl Fn(usize) -> bool) -> bool {
    plan.nodes[node..usize::from(plan.nodes[node].end)].iter().any(|n| n.kind == SIZE && counts(usize::from(n.a)))
}

/// The touched cells are others.
fn retouched(plan: &Plan, masks: &[u64], cells: &mut [u32], is_touched: impl Fn(usize, &[usize]) -> bool) -> Numbers {
    let old = cells[..plan.cells()].to_vec();
    let new = updated(plan, masks, is_touched, &old);
    cells[..new.len()].copy_from_slice(&new);
    numbers(&old, &new)
}

/// Whether an add or drop touches a cell by a membership literal: "touched" with its size literals left out.
fn by_member(plan: &Plan, node: usize, tuple: &[usize], m: &Move) -> bool {
    let below = &plan.nodes[node..usize::from(plan.nodes[node].end)];
    let meets = |v: u8| tuple.get(usize::from(v)).is_none_or(|port| *port == m.p as usize);
    below.iter().any(|n| matches!(n.kind, IN | NOT_IN) && u32::from(n.b) == m.s && meets(n.a))
}

impl Wrong {
    /// After a move that went into the journal: the mask in test that it stood with.
    fn stand(&self, plan: &Plan, masks: &[u64], journal: &Journal) {
        let mut stood = self.stood.borrow_mut();
        stood.resize(journal.count - 1, 0);
        stood.push(masks[plan.n]);
    }

    /// An accepted call, `before` being the cells as they were.
    fn tested(&self, plan: &Plan, tables: (&mut [u64], &mut [u32]), before: &[u32], port: usize, right: Numbers) -> Numbers {
        let (masks, cells) = tables;
        let holds = |set: usize| in_set(masks, set, port);
        let mut again = |is_touched: &dyn Fn(usize, &[usize]) -> bool| {
            cells.copy_from_slice(before);
            retouched(plan, masks, cells, is_touched)
        };
        match self.mistake {
            OneSetOnly => {
                let first = (0..plan.n).find(|set| holds(*set));
                again(&|node, _| sized(plan, node, |set| Some(set) == first))
            }
            EverySetWritten => again(&|node, _| sized(plan, node, |_| true)),
            TuplesOfThePortOnly => again(&|node, tuple| sized(plan, node, holds) && tuple.iter().all(|p| *p == port)),
            MembershipTouched => again(&|node, _| sized(plan, node, holds) || plan.nodes[node].kind == IN),
            MembershipLooks => {
                let inside: Vec<u64> = masks[..plan.n].iter().map(|mask| mask & !masks[plan.n]).chain([0]).collect();
                let new = cells_of(plan, &inside);
                cells[..new.len()].copy_from_slice(&new);
                right
            }
            SizeCountsAll => {
                cells.copy_from_slice(before);
                Numbers { before: right.before, after: right.before, changed: 0 }
            }
            SetsLoseThePort => {
                masks[..plan.n].iter_mut().for_each(|mask| *mask &= !(1 << port));
                right
            }
            MaskUnwritten => {
                masks[plan.n] ^= 1 << port;
                right
            }
            InventedCount => Numbers { changed: right.changed + 1, ..right },
            _ => right,
        }
    }
}

/// The call with a mask in test that every plan's call takes: what a program answers that looks at the set masks alone.
fn unchecked<A>(table: &[u8], masks: &[u64], call: impl FnOnce(&mut [u64]) -> Result<A, u32>) -> Option<Result<A, u32>> {
    let plan = decode(table)?;
    let mut own = masks.get(..plan.n)?.to_vec();
    own.push(0);
    Some(call(&mut own))
}

impl Calls for Wrong {
    fn test(&self, table: &[u8], masks: &mut [u64], cells: &mut [u32], call: Test, port: u32) -> Result<Numbers, u32> {
        let before = cells.to_vec();
        let answer = Second.test(table, masks, cells, call, port);
        let with_none = |cells: &[u32]| unchecked(table, masks, |own| Second.test(table, own, &mut cells.to_vec(), call, port));
        match (self.mistake, answer) {
            (_, Ok(right)) => {
                let plan = decode(table).expect("the call is accepted");
                Ok(self.tested(&plan, (masks, cells), &before, port as usize, right))
            }
            (AlreadyBeforeUnknown, Err(14)) if call == Test::End => Err(20),
            (AlreadyUnseen, Err(20)) => Ok(numbers(cells, cells)),
            (MaskOnRefusal, Err(20)) => {
                let n = decode(table).expect("20 comes after 11").n;
                masks[n] ^= 1 << port;
                answer
            }
            (PortCutToSixBits, Err(14)) => Second.test(table, masks, cells, call, port % 64),
            (InTestUnchecked, Err(13)) | (SetMasksEnough, Err(12)) => with_none(cells).unwrap_or(answer),
            _ => answer,
        }
    }

    fn make_move(&self, table: &[u8], masks: &mut [u64], cells: &mut [u32], journal: &mut Journal, m: &Move) -> Result<Numbers, u32> {
        let before = cells.to_vec();
        let answer = Second.make_move(table, masks, cells, journal, m);
        let (Ok(_), Some(plan)) = (answer, decode(table)) else { return answer };
        self.stand(&plan, masks, journal);
        if self.mistake == MoveLeavesSizesOfTested && m.kind < 3 && in_set(masks, plan.n, m.p as usize) {
            cells.copy_from_slice(&before);
            return Ok(retouched(&plan, masks, cells, |node, tuple| by_member(&plan, node, tuple, m)));
        }
        answer
    }

    fn undo(&self, table: &[u8], masks: &mut [u64], cells: &mut [u32], journal: &mut Journal) -> Result<Numbers, u32> {
        let answer = Second.undo(table, masks, cells, journal);
        if let (UndoRestoresInTest, Ok(_), Some(plan)) = (self.mistake, answer, decode(table)) {
            masks[plan.n] = self.stood.borrow().get(journal.count).copied().unwrap_or(masks[plan.n]);
        }
        answer
    }

    fn trial(&self, table: &[u8], masks: &[u64], cells: &[u32], scratch: &mut [u32], m: &Move) -> Result<Numbers, u32> {
        Second.trial(table, masks, cells, scratch, m)
    }

    fn improve(
        &self,
        table: &[u8],
        masks: &mut [u64],
        cells: &mut [u32],
        scratch: &mut [u32],
        journal: &mut Journal,
        kinds: u32,
    ) -> Result<Improved, u32> {
        let answer = Second.improve(table, masks, cells, scratch, journal, kinds);
        if let (Ok(Improved::Made(..)), Some(plan)) = (answer, decode(table)) {
            self.stand(&plan, masks, journal);
        }
        answer
    }

    fn best_moves(
        &self,
        table: &[u8],
        masks: &[u64],
        cells: &[u32],
        scratch: &mut [u32],
        kinds: u32,
        list: &mut [Move],
    ) -> Result<usize, u32> {
        Second.best_moves(table, masks, cells, scratch, kinds, list)
    }
}

/// The difference that a run reports, if it does.
fn reported(mistake: Mistake) -> Option<String> {
    let wrong = Wrong { mistake, stood: RefCell::new(Vec::new()) };
    run(&wrong, CALLS, 1, &mut Counts::default()).err()
}

#[test]
fn no_mistake_is_not_reported() {
    assert_eq!(reported(Right), None);
}

/// Each is reported by what it is.
fn reported_by(what: &str, mistakes: &[Mistake]) {
    for mistake in mistakes {
        let difference = reported(*mistake).unwrap_or_else(|| panic!("{mistake:?} is not reported"));
        assert!(difference.contains(what), "{mistake:?} is reported as {difference}");
    }
}

#[test]
fn wrong_cells_are_reported() {
    reported_by("cells at", &[MembershipLooks]);
    reported_by("answer of", &[OneSetOnly, EverySetWritten, TuplesOfThePortOnly, MembershipTouched, SizeCountsAll]);
    reported_by("answer of Move", &[MoveLeavesSizesOfTested]);
}

#[test]
fn wrong_masks_are_reported() {
    reported_by("masks at", &[SetsLoseThePort, MaskUnwritten, MaskOnRefusal]);
    reported_by("mask in test, which undo leaves as it was", &[UndoRestoresInTest]);
}

#[test]
fn wrong_numbers_are_reported() {
    reported_by("answer of Begin", &[InventedCount]);
    reported_by("answer of End", &[AlreadyBeforeUnknown]);
    reported_by("answer of", &[AlreadyUnseen, PortCutToSixBits, InTestUnchecked, SetMasksEnough]);
}
