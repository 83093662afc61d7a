//! The driver of lists of calls: no difference where the second evaluator stands on both sides, and a difference for each mistake
//! that paper 01 says must be shut out, and for what request 2026-01 of paper 02 no longer leaves free. Mistakes of the journal are in
//! `list_journal.rs`, those of ports in test in `list_in_test.rs`.
use evidence::calls::{Calls, Improved, Journal, Move, Numbers, Test};
use evidence::counts::Counts;
use evidence::lists::{run, Second};
use evidence::second::moves::{best_moves, improved};

const CALLS: u64 = 1_000;

#[derive(Clone, Copy, PartialEq)]
enum Mistake {
    None,
    MendsRootOnly,
    WritesNothing,
    InventedCount,
    OnlyTheFirst,
    NoBetterAtOnce,
    ScratchPastTheEnd,
    LastOfTheBest,
    ListBackwards,
    ListOfOne,
    ListOfBetterOnly,
    ListPastTheCount,
    ListOnRefusal,
}

struct Wrong {
    mistake: Mistake,
    moves: std::cell::Cell<u32>,
}

impl Calls for Wrong {
    fn make_move(&self, table: &[u8], masks: &mut [u64], cells: &mut [u32], journal: &mut Journal, m: &Move) -> Result<Numbers, u32> {
        let before = cells.to_vec();
        let mut answer = Second.make_move(table, masks, cells, journal, m)?;
        self.moves.set(self.moves.get() + 1);
        let undone = match self.mistake {
            Mistake::MendsRootOnly => 1..cells.len(),
            Mistake::WritesNothing => 0..cells.len(),
            Mistake::OnlyTheFirst if self.moves.get() > 1 => 0..cells.len(),
            _ => 0..0,
        };
        cells[undone.clone()].copy_from_slice(&before[undone]);
        answer.changed += u32::from(self.mistake == Mistake::InventedCount);
        Ok(answer)
    }

    fn undo(&self, table: &[u8], masks: &mut [u64], cells: &mut [u32], journal: &mut Journal) -> Result<Numbers, u32> {
        Second.undo(table, masks, cells, journal)
    }

    fn test(&self, table: &[u8], masks: &mut [u64], cells: &mut [u32], call: Test, port: u32) -> Result<Numbers, u32> {
        Second.test(table, masks, cells, call, port)
    }

    fn trial(&self, table: &[u8], masks: &[u64], cells: &[u32], scratch: &mut [u32], m: &Move) -> Result<Numbers, u32> {
        let answer = Second.trial(table, masks, cells, scratch, m);
        if self.mistake == Mistake::ScratchPastTheEnd {
            scratch.iter_mut().for_each(|c| *c = c.wrapping_add(1));
        }
        answer
    }

    fn improve(
        &self,
        table: &[u8],
        masks: &mut [u64],
        cells: &mut [u32],
        scratch: &mut [u32],
        journal: &mut Journal,
        kinds: u32,
    ) -> Result<Improved, u32> {
        let best = best_moves(table, masks, cells, scratch.len(), kinds);
        let (mut ms, mut cs, root) = (masks.to_vec(), cells.to_vec(), cells.first().copied());
        let mut answer = Second.improve(table, &mut ms, &mut cs, scratch, journal, kinds)?;
        match (self.mistake, best, root) {
            (Mistake::NoBetterAtOnce, _, Some(root)) => return Ok(Improved::NoBetter(root)),
            // Improve as paper 01 alone would allow it.
            (Mistake::LastOfTheBest, Ok(best), Some(root)) => {
                answer = improved(&best[best.len().saturating_sub(1)..], root);
                (ms, cs) = (masks.to_vec(), cells.to_vec());
                if let Improved::Made(m, _) = &answer {
                    journal.count -= 1;
                    Second.make_move(table, &mut ms, &mut cs, journal, m)?;
                }
            }
            _ => {}
        }
        masks.copy_from_slice(&ms);
        cells.copy_from_slice(&cs);
        Ok(answer)
    }

    fn best_moves(
        &self,
        table: &[u8],
        masks: &[u64],
        cells: &[u32],
        scratch: &mut [u32],
        kinds: u32,
        list: &mut [Move],
    ) -> Result<usize, u32> {
        if self.mistake == Mistake::ListOnRefusal {
            list.iter_mut().for_each(|m| *m = Move::default());
        }
        let count = Second.best_moves(table, masks, cells, scratch, kinds, list)?;
        match self.mistake {
            Mistake::ListBackwards => list[..count].reverse(),
            Mistake::ListOfOne => return Ok(count.min(1)),
            Mistake::ListOfBetterOnly if count > 0 => {
                let root = Second.trial(table, masks, cells, scratch, &list[0])?.after;
                return Ok(if root < cells[0] { count } else { 0 });
            }
            Mistake::ListPastTheCount => list[count..].iter_mut().for_each(|m| *m = Move::default()),
            _ => {}
        }
        Ok(count)
    }
}

fn reported(mistake: Mistake) -> bool {
    let wrong = Wrong { mistake, moves: std::cell::Cell::new(0) };
    run(&wrong, CALLS, 1, &mut Counts::default()).is_err()
}

#[test]
fn no_mistake_is_not_reported() {
    assert!(!reported(Mistake::None));
}

#[test]
fn each_mistake_is_reported() {
    assert!(reported(Mistake::MendsRootOnly));
    assert!(reported(Mistake::WritesNothing));
    assert!(reported(Mistake::InventedCount));
    assert!(reported(Mistake::OnlyTheFirst));
    assert!(reported(Mistake::NoBetterAtOnce));
    assert!(reported(Mistake::ScratchPastTheEnd));
}

#[test]
fn each_mistake_of_the_best_moves_is_reported() {
    assert!(reported(Mistake::LastOfTheBest));
    assert!(reported(Mistake::ListBackwards));
    assert!(reported(Mistake::ListOfOne));
    assert!(reported(Mistake::ListOfBetterOnly));
    assert!(reported(Mistake::ListPastTheCount));
    assert!(reported(Mistake::ListOnRefusal));
}
