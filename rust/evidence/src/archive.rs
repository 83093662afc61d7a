//! The archive as it is compared: through the binding's safe functions, with answers in the records that all evaluators here have.
//! `Archive` calls the binding's raw functions too, on copies, and looks at every field.
use vuyekhang::raw::{self, CountAnswer, ImproveAnswer, LoadAnswer, MoveAnswer, ReadAnswer};
use vuyekhang::{Kinds, Moved, Refusal};

use crate::calls::{Calls, Improved, Journal, Loaded, Move, Numbers, Read, Test};
use crate::lent::{only_read, written};

pub fn read(u: u64, text: &[u8], table: &mut [u8]) -> Result<Read, u32> {
    let answer = vuyekhang::read(u, text, table);
    answer.map(|a| Read { nodes: a.nodes, cells: a.cells }).map_err(|refusal| refusal.number())
}

/// Answers the length of the text.
pub fn write(table: &[u8], text: &mut [u8]) -> Result<usize, u32> {
    vuyekhang::write(table, text).map_err(|refusal| refusal.number())
}

pub fn load(table: &[u8], masks: &[u64], cells: &mut [u32]) -> Result<Loaded, u32> {
    let answer = vuyekhang::load(table, masks, cells);
    answer.map(|a| Loaded { root: a.root, cells: a.cells }).map_err(|refusal| refusal.number())
}

/// The records of a lent journal, as the binding has them.
type Records = [vuyekhang::Move];

pub fn make_move(
    table: &[u8],
    masks: &mut [u64],
    cells: &mut [u32],
    journal: &mut Records,
    count: &mut usize,
    m: &Move,
) -> Result<Numbers, u32> {
    numbers(vuyekhang::make_move(table, masks, cells, journal, count, record(m)))
}

pub fn undo(table: &[u8], masks: &mut [u64], cells: &mut [u32], journal: &Records, count: &mut usize) -> Result<Numbers, u32> {
    numbers(vuyekhang::undo(table, masks, cells, journal, count))
}

pub fn test(table: &[u8], masks: &mut [u64], cells: &mut [u32], call: Test, port: u32) -> Result<Numbers, u32> {
    numbers(match call {
        Test::Begin => vuyekhang::test_begin(table, masks, cells, port),
        Test::End => vuyekhang::test_end(table, masks, cells, port),
    })
}

pub fn trial(table: &[u8], masks: &[u64], cells: &[u32], scratch: &mut [u32], m: &Move) -> Result<Numbers, u32> {
    numbers(vuyekhang::trial(table, masks, cells, scratch, record(m)))
}

pub fn improve(
    table: &[u8],
    masks: &mut [u64],
    cells: &mut [u32],
    scratch: &mut [u32],
    journal: &mut Records,
    count: &mut usize,
    kinds: u32,
) -> Result<Improved, u32> {
    match vuyekhang::improve(table, masks, cells, scratch, journal, count, Kinds(kinds)) {
        Ok(vuyekhang::Improved::Made { chosen, moved }) => numbers(Ok(moved)).map(|n| Improved::Made(move_of(&chosen), n)),
        Ok(vuyekhang::Improved::NoBetter { root }) => Ok(Improved::NoBetter(root)),
        Err(refusal) => Err(refusal.number()),
    }
}

/// A move as the binding has it.
pub fn record(m: &Move) -> vuyekhang::Move {
    vuyekhang::Move { kind: m.kind, s: m.s, t: m.t, p: m.p, q: m.q }
}

fn move_of(m: &vuyekhang::Move) -> Move {
    Move { kind: m.kind, s: m.s, t: m.t, p: m.p, q: m.q }
}

fn numbers(answer: Result<Moved, Refusal>) -> Result<Numbers, u32> {
    let number = |count: usize| u32::try_from(count).expect("a plan has fewer cells");
    answer.map(|a| Numbers { before: a.before, after: a.after, changed: number(a.changed) }).map_err(|refusal| refusal.number())
}

/// Every field of the raw answer that says this: "the answer is the number with all other fields 0".
pub fn read_fields(answer: Result<Read, u32>) -> ReadAnswer {
    match answer {
        Ok(a) => ReadAnswer { number: 0, nodes: a.nodes as u32, cells: a.cells as u32 },
        Err(number) => ReadAnswer { number, nodes: 0, cells: 0 },
    }
}

pub fn load_fields(answer: Result<Loaded, u32>) -> LoadAnswer {
    match answer {
        Ok(a) => LoadAnswer { number: 0, root: a.root, cells: a.cells as u32 },
        Err(number) => LoadAnswer { number, root: 0, cells: 0 },
    }
}

fn move_fields(answer: Result<Numbers, u32>) -> MoveAnswer {
    match answer {
        Ok(a) => MoveAnswer { number: 0, before: a.before, after: a.after, changed: a.changed },
        Err(number) => MoveAnswer { number, before: 0, after: 0, changed: 0 },
    }
}

/// "No better move" comes with the root as before and after, and with no move.
fn improve_fields(answer: Result<Improved, u32>) -> ImproveAnswer {
    let (found, m, a) = match answer {
        Ok(Improved::Made(m, numbers)) => (1, m, move_fields(Ok(numbers))),
        Ok(Improved::NoBetter(root)) => (0, Move::default(), move_fields(Ok(Numbers { before: root, after: root, changed: 0 }))),
        Err(number) => (0, Move::default(), move_fields(Err(number))),
    };
    ImproveAnswer { number: a.number, found, chosen: record(&m), before: a.before, after: a.after, changed: a.changed }
}

pub fn count_fields(answer: Result<usize, u32>) -> CountAnswer {
    match answer {
        Ok(count) => CountAnswer { number: 0, count: count as u32 },
        Err(number) => CountAnswer { number, count: 0 },
    }
}

const BYTE: u8 = 0xA5;
const MASK: u64 = u64::MAX;
const CELL: u32 = 0xDEAD_BEEF;
const RECORD: vuyekhang::Move = vuyekhang::Move { kind: CELL, s: CELL, t: CELL, p: CELL, q: CELL };
const COUNT: usize = usize::MAX;

/// The tables of a call that writes masks and cells.
fn lend<A>(table: &[u8], masks: &mut [u64], cells: &mut [u32], call: impl FnOnce(&[u8], &mut [u64], &mut [u32]) -> A) -> A {
    only_read(table, BYTE, |t| written(masks, MASK, |ms| written(cells, CELL, |cs| call(t, ms, cs))))
}

/// The journal of a call that writes it, the count too between guard words.
fn lend_journal<A>(journal: &mut Journal, call: impl FnOnce(&mut Records, &mut usize) -> A) -> A {
    let mut own = records(&journal.records);
    let answer = lend_count(&mut journal.count, |count| written(&mut own, RECORD, |j| call(j, count)));
    journal.records.iter_mut().zip(&own).for_each(|(m, own)| *m = move_of(own));
    answer
}

fn lend_count<A>(count: &mut usize, call: impl FnOnce(&mut usize) -> A) -> A {
    written(std::slice::from_mut(count), COUNT, |count| call(&mut count[0]))
}

fn records(all: &[Move]) -> Vec<vuyekhang::Move> {
    all.iter().map(record).collect()
}

/// The archive in a list of calls. Each table is lent as a copy between guard words: a word written outside of it, or to a table
/// that the call only reads, ends the run. So does a raw answer with a field that it should not have; raw functions are called
/// last, since no guard words stand around their copies.
pub struct Archive;

impl Calls for Archive {
    fn make_move(&self, table: &[u8], masks: &mut [u64], cells: &mut [u32], journal: &mut Journal, m: &Move) -> Result<Numbers, u32> {
        let (mut ms, mut cs, mut j, mut count) = (masks.to_vec(), cells.to_vec(), records(&journal.records), journal.count);
        let answer = lend_journal(journal, |j, count| lend(table, masks, cells, |t, ms, cs| make_move(t, ms, cs, j, count, m)));
        let fields = raw::make_move(table, &mut ms, &mut cs, &mut j, &mut count, record(m));
        assert_eq!(fields, move_fields(answer), "the fields of {m:?}");
        answer
    }

    fn undo(&self, table: &[u8], masks: &mut [u64], cells: &mut [u32], journal: &mut Journal) -> Result<Numbers, u32> {
        let (mut ms, mut cs, own, mut raw_count) = (masks.to_vec(), cells.to_vec(), records(&journal.records), journal.count);
        let mut over = |j: &Records, count: &mut usize| lend(table, masks, cells, |t, ms, cs| undo(t, ms, cs, j, count));
        let answer = lend_count(&mut journal.count, |count| only_read(&own, RECORD, |j| over(j, count)));
        let fields = raw::undo(table, &mut ms, &mut cs, &own, &mut raw_count);
        assert_eq!(fields, move_fields(answer), "the fields of undo");
        answer
    }

    fn test(&self, table: &[u8], masks: &mut [u64], cells: &mut [u32], call: Test, port: u32) -> Result<Numbers, u32> {
        let (mut ms, mut cs) = (masks.to_vec(), cells.to_vec());
        let answer = lend(table, masks, cells, |t, ms, cs| test(t, ms, cs, call, port));
        let fields = match call {
            Test::Begin => raw::test_begin(table, &mut ms, &mut cs, port),
            Test::End => raw::test_end(table, &mut ms, &mut cs, port),
        };
        assert_eq!(fields, move_fields(answer), "the fields of {call:?} of port {port}");
        answer
    }

    fn trial(&self, table: &[u8], masks: &[u64], cells: &[u32], scratch: &mut [u32], m: &Move) -> Result<Numbers, u32> {
        let mut raw_scratch = scratch.to_vec();
        let mut over = |t: &[u8], ms: &[u64], cs: &[u32]| written(scratch, CELL, |sc| trial(t, ms, cs, sc, m));
        let answer = only_read(table, BYTE, |t| only_read(masks, MASK, |ms| only_read(cells, CELL, |cs| over(t, ms, cs))));
        let fields = raw::trial(table, masks, cells, &mut raw_scratch, record(m));
        assert_eq!(fields, move_fields(answer), "the fields of a trial of {m:?}");
        answer
    }

    fn improve(
        &self,
        table: &[u8],
        masks: &mut [u64],
        cells: &mut [u32],
        scratch: &mut [u32],
        journal: &mut Journal,
        kinds: u32,
    ) -> Result<Improved, u32> {
        let (mut ms, mut cs, mut sc) = (masks.to_vec(), cells.to_vec(), scratch.to_vec());
        let (mut j, mut count) = (records(&journal.records), journal.count);
        let over = |j: &mut Records, count: &mut usize| {
            written(scratch, CELL, |sc| lend(table, masks, cells, |t, ms, cs| improve(t, ms, cs, sc, j, count, kinds)))
        };
        let answer = lend_journal(journal, over);
        let fields = raw::improve(table, &mut ms, &mut cs, &mut sc, &mut j, &mut count, kinds);
        assert_eq!(fields, improve_fields(answer), "the fields of an improve of kinds {kinds}");
        answer
    }

    fn best_moves(
        &self,
        table: &[u8],
        masks: &[u64],
        cells: &[u32],
        scratch: &mut [u32],
        kinds: u32,
        list: &mut [Move],
    ) -> Result<usize, u32> {
        let mut own = records(list);
        let (mut raw_scratch, mut raw_list) = (scratch.to_vec(), own.clone());
        let mut over = |t: &[u8], ms: &[u64], cs: &[u32]| {
            let call = |sc: &mut [u32], l: &mut [vuyekhang::Move]| vuyekhang::best_moves(t, ms, cs, sc, Kinds(kinds), l);
            written(scratch, CELL, |sc| written(&mut own, RECORD, |l| call(sc, l)))
        };
        let answer = only_read(table, BYTE, |t| only_read(masks, MASK, |ms| only_read(cells, CELL, |cs| over(t, ms, cs))));
        let answer = answer.map_err(|refusal| refusal.number());
        let fields = raw::best_moves(table, masks, cells, &mut raw_scratch, kinds, &mut raw_list);
        assert_eq!(fields, count_fields(answer), "the fields of the best moves of kinds {kinds}");
        list.iter_mut().zip(&own).for_each(|(m, own)| *m = move_of(own));
        answer
    }
}
