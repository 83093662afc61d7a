//! The journal and undo (request 2026-03 of paper 02), by the archive and by the second evaluator: full journals of every small
//! length and of the longest, counts past the end, foreign records one by one, and the order of the grounds.
use evidence::archive::Archive;
use evidence::calls::{Calls, Improved, Journal, Move, Numbers};
use evidence::desk::legal_move;
use evidence::lists::Second;
use evidence::random::Random;
use evidence::second::moves::{legal_moves, trial};
use evidence::second::penalty::cells;
use evidence::second::plan::Plan;
use evidence::second::table::encode;
use evidence::second::text::read;

const BOTH: [&dyn Calls; 2] = [&Archive, &Second];

/// A record that no call writes.
const STOOD: Move = Move { kind: 9, s: 9, t: 9, p: 9, q: 9 };

/// A legal move, one that is not legal, and one of an unknown kind, wherever port 0 is in the first set and port 1 is not.
const DROP: Move = Move { kind: 2, s: 0, t: 0, p: 0, q: 0 };
const ILLEGAL: Move = Move { kind: 2, s: 0, t: 0, p: 1, q: 0 };
const UNKNOWN: Move = Move { kind: 5, s: 0, t: 0, p: 0, q: 0 };

/// The tables of a plan from its load on.
#[derive(Debug, Clone, PartialEq)]
struct Tables {
    table: Vec<u8>,
    masks: Vec<u64>,
    cells: Vec<u32>,
    journal: Journal,
}

impl Tables {
    fn make(&mut self, calls: &dyn Calls, m: &Move) -> Result<Numbers, u32> {
        calls.make_move(&self.table, &mut self.masks, &mut self.cells, &mut self.journal, m)
    }

    fn undo(&mut self, calls: &dyn Calls) -> Result<Numbers, u32> {
        calls.undo(&self.table, &mut self.masks, &mut self.cells, &mut self.journal)
    }

    fn improve(&mut self, calls: &dyn Calls, kinds: u32) -> Result<Improved, u32> {
        let mut scratch = self.cells.clone();
        calls.improve(&self.table, &mut self.masks, &mut self.cells, &mut scratch, &mut self.journal, kinds)
    }

    /// The numbers with which each call that is lent a journal refuses, nothing being written.
    fn refusals(&self, calls: &dyn Calls, m: &Move, kinds: u32) -> [u32; 3] {
        let mut after = self.clone();
        let [made, improved, undone] =
            [after.make(calls, m).err(), after.improve(calls, kinds).err(), after.undo(calls).err()].map(|e| e.expect("a refusal"));
        assert_eq!(after, *self);
        [made, improved, undone]
    }
}

/// One port of the first set too many or too few is a penalty, and a port that is not in both sets or in none.
const TEXT: &str = "[ST] #S = 1 & @x (x:S <-> x:T)";

fn plan() -> Plan {
    read(3, TEXT.as_bytes(), usize::MAX).expect("the text is sound").plan
}

/// The masks of two sets, with no port in test.
fn masks_of([s, t]: [u64; 2]) -> Vec<u64> {
    vec![s, t, 0]
}

/// The tables with these sets and a journal of some length with so many records, of which none fits them.
fn tables(sets: [u64; 2], length: usize, count: usize) -> Tables {
    let (plan, masks) = (plan(), masks_of(sets));
    let journal = Journal { records: vec![STOOD; length], count };
    Tables { table: encode(&plan), cells: cells(&plan, &masks), masks, journal }
}

/// A plan that is true, and one that a move mends.
const TRUE: [u64; 2] = [1, 1];
const MENDED: [u64; 2] = [1, 5];

/// Every small length, and those round 1,024.
fn lengths() -> impl Iterator<Item = usize> {
    (0..=8).chain([1_023, 1_024, 1_025, 1_100])
}

/// Fills a journal and takes every move back: as many as its length or 1,024, and not one more of either.
#[test]
fn filled_and_taken_back() {
    for (calls, length) in BOTH.into_iter().flat_map(|calls| lengths().map(move |length| (calls, length))) {
        let (plan, r) = (plan(), &mut Random::new(length as u64));
        let start = tables([5, 2], length, 0);
        let mut t = start.clone();
        let mut stood = Vec::new();
        for count in 0..length.min(1_024) {
            let m = legal_move(&plan, &t.masks, r).expect("some move is legal");
            let tried = trial(&t.table, &t.masks, &t.cells, t.cells.len(), &m);
            stood.push((t.masks.clone(), t.cells.clone()));
            assert_eq!(t.make(calls, &m), tried);
            assert_eq!((t.journal.records[count], t.journal.count), (m, count + 1));
        }
        let filled = t.clone();
        for m in legal_moves(&plan, &t.masks, 15) {
            assert_eq!(t.make(calls, &m), Err(18), "a journal of {length}");
        }
        assert_eq!(t, filled);
        for (masks, cells) in stood.into_iter().rev() {
            let roots = (t.cells[0], cells[0]);
            let undone = t.undo(calls).expect("a record is left");
            assert_eq!((undone.before, undone.after), roots);
            assert_eq!((&t.masks, &t.cells), (&masks, &cells), "a journal of {length}");
        }
        assert_eq!(t.undo(calls), Err(19), "a journal of {length}");
        assert_eq!(t, Tables { journal: Journal { records: filled.journal.records, count: 0 }, ..start });
    }
}

/// "the freed place is unwritten until used again"
#[test]
fn a_freed_place_is_used_again() {
    for calls in BOTH {
        let mut t = tables(TRUE, 3, 0);
        let add = |s: u32| Move { kind: 1, s, t: 0, p: 1, q: 0 };
        assert!(t.make(calls, &add(0)).is_ok());
        assert!(t.make(calls, &DROP).is_ok());
        assert!(t.undo(calls).is_ok());
        assert_eq!(t.journal, Journal { records: vec![add(0), DROP, STOOD], count: 1 });
        assert!(t.make(calls, &add(1)).is_ok());
        assert_eq!(t.journal, Journal { records: vec![add(0), add(1), STOOD], count: 2 });
    }
}

/// "18 [..] for a move that would else be accepted (for improve, only when it would make one), last"
#[test]
fn full_comes_last() {
    for (calls, length) in BOTH.into_iter().flat_map(|calls| lengths().map(move |length| (calls, length))) {
        let count = length.min(1_024);
        let mut full = tables(MENDED, length, count);
        assert_eq!(full.refusals(calls, &DROP, 15)[..2], [18, 18], "a journal of {length}");
        assert_eq!(full.refusals(calls, &ILLEGAL, 16)[..2], [15, 14]);
        assert_eq!(full.refusals(calls, &UNKNOWN, 0)[..2], [14, 14]);
        assert_eq!(full.improve(calls, 1), Ok(Improved::NoBetter(1)), "no add is better");
        assert_eq!(full, tables(MENDED, length, count));
        let mut none_better = tables(TRUE, length, count);
        assert_eq!(none_better.improve(calls, 15), Ok(Improved::NoBetter(0)));
        assert_eq!(none_better, tables(TRUE, length, count));
        if length > 0 {
            let mut room = tables(MENDED, length, count - 1);
            let better = Move { kind: 2, s: 1, t: 0, p: 2, q: 0 };
            assert!(matches!(room.improve(calls, 15), Ok(Improved::Made(m, Numbers { before: 1, after: 0, .. })) if m == better));
            assert_eq!((room.journal.records[count - 1], room.journal.count), (better, count));
            assert_eq!(room.undo(calls).map(|numbers| numbers.after), Ok(1));
            assert_eq!((room.masks, room.journal.count), (masks_of(MENDED), count - 1));
        }
    }
}

/// "a record count past the journal's length or past 1,024 is 12": of every call, also where improve would make no move.
#[test]
fn counts_past_the_journal() {
    let small = (0..=8).flat_map(|length| [length + 1, length + 2, 1_024, 1_025, 1 << 32, usize::MAX].map(|count| (length, count)));
    let long = [(1_023, 1_024), (1_024, 1_025), (1_025, 1_025), (1_100, 1_025), (1_100, 1_100), (1_100, 1_101), (1_100, usize::MAX)];
    for (calls, (length, count)) in BOTH.into_iter().flat_map(|calls| small.clone().chain(long).map(move |past| (calls, past))) {
        let past = tables(TRUE, length, count);
        assert_eq!(past.refusals(calls, &DROP, 15), [12; 3], "{count} records in {length}");
        assert_eq!(past.refusals(calls, &UNKNOWN, 0), [12; 3]);
        let outside = Tables { masks: vec![1, 8, 0], ..past.clone() };
        assert_eq!(outside.refusals(calls, &DROP, 15), [12; 3]);
        let broken = Tables { table: past.table[1..].to_vec(), ..past };
        assert_eq!(broken.refusals(calls, &DROP, 15), [11; 3]);
    }
}

/// "19, undo on an empty journal, after 13": and before any look at a record.
#[test]
fn empty_comes_after_the_masks() {
    for (calls, length) in BOTH.into_iter().flat_map(|calls| lengths().map(move |length| (calls, length))) {
        let empty = tables(TRUE, length, 0);
        let undone = |t: &Tables| t.clone().undo(calls);
        assert_eq!(undone(&empty), Err(19));
        let mut fits = empty.clone();
        fits.journal.records.iter_mut().for_each(|m| *m = Move { kind: 1, ..DROP });
        assert_eq!(undone(&fits), Err(19));
        assert_eq!(undone(&Tables { masks: vec![8, 1, 0], ..empty.clone() }), Err(13));
        assert_eq!(undone(&Tables { masks: vec![1, 1], ..empty.clone() }), Err(12));
        assert_eq!(undone(&Tables { cells: empty.cells[1..].to_vec(), ..empty.clone() }), Err(12));
        assert_eq!(undone(&Tables { table: empty.table[1..].to_vec(), ..empty.clone() }), Err(11));
    }
}

/// "A foreign record meets 14, and its opposite 15, as any move does": every record with fields up to one past the known ones. As many
/// are taken back as there are legal moves, since each is the opposite of one record.
#[test]
fn foreign_records() {
    let fields = |most: u32| 0..=most;
    let all: Vec<Move> = fields(5)
        .flat_map(|kind| fields(2).flat_map(move |s| fields(2).map(move |t| (kind, s, t))))
        .flat_map(|(kind, s, t)| fields(3).flat_map(move |p| fields(3).map(move |q| Move { kind, s, t, p, q })))
        .collect();
    for sets in [TRUE, MENDED, [0, 0], [7, 7], [6, 3]] {
        let mut met = [0; 3];
        for record in &all {
            let mut foreign = tables(sets, 4, 2);
            foreign.journal.records[1] = *record;
            let [by_archive, by_second] = BOTH.map(|calls| {
                let mut t = foreign.clone();
                let answer = t.undo(calls);
                (answer, t)
            });
            assert_eq!(by_archive, by_second, "{record:?}");
            let (answer, after) = by_archive;
            let count = 2 - usize::from(answer.is_ok());
            assert_eq!(after.journal, Journal { count, ..foreign.journal.clone() });
            assert_eq!(after == foreign, answer.is_err());
            met[answer.map_or_else(|number| number as usize - 13, |_| 0)] += 1;
        }
        let legal = legal_moves(&plan(), &masks_of(sets), 15).len();
        // Of the known records the adds and drops are 6 each, the transfers 12 and the swaps 18.
        assert_eq!(met, [legal, all.len() - 42, 42 - legal], "accepted, 14 and 15");
    }
}

/// An operator's afternoon: two moves and an improve, taken back one by one.
#[test]
fn moves_of_improve_are_taken_back() {
    for calls in BOTH {
        let start = tables([0, 5], 3, 0);
        let mut t = start.clone();
        let transfer = Move { kind: 3, s: 1, t: 0, p: 2, q: 0 };
        let swap = Move { kind: 4, s: 0, t: 0, p: 2, q: 1 };
        assert!(t.make(calls, &transfer).is_ok() && t.make(calls, &swap).is_ok());
        assert_eq!(t.masks, [2, 1, 0]);
        let Ok(Improved::Made(chosen, _)) = t.improve(calls, 15) else { panic!("some move is better") };
        assert_eq!(t.journal, Journal { records: vec![transfer, swap, chosen], count: 3 });
        assert!(t.undo(calls).is_ok());
        assert_eq!(t.masks, [2, 1, 0]);
        assert!(t.undo(calls).is_ok());
        assert_eq!(t.masks, [4, 1, 0]);
        assert!(t.undo(calls).is_ok());
        assert_eq!((t.masks, t.cells, t.journal.count), (start.masks, start.cells, 0));
    }
}
