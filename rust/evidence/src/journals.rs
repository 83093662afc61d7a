//! Journals to lend (request 2026-03 of paper 02): an empty one for a list to begin with, and journals that no list has made.
use crate::calls::{Journal, Move};
use crate::counts::Counts;
use crate::desk::{any_move, legal_move};
use crate::random::Random;
use crate::second::journal::{full, opposite, MOST};
use crate::second::plan::Plan;

/// Any numbers, so that a record that is written, or not, is seen.
pub fn any_record(r: &mut Random) -> Move {
    let mut word = || r.word() as u32;
    Move { kind: word(), s: word(), t: word(), p: word(), q: word() }
}

/// Every small length, some longer ones, and some round 1,024 and past it.
fn any_length(r: &mut Random) -> usize {
    match r.below(10) {
        0..=4 => r.below(9),
        5..=6 => 9 + r.below(50),
        7 => MOST - 2 + r.below(5),
        _ => MOST + r.below(100),
    }
}

/// A journal with no record yet; its places hold anything.
pub fn empty(r: &mut Random) -> Journal {
    Journal { records: (0..any_length(r)).map(|_| any_record(r)).collect(), count: 0 }
}

/// Any record count: none, all that there is room for, the next ones, any number of 64 bits, one that would be known if it were cut to
/// fewer bits.
fn any_count(length: usize, r: &mut Random) -> usize {
    let room = length.min(MOST);
    match r.below(9) {
        0 => 0,
        1 | 2 => room,
        3 => room + 1 + r.below(3),
        4 => r.word() as usize >> r.below(64),
        5 => r.below(room + 1) + (1 << (8 + r.below(56))),
        _ => r.below(room + 1),
    }
}

/// A journal that no list has made.
pub fn foreign(plan: &Plan, masks: &[u64], r: &mut Random) -> Journal {
    let mut journal = empty(r);
    journal.count = any_count(journal.records.len(), r);
    // With no record yet, the place that the first one will have: undo must not look at it.
    if let Some(newest) = journal.records.get_mut(journal.count.saturating_sub(1)) {
        *newest = foreign_record(plan, masks, r);
    }
    journal
}

/// A record whose opposite is legal, one whose opposite is not, one with a wrong field, or one with any fields.
fn foreign_record(plan: &Plan, masks: &[u64], r: &mut Random) -> Move {
    match (legal_move(plan, masks, r), r.below(5)) {
        (Some(m), 0 | 1) => opposite(&m),
        (Some(m), 2) => m,
        (Some(m), 3) => wrong_field(plan, &opposite(&m), r),
        _ => any_move(plan, masks, r),
    }
}

/// One field is unknown, or not 0 though its kind does not use it.
fn wrong_field(plan: &Plan, m: &Move, r: &mut Random) -> Move {
    let more = if r.chance(30) { r.word() as u32 >> 8 } else { r.below(3) as u32 };
    let wrong = |used: bool, most: usize| more + if used { most as u32 } else { 1 };
    match r.below(5) {
        0 => Move { kind: if r.chance(50) { 0 } else { 5 + more }, ..*m },
        1 => Move { s: wrong(true, plan.n), ..*m },
        2 => Move { t: wrong(m.kind == 3, plan.n), ..*m },
        3 => Move { p: wrong(true, plan.u), ..*m },
        _ => Move { q: wrong(m.kind == 4, plan.u), ..*m },
    }
}

/// The first reason why a record meets 14.
pub fn unknown_field(plan: &Plan, m: &Move) -> &'static str {
    let (transfer, swap) = (m.kind == 3, m.kind == 4);
    let outside = |field: u32, most: usize| field as usize >= most;
    if !(1..=4).contains(&m.kind) {
        "unknown kind"
    } else if outside(m.s, plan.n) || transfer && outside(m.t, plan.n) {
        "unknown set"
    } else if outside(m.p, plan.u) || swap && outside(m.q, plan.u) {
        "unknown port"
    } else {
        "unused field"
    }
}

/// What a call finds in its journal.
pub fn state(journal: &Journal) -> &'static str {
    let length = journal.records.len();
    match journal.count {
        count if count > length => "past its length",
        count if count > MOST => "past 1,024",
        _ if length == 0 => "of length 0",
        0 => "empty",
        MOST if length > MOST => "full at 1,024",
        _ if full(journal) => "full",
        _ => "begun",
    }
}

/// The answer of a call, by what it found in its journal.
pub fn met(call: &str, found: &str, outcome: &str, counts: &mut Counts) {
    counts.met(format!("{call}, journal {found}: {outcome}"));
    if outcome.starts_with("refused") {
        counts.met(format!("{outcome} by {call}"));
    }
}

/// Classes of journals and of their calls that a run must meet, and how often.
pub fn wanted_journals() -> Vec<(String, u64)> {
    let numbers: [(&str, &[u32]); 3] =
        [("move", &[11, 12, 13, 14, 15, 18]), ("improve", &[11, 12, 13, 14, 18]), ("undo", &[11, 12, 13, 14, 15, 19])];
    let refused = numbers.iter().flat_map(|(call, all)| all.iter().map(move |n| format!("refused {n} by {call}")));
    let often = [
        "move, journal full: refused 18",
        "move, journal full: refused 14",
        "move, journal full: refused 15",
        "move, journal of length 0: refused 18",
        "move, journal past its length: refused 12",
        "improve, journal full: refused 18",
        "improve, journal full: no better move",
        "undo, journal empty: refused 19",
        "undo, journal of length 0: refused 19",
        "undo, journal full: accepted",
        "undo, journal begun: accepted",
        "undo, journal past its length: refused 12",
        "undo of unknown kind: refused 14",
        "undo of unknown set: refused 14",
        "undo of unknown port: refused 14",
        "undo of unused field: refused 14",
        "undo of add: accepted",
        "undo of drop: accepted",
        "undo of transfer: accepted",
        "undo of swap: accepted",
        "taken back from a load",
    ];
    let seldom = [
        "move, journal full at 1,024: refused 18",
        "move, journal past 1,024: refused 12",
        "move, journal full: refused 13",
        "improve, journal of length 0: no better move",
        "improve, journal of length 0: refused 18",
        "improve, journal past its length: refused 12",
        "improve, journal full at 1,024: refused 18",
        "undo, journal full at 1,024: accepted",
        "undo, journal past 1,024: refused 12",
        "undo, journal empty: refused 11",
        "undo, journal empty: refused 12",
        "undo, journal empty: refused 13",
        "taken back from a load: 10 or more moves",
    ];
    let often = refused.chain(often.map(str::to_string)).map(|class| (class, 100));
    often.chain(seldom.map(|class| (class.to_string(), 10))).collect()
}
