//! Lists of calls: moves, undos, trials, improves, lists of best moves and ports put in test over one plan's tables, each compared
//! with the second evaluator. Paper 01, sections One move and Lists of calls; requests 2026-01, 2026-03 and 2026-05 of paper 02.
//!
//! `archive::Archive` is what is compared. `Second` may stand in its place, which holds the rule of touched cells against
//! Definition 5; `tests/lists.rs` puts mistakes there, and `list_damage` damages what a call leaves: each must be reported.
use crate::best::{compare_best, wanted_ties, Given};
use crate::calls::{Calls, Improved, Journal, Move, Numbers, Test};
use crate::clauses::{cases, CASES};
use crate::counts::Counts;
use crate::desk::{any_move, damaged, desk, lend_foreign, lend_scratch, with_foreign_journal, Desk, MOST_CELLS, MOST_LARGE};
use crate::in_test::{self, any_test, compare_test, wanted_tests};
use crate::journals::{met, state, unknown_field, wanted_journals};
use crate::lent::{same, same_table, Compared};
use crate::random::{any_kinds, Random};
use crate::second::in_test::test;
use crate::second::journal::{improve, make_move, undo};
use crate::second::moves::{best_moves, listed, trial};
use crate::second::penalty::{cells as cells_of, in_set};

/// The second evaluator in the archive's place.
pub struct Second;

impl Calls for Second {
    fn make_move(&self, table: &[u8], masks: &mut [u64], cells: &mut [u32], journal: &mut Journal, m: &Move) -> Result<Numbers, u32> {
        make_move(table, masks, cells, journal, m)
    }

    fn undo(&self, table: &[u8], masks: &mut [u64], cells: &mut [u32], journal: &mut Journal) -> Result<Numbers, u32> {
        undo(table, masks, cells, journal)
    }

    fn test(&self, table: &[u8], masks: &mut [u64], cells: &mut [u32], call: Test, port: u32) -> Result<Numbers, u32> {
        test(table, masks, cells, call, port)
    }

    fn trial(&self, table: &[u8], masks: &[u64], cells: &[u32], scratch: &mut [u32], m: &Move) -> Result<Numbers, u32> {
        trial(table, masks, cells, scratch.len(), m)
    }

    fn improve(
        &self,
        table: &[u8],
        masks: &mut [u64],
        cells: &mut [u32],
        scratch: &mut [u32],
        journal: &mut Journal,
        kinds: u32,
    ) -> Result<Improved, u32> {
        improve(table, masks, cells, scratch.len(), journal, kinds)
    }

    fn best_moves(
        &self,
        table: &[u8],
        masks: &[u64],
        cells: &[u32],
        scratch: &mut [u32],
        kinds: u32,
        list: &mut [Move],
    ) -> Result<usize, u32> {
        let best = best_moves(table, masks, cells, scratch.len(), kinds)?;
        let count = listed(&best, list.len())?;
        list.iter_mut().zip(best).for_each(|(place, (m, _))| *place = m);
        Ok(count)
    }
}

/// After every call: masks, cells, every record of the journal and its count are the book's, which the second evaluator has worked.
fn compare_tables(d: &Desk, book: &Desk) -> Compared<()> {
    same_table("masks", &d.masks, &book.masks)?;
    same_table("cells", &d.cells, &book.cells)?;
    same_table("journal", &d.journal.records, &book.journal.records)?;
    same("record count", &d.journal.count, &book.journal.count)?;
    beside_definition(d)
}

/// The masks are the book's. Where the list began with a load, each cell is its penalty under them, whatever the calls' own rule says.
fn beside_definition(d: &Desk) -> Compared<()> {
    if d.foreign {
        return Ok(());
    }
    same_table("cells beside Definition 5", &d.cells[..d.plan.cells()], &cells_of(&d.plan, &d.masks))
}

fn move_class(m: &Move) -> String {
    let names = ["add", "drop", "transfer", "swap"];
    names.get((m.kind as usize).wrapping_sub(1)).map_or("unknown kind".to_string(), |n| n.to_string())
}

fn outcome<T>(answer: &Result<T, u32>) -> String {
    answer.as_ref().map_or_else(|n| format!("refused {n}"), |_| "accepted".to_string())
}

fn one_move(calls: &dyn Calls, d: &mut Desk, m: &Move, counts: &mut Counts) -> Compared<()> {
    let mut book = d.clone();
    let expected = make_move(&book.table, &mut book.masks, &mut book.cells, &mut book.journal, m);
    met("move", state(&d.journal), &outcome(&expected), counts);
    let answer = calls.make_move(&d.table, &mut d.masks, &mut d.cells, &mut d.journal, m);
    same(&format!("answer of {m:?}"), &answer, &expected)?;
    let kind = if d.over.is_empty() { format!(" {}", move_class(m)) } else { String::new() };
    counts.met(format!("move{kind}{}: {}", d.over, outcome(&expected)));
    if expected.is_ok() && in_set(&d.masks, d.plan.n, m.p as usize) {
        counts.met(format!("moves of a port in test, from {}", from(d)));
    }
    compare_tables(d, &book)
}

fn one_undo(calls: &dyn Calls, d: &mut Desk, counts: &mut Counts) -> Compared<()> {
    let mut book = d.clone();
    let expected = undo(&book.table, &mut book.masks, &mut book.cells, &mut book.journal);
    met("undo", state(&d.journal), &outcome(&expected), counts);
    let newest = d.journal.count.checked_sub(1).and_then(|at| d.journal.records.get(at)).copied();
    let in_test = d.masks.get(d.plan.n).copied();
    let answer = calls.undo(&d.table, &mut d.masks, &mut d.cells, &mut d.journal);
    same(&format!("answer of undo of {newest:?}"), &answer, &expected)?;
    counts.met(format!("undo{}: {}", d.over, outcome(&expected)));
    match (expected, newest) {
        (Ok(_), Some(m)) => counts.met(format!("undo of {}: accepted", move_class(&m))),
        (Err(14), Some(m)) => counts.met(format!("undo of {}: refused 14", unknown_field(&d.plan, &m))),
        _ => {}
    }
    // "Undo doesn't take them back": held against no evaluator.
    same("mask in test, which undo leaves as it was", &d.masks.get(d.plan.n).copied(), &in_test)?;
    compare_tables(d, &book)
}

fn one_test(calls: &dyn Calls, d: &mut Desk, r: &mut Random, counts: &mut Counts) -> Compared<()> {
    let asked = any_test(&d.plan, &d.masks, r);
    let mut given = in_test::Given { table: &d.table, masks: &mut d.masks, cells: &mut d.cells, over: d.over };
    compare_test(&mut given, asked, |g, (call, port)| calls.test(g.table, g.masks, g.cells, call, port), counts)?;
    beside_definition(d)
}

/// Scratch past the plan's own, and all of it where the call is refused, is as it was.
fn compare_scratch(d: &Desk, before: &[u32], accepted: bool) -> Compared<()> {
    let from = if accepted { d.plan.cells().min(before.len()) } else { 0 };
    same_table("scratch", &d.scratch[from..], &before[from..])
}

/// In a list's own tables nothing but scratch can be too short.
fn count_scratch(d: &Desk, counts: &mut Counts) {
    if d.over.is_empty() && d.scratch.len() < d.plan.cells() {
        counts.met("scratch too short");
    }
}

fn one_trial(calls: &dyn Calls, d: &mut Desk, m: &Move, counts: &mut Counts) -> Compared<()> {
    let book = d.clone();
    let expected = trial(&d.table, &d.masks, &d.cells, d.scratch.len(), m);
    let answer = calls.trial(&d.table, &d.masks, &d.cells, &mut d.scratch, m);
    same(&format!("trial's answer of {m:?}"), &answer, &expected)?;
    counts.met(format!("trial{}: {}", d.over, outcome(&expected)));
    count_scratch(d, counts);
    compare_scratch(d, &book.scratch, expected.is_ok())?;
    compare_tables(d, &book)
}

/// Improve's answer is one: it makes the first of the best.
fn one_improve(calls: &dyn Calls, d: &mut Desk, kinds: u32, counts: &mut Counts) -> Compared<()> {
    let mut book = d.clone();
    let expected = improve(&book.table, &mut book.masks, &mut book.cells, d.scratch.len(), &mut book.journal, kinds);
    let outcome = match &expected {
        Ok(Improved::Made(m, _)) => format!("made {}", move_class(m)),
        Ok(Improved::NoBetter(_)) => "no better move".to_string(),
        Err(number) => format!("refused {number}"),
    };
    met("improve", state(&d.journal), &outcome, counts);
    let answer = calls.improve(&d.table, &mut d.masks, &mut d.cells, &mut d.scratch, &mut d.journal, kinds);
    same(&format!("improve's answer of kinds {kinds}"), &answer, &expected)?;
    compare_scratch(d, &book.scratch, expected.is_ok())?;
    counts.met(format!("improve{}: {outcome}", d.over));
    if expected.is_ok() && d.over.is_empty() {
        cases(&d.plan).iter().for_each(|case| counts.met(format!("improve over a plan with {case}, from {}", from(d))));
    }
    count_scratch(d, counts);
    compare_tables(d, &book)
}

fn one_best(calls: &dyn Calls, d: &Desk, r: &mut Random, counts: &mut Counts) -> Compared<()> {
    let Desk { table, masks, cells, scratch, over, .. } = d;
    count_scratch(d, counts);
    compare_best(calls, &Given { table, masks, cells, scratch, kinds: any_kinds(r), over }, r, counts)
}

/// A call over tables with damage done: what they were stays.
fn one_damaged(calls: &dyn Calls, d: &Desk, r: &mut Random, counts: &mut Counts) -> Compared<()> {
    let m = any_move(&d.plan, &d.masks, r);
    let mut b = damaged(d, r);
    lend_scratch(&mut b, r);
    let told = |e: String, b: &Desk| {
        let lengths = format!("masks {}, cells {}, scratch {}", b.masks.len(), b.cells.len(), b.scratch.len());
        format!("{e}\n  damaged table {:?}, {lengths}, journal {:?}", b.table, b.journal)
    };
    match r.below(7) {
        0 => one_move(calls, &mut b, &m, counts),
        1 => one_undo(calls, &mut b, counts),
        2 if !d.large() => one_improve(calls, &mut b, any_kinds(r), counts),
        3 if !d.large() => one_best(calls, &b, r, counts),
        4 | 5 => one_test(calls, &mut b, r, counts),
        _ => one_trial(calls, &mut b, &m, counts),
    }
    .map_err(|e| told(e, &b))
}

/// A call that is lent a journal, with one that no list has made: what the list's own was stays.
fn one_foreign(calls: &dyn Calls, d: &Desk, r: &mut Random, counts: &mut Counts) -> Compared<()> {
    let mut b = with_foreign_journal(d, r);
    match r.below(3) {
        0 => one_undo(calls, &mut b, counts),
        1 if !d.large() => one_improve(calls, &mut b, any_kinds(r), counts),
        _ => one_move(calls, &mut b, &any_move(&d.plan, &d.masks, r), counts),
    }
    .map_err(|e| format!("{e}\n  foreign journal {:?}", b.journal))
}

/// How many foreign journals are tried at one place of a list.
const FOREIGN: usize = 12;

fn one_call(calls: &dyn Calls, d: &mut Desk, r: &mut Random, counts: &mut Counts) -> Compared<()> {
    lend_scratch(d, r);
    lend_foreign(d, r);
    match r.below(18) {
        0..=4 => one_move(calls, d, &any_move(&d.plan, &d.masks, r), counts),
        5 => one_undo(calls, d, counts),
        6..=7 => one_trial(calls, d, &any_move(&d.plan, &d.masks, r), counts),
        8..=11 => one_damaged(calls, d, r, counts),
        12..=14 => one_test(calls, d, r, counts),
        15 => (0..FOREIGN).try_for_each(|_| one_foreign(calls, d, r, counts)),
        _ if d.large() => one_trial(calls, d, &any_move(&d.plan, &d.masks, r), counts),
        16 => one_improve(calls, d, any_kinds(r), counts),
        _ => one_best(calls, d, r, counts),
    }
}

/// Most lists are short, so that many plans are met; some are long, and some are over large plans.
pub const SHORT: u64 = 100;
const LONG: u64 = 5_000;
const OVER_LARGE: u64 = 20;

/// Runs at least so many calls, each list over the tables of one plan.
pub fn run(calls: &dyn Calls, amount: u64, seed: u64, counts: &mut Counts) -> Compared<()> {
    let mut done = 0;
    let mut list = 0u64;
    while done < amount {
        let length = match list % 60 {
            59 => LONG,
            n if n % 6 == 5 => OVER_LARGE,
            _ => SHORT,
        };
        one_list(calls, length, seed, list, counts)?;
        counts.met(format!("lists of {length} calls"));
        done += length;
        list += 1;
    }
    Ok(())
}

/// The masks and cells with which a list stood at each record count, its start first. Undo brings them back: "masks and cells are
/// those before the move", with the present mask of ports in test: "it restores the set masks". This is held against no evaluator.
struct Stood(Vec<(Vec<u64>, Vec<u32>)>);

impl Stood {
    fn compare(&mut self, d: &Desk, counts: &mut Counts) -> Compared<()> {
        let (count, n) = (d.journal.count, d.plan.n);
        if count == self.0.len() {
            self.0.push((d.masks.clone(), d.cells.clone()));
            return Ok(());
        }
        let undone = count + 1 < self.0.len();
        self.0.truncate(count + 1);
        let (masks, cells) = &self.0[count];
        same_table("set masks brought back", &d.masks[..n], &masks[..n])?;
        same_table("masks past the plan's own", &d.masks[n + 1..], &masks[n + 1..])?;
        if d.masks[n] != masks[n] {
            if undone {
                counts.met(format!("taken back with other ports in test, from {}", from(d)));
            }
            return Ok(());
        }
        // A literal that is made afresh does not keep a foreign number.
        if d.foreign {
            Ok(())
        } else {
            same_table("cells brought back", &d.cells, cells)
        }
    }
}

/// What the cells of a list began as.
fn from(d: &Desk) -> &'static str {
    if d.foreign {
        "foreign cells"
    } else {
        "a load"
    }
}

/// A list under way: its tables, and how many calls were made.
struct List<'a> {
    calls: &'a dyn Calls,
    d: Desk,
    stood: Stood,
    made: u64,
}

impl List<'_> {
    /// One call, and what holds after every call.
    fn step(&mut self, call: impl FnOnce(&dyn Calls, &mut Desk, &mut Counts) -> Compared<()>, counts: &mut Counts) -> Compared<()> {
        let before = self.d.clone();
        let result = call(self.calls, &mut self.d, counts).and_then(|()| self.stood.compare(&self.d, counts));
        result.and_then(|()| same_table("plan table", &self.d.table, &before.table)).map_err(|e| {
            let tables = format!("masks {:?}, cells {:?}, table {:?}", before.masks, before.cells, before.table);
            format!("call {}: {e}\n  {}\n  before the call: {tables}, {:?}", self.made, before.text, before.journal)
        })?;
        self.made += 1;
        counts.met(format!("calls from {}", from(&self.d)));
        counts.met(if self.d.large() { "calls over large plans" } else { "calls over small plans" });
        Ok(())
    }

    /// Takes every move back, so that the sets are those of the list's start, and asks for one more. At times a port goes into test or
    /// out of it between two of them.
    fn take_back(&mut self, r: &mut Random, counts: &mut Counts) -> Compared<()> {
        let records = self.d.journal.count;
        let many = if records >= MANY { format!("{MANY} or more") } else { "fewer".to_string() };
        counts.met(format!("taken back from {}: {many} moves", from(&self.d)));
        (0..=records).try_for_each(|_| {
            if r.chance(10) {
                self.step(|calls, d, counts| one_test(calls, d, r, counts), counts)?;
            }
            self.step(one_undo, counts)
        })
    }
}

/// So many moves taken back are counted apart.
const MANY: usize = 10;

/// One list of so many calls at least, with its own numbers from the seed. Every move is taken back at its end, and in half of the lists
/// at times before.
pub fn one_list(calls: &dyn Calls, length: u64, seed: u64, list: u64, counts: &mut Counts) -> Compared<()> {
    let r = &mut Random::new(seed.wrapping_mul(1_000_003).wrapping_add(list));
    let sizes = if length == OVER_LARGE { MOST_CELLS + 1..=MOST_LARGE } else { 1..=MOST_CELLS };
    let d = desk(r, sizes);
    let mut l = List { calls, stood: Stood(vec![(d.masks.clone(), d.cells.clone())]), d, made: 0 };
    counts.met(format!("lists from {}", from(&l.d)));
    counts.met(format!("lists of depth {}", l.d.plan.deepest()));
    let often = if r.chance(50) { 3 } else { 0 };
    let mut work = || {
        while l.made < length {
            if r.chance(often) {
                l.take_back(r, counts)?;
            }
            l.step(|calls, d, counts| one_call(calls, d, r, counts), counts)?;
        }
        l.take_back(r, counts)
    };
    work().map_err(|e| format!("list {list}, seed {seed}, {e}"))
}

/// Classes that a run of the lists must meet, and how often.
pub fn missed(counts: &Counts) -> Vec<String> {
    let kinds = ["add", "drop", "transfer", "swap"];
    let mut wanted: Vec<String> =
        kinds.iter().flat_map(|k| ["accepted", "refused 14", "refused 15"].map(|o| format!("move {k}: {o}"))).collect();
    let refusals = |call: &str| (11..=13).map(|n| format!("{call} over damaged tables: refused {n}")).collect::<Vec<_>>();
    wanted.extend(["move", "undo", "trial", "improve", "best moves", "Begin", "End"].iter().flat_map(|call| refusals(call)));
    wanted.extend(["accepted", "refused 12", "refused 14", "refused 15"].map(|o| format!("trial: {o}")));
    wanted.extend(["made", "no better move", "refused 12", "refused 14"].map(|o| format!("improve: {o}")));
    wanted.extend(["listed", "refused 12", "refused 14", "refused 16"].map(|o| format!("best moves: {o}")));
    wanted.extend(["scratch too short", "calls from a load", "calls from foreign cells", "calls over large plans"].map(str::to_string));
    let of_tested = ["taken back with other ports in test", "moves of a port in test"];
    wanted.extend(of_tested.iter().flat_map(|class| ["a load", "foreign cells"].map(|from| format!("{class}, from {from}"))));
    let mut wanted: Vec<(String, u64)> = wanted.into_iter().map(|class| (class, 100)).collect();
    wanted.extend((0..=3).map(|depth| (format!("lists of depth {depth}"), 5)));
    wanted.push((format!("lists of {LONG} calls"), 1));
    wanted.extend(["move", "trial"].map(|call| (format!("{call} over damaged tables: accepted"), 20)));
    // Moves over 64 ports are too many for the second evaluator; `improving` meets them.
    let improved = CASES.into_iter().filter(|case| *case != "u 64");
    let from = |case: &str| ["a load", "foreign cells"].map(|from| (format!("improve over a plan with {case}, from {from}"), 10));
    wanted.extend(improved.flat_map(from));
    wanted.extend(wanted_ties());
    wanted.extend(wanted_journals());
    wanted.extend(wanted_tests("", &[14, 20]));
    let met = |class: &str| counts.0.iter().filter(|(c, _)| c.starts_with(class)).map(|(_, n)| n).sum::<u64>();
    wanted.into_iter().filter(|(c, least)| met(c) < *least).map(|(c, least)| format!("{c}: met {} times, not {least}", met(&c))).collect()
}
