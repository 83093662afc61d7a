//! The list of best moves (request 2026-01), compared with the second evaluator at every length of the lent list that matters.
use crate::calls::{Calls, Move};
use crate::counts::Counts;
use crate::journals::any_record;
use crate::lent::{lengths, same, same_table, Compared};
use crate::random::Random;
use crate::second::moves::{best_moves, listed, Tried};
use crate::second::table::decode;

/// What a call is lent beside its list. It writes none of this but scratch. `over` says in the counts which tables these are.
pub struct Given<'a> {
    pub table: &'a [u8],
    pub masks: &'a [u64],
    pub cells: &'a [u32],
    pub scratch: &'a [u32],
    pub kinds: u32,
    pub over: &'a str,
}

/// Asks for the best moves once for each length of the list, and compares the count, every record and scratch.
pub fn compare_best(calls: &dyn Calls, g: &Given, r: &mut Random, counts: &mut Counts) -> Compared<()> {
    let best = best_moves(g.table, g.masks, g.cells, g.scratch.len(), g.kinds);
    let all = lengths(best.as_ref().map_or(0, Vec::len), r);
    all.into_iter().try_for_each(|length| one_length(calls, g, &best, length, r, counts))?;
    if let Ok(best) = &best {
        count_ties(best, g.cells[0], counts);
    }
    Ok(())
}

fn one_length(
    calls: &dyn Calls,
    g: &Given,
    best: &Result<Vec<Tried>, u32>,
    length: usize,
    r: &mut Random,
    counts: &mut Counts,
) -> Compared<()> {
    let before: Vec<Move> = (0..length).map(|_| any_record(r)).collect();
    let (mut list, mut scratch) = (before.clone(), g.scratch.to_vec());
    let answer = calls.best_moves(g.table, g.masks, g.cells, &mut scratch, g.kinds, &mut list);
    let expected = best.as_ref().map_err(|number| *number).and_then(|best| listed(best, length));
    let told = |e: String| format!("{e}\n  kinds {}, a list of {length}, the best moves {best:?}", g.kinds);
    same("count of best moves", &answer, &expected).map_err(told)?;
    compare_list(best, &expected, &list, &before).map_err(told)?;
    compare_scratch(g, expected.is_ok(), &scratch).map_err(told)?;
    counts.met(format!("best moves{}: {}", g.over, expected.map_or_else(|n| format!("refused {n}"), |_| "listed".to_string())));
    Ok(())
}

/// The best moves in their order, then what stood there before; on a refusal all of that.
fn compare_list(best: &Result<Vec<Tried>, u32>, expected: &Result<usize, u32>, list: &[Move], before: &[Move]) -> Compared<()> {
    let count = expected.unwrap_or(0);
    let own: Vec<Move> = best.iter().flatten().take(count).map(|(m, _)| *m).collect();
    same_table("list of best moves", list, &[&own[..], &before[count..]].concat())
}

/// Scratch past the plan's own, and all of it where the call is refused, is as it was.
fn compare_scratch(g: &Given, accepted: bool, scratch: &[u32]) -> Compared<()> {
    let own = if accepted { decode(g.table).map_or(0, |plan| plan.cells()) } else { 0 };
    same_table("scratch of best moves", &scratch[own..], &g.scratch[own..])
}

/// How many moves share the least root, of how many kinds, and whether it is lower than now: only there does improve choose.
fn count_ties(best: &[Tried], root: u32, counts: &mut Counts) {
    let several_kinds = best.iter().any(|(m, _)| m.kind != best[0].0.kind);
    let lower = best.iter().any(|(_, n)| n.after < root);
    let classes = [
        (true, ""),
        (best.is_empty(), ": none"),
        (best.len() == 1, ": one"),
        (best.len() > 1, ": several"),
        (several_kinds, ": of several kinds"),
        (lower && best.len() > 1, ", root lower: several"),
        (lower && several_kinds, ", root lower: of several kinds"),
    ];
    classes.iter().filter(|(holds, _)| *holds).for_each(|(_, class)| counts.met(format!("best moves listed{class}")));
}

/// What a run says at its end about moves that are equally good.
pub fn told_ties(counts: &Counts) -> String {
    let [lists, several, kinds] = ["", ": several", ": of several kinds"].map(|class| counts.of(&format!("best moves listed{class}")));
    format!("{lists} lists of best moves: {several} have more than one, {kinds} more than one kind")
}

/// Classes of equally good moves that a run must meet, and how often.
pub fn wanted_ties() -> Vec<(String, u64)> {
    let often = [": several", ": of several kinds", ", root lower: several"].map(|class| (class, 100));
    let seldom = [": none", ": one", ", root lower: of several kinds"].map(|class| (class, 20));
    [often, seldom].concat().into_iter().map(|(class, least)| (format!("best moves listed{class}"), least)).collect()
}
