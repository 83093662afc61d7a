//! Load's grounds, what a move changes, trial, the best moves. Paper 01, sections One move and Grounds for refusal; request 2026-01 of
//! paper 02. The calls that write are in `journal` and `in_test`.
use super::penalty::{below, in_set, literal_penalty, tuples};
use super::plan::{Plan, ALL, AND, IN, NOT_IN, ROOT, SIZE};
use super::table::decode;
use crate::calls::{Improved, Move, Numbers};

/// One for each set, and "one further mask, after the sets," that "names the ports in test" (request 2026-05).
pub fn own_masks(plan: &Plan) -> usize {
    plan.n + 1
}

/// Grounds 11 to 13; `lengths` are those of the cell tables that are lent.
pub fn tables(table: &[u8], masks: &[u64], lengths: &[usize]) -> Result<Plan, u32> {
    let plan = decode(table).ok_or(11u32)?;
    let total = plan.cells();
    if masks.len() < own_masks(&plan) || lengths.iter().any(|l| *l < total) {
        return Err(12);
    }
    let outside = |m: &u64| (plan.u..64).any(|p| m >> p & 1 == 1);
    if masks[..own_masks(&plan)].iter().any(outside) {
        return Err(13);
    }
    Ok(plan)
}

/// Ground 14: "unknown kind, set, port [..], or an unused field not 0".
pub fn unknown(plan: &Plan, m: &Move) -> bool {
    let set = |s: u32| (s as usize) < plan.n;
    let port = |p: u32| (p as usize) < plan.u;
    let t = if m.kind == 3 { set(m.t) } else { m.t == 0 };
    let q = if m.kind == 4 { port(m.q) } else { m.q == 0 };
    !((1..=4).contains(&m.kind) && set(m.s) && t && port(m.p) && q)
}

/// The condition of a move whose fields are known; ground 15 is its opposite.
pub fn legal(masks: &[u64], m: &Move) -> bool {
    let has = |set: u32, port: u32| in_set(masks, set as usize, port as usize);
    match m.kind {
        1 => !has(m.s, m.p),
        2 => has(m.s, m.p),
        3 => m.s != m.t && has(m.s, m.p) && !has(m.t, m.p),
        _ => has(m.s, m.p) && !has(m.s, m.q),
    }
}

/// Grounds 14 and 15.
pub fn refused(plan: &Plan, masks: &[u64], m: &Move) -> Option<u32> {
    if unknown(plan, m) {
        return Some(14);
    }
    (!legal(masks, m)).then_some(15)
}

/// The pairs (set, port) that a move changes.
pub fn pairs(m: &Move) -> Vec<(usize, usize)> {
    let pair = |s: u32, p: u32| (s as usize, p as usize);
    match m.kind {
        1 | 2 => vec![pair(m.s, m.p)],
        3 => vec![pair(m.s, m.p), pair(m.t, m.p)],
        _ => vec![pair(m.s, m.p), pair(m.s, m.q)],
    }
}

/// "the port enters the set if it was out, and leaves it if it was in"
pub fn flipped(masks: &[u64], m: &Move) -> Vec<u64> {
    let mut after = masks.to_vec();
    for (set, port) in pairs(m) {
        after[set] ^= 1 << port;
    }
    after
}

/// Whether a pair touches a cell: "at or below that node stands a size literal on S, or a membership literal on S whose variable
/// has value p in the cell's tuple or is bound at or below the node".
pub fn touched(plan: &Plan, node: usize, tuple: &[usize], pair: (usize, usize)) -> bool {
    (node..usize::from(plan.nodes[node].end)).any(|i| {
        let n = &plan.nodes[i];
        match n.kind {
            SIZE => usize::from(n.a) == pair.0,
            IN | NOT_IN => usize::from(n.b) == pair.0 && tuple.get(usize::from(n.a)).is_none_or(|port| *port == pair.1),
            _ => false,
        }
    })
}

fn place(u: usize, tuple: &[usize]) -> usize {
    tuple.iter().fold(0, |at, port| at * u + port)
}

/// The plan's cells under `masks`, the touched ones written from any cells before: children first, sums by differences.
pub fn updated(plan: &Plan, masks: &[u64], is_touched: impl Fn(usize, &[usize]) -> bool, old: &[u32]) -> Vec<u32> {
    let firsts = plan.firsts();
    let at = |node: usize, tuple: &[usize]| firsts[node] + place(plan.u, tuple);
    let mut new = old.to_vec();
    for node in (0..plan.nodes.len()).rev() {
        for tuple in tuples(plan.u, plan.depth(node)) {
            if !is_touched(node, &tuple) {
                continue;
            }
            let kind = plan.nodes[node].kind;
            let here = at(node, &tuple);
            new[here] = if kind >= IN {
                literal_penalty(plan, masks, node, &tuple) as u32
            } else if kind == ALL || kind == AND {
                below(plan, node, &tuple)
                    .into_iter()
                    .filter(|(n, t)| is_touched(*n, t))
                    .fold(old[here], |sum, (n, t)| sum.wrapping_add(new[at(n, &t)]).wrapping_sub(old[at(n, &t)]))
            } else {
                let mut parts = below(plan, node, &tuple).into_iter().map(|(n, t)| new[at(n, &t)]);
                if kind == ROOT { parts.next() } else { parts.min() }.expect("it has children")
            };
        }
    }
    new
}

/// Root before, root after, "how many cells differ from before".
pub fn numbers(old: &[u32], new: &[u32]) -> Numbers {
    let changed = old.iter().zip(new).filter(|(a, b)| a != b).count() as u32;
    Numbers { before: old[0], after: new[0], changed }
}

/// The three numbers and the plan's own cells after a legal move.
pub fn made(plan: &Plan, masks: &[u64], cells: &[u32], m: &Move) -> (Numbers, Vec<u32>) {
    let old = &cells[..plan.cells()];
    let is_touched = |node: usize, tuple: &[usize]| pairs(m).iter().any(|pair| touched(plan, node, tuple, *pair));
    let new = updated(plan, &flipped(masks, m), is_touched, old);
    (numbers(old, &new), new)
}

/// The numbers of a move, with nothing written.
pub fn trial(table: &[u8], masks: &[u64], cells: &[u32], scratch: usize, m: &Move) -> Result<Numbers, u32> {
    let plan = tables(table, masks, &[cells.len(), scratch])?;
    if let Some(ground) = refused(&plan, masks, m) {
        return Err(ground);
    }
    Ok(made(&plan, masks, cells, m).0)
}

/// Every legal move of some kinds (a sum of 1 add, 2 drop, 4 transfer, 8 swap), "ordered by kind, S, T, p, q, smaller first".
pub fn legal_moves(plan: &Plan, masks: &[u64], kinds: u32) -> Vec<Move> {
    let (n, u) = (plan.n as u32, plan.u as u32);
    let mut all = Vec::new();
    for kind in (1..=4).filter(|k| kinds >> (k - 1) & 1 == 1) {
        let ts = if kind == 3 { n } else { 1 };
        let qs = if kind == 4 { u } else { 1 };
        for s in 0..n {
            for t in 0..ts {
                for p in 0..u {
                    all.extend((0..qs).map(|q| Move { kind, s, t, p, q }));
                }
            }
        }
    }
    all.retain(|m| refused(plan, masks, m).is_none());
    all
}

/// A move with the numbers that trial answers for it.
pub type Tried = (Move, Numbers);

/// "all legal moves of the given kinds that leave the least root, each once, in this order, even if that root isn't lower than now",
/// or the first of grounds 11 to 14.
pub fn best_moves(table: &[u8], masks: &[u64], cells: &[u32], scratch: usize, kinds: u32) -> Result<Vec<Tried>, u32> {
    let plan = tables(table, masks, &[cells.len(), scratch])?;
    if kinds == 0 || kinds > 15 {
        return Err(14);
    }
    let mut all: Vec<Tried> = legal_moves(&plan, masks, kinds).into_iter().map(|m| (m, made(&plan, masks, cells, &m).0)).collect();
    let least = all.iter().map(|(_, n)| n.after).min();
    all.retain(|(_, n)| Some(n.after) == least);
    Ok(all)
}

/// "Improve makes the first of the best", where it leaves a smaller root than now.
pub fn improved(best: &[Tried], root: u32) -> Improved {
    match best.first() {
        Some((m, numbers)) if numbers.after < root => Improved::Made(*m, *numbers),
        _ => Improved::NoBetter(root),
    }
}

/// How many best moves the call lists, or ground 16 where the lent list has no room for them.
pub fn listed(best: &[Tried], room: usize) -> Result<usize, u32> {
    if best.len() > room {
        return Err(16);
    }
    Ok(best.len())
}
