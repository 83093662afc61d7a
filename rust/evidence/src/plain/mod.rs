//! A plain incremental engine over the same tables, written to be fast: what the archive's times are held against.
//!
//! It takes the plan table, masks and cells as the archive does and answers the same numbers; it keeps no journal. It uses neither the
//! binding nor the second evaluator. The shape: one pass over the plan table gives each node its first cell and its end,
//! and one back over the nodes what it uses; a change then visits the touched cells only, by links over what is not touched, and where
//! every port below a quantifier is touched its cells are done as one row. Improve shares work among candidates.
mod change;
mod check;
mod configuration;
mod definition;
mod fill;
mod improve;
mod links;
mod literal;
mod parse;
mod read;
mod row;
mod store;
mod tokens;
mod tree;
mod walk;

use crate::calls::{Improved, Loaded, Move, Numbers, Test};
pub use read::read;

use change::Change;
use check::Tables;
use configuration::Configuration;
pub use improve::Way;
use improve::{each_root, quicker};
use links::link;
use store::{Counts, Reads, Store, Writes};
use walk::Walk;

/// Grounds 11 to 13; `shortest` is the length of the shortest cell table that is lent.
fn checked(table: &[u8], masks: &[u64], shortest: usize) -> Result<Tables, u32> {
    let tables = Tables::of(table).ok_or(11u32)?;
    if masks.len() <= tables.n || shortest < tables.cells {
        return Err(12);
    }
    let outside = if tables.u == 64 { 0 } else { u64::MAX << tables.u };
    if masks[..=tables.n].iter().any(|m| m & outside != 0) {
        return Err(13);
    }
    Ok(tables)
}

/// The same with what a change asks for.
fn open(table: &[u8], masks: &[u64], shortest: usize) -> Result<Tables, u32> {
    let mut tables = checked(table, masks, shortest)?;
    tables.gather();
    Ok(tables)
}

/// Grounds 11 to 15 of a move.
fn judge(table: &[u8], masks: &[u64], shortest: usize, m: &Move) -> Result<(Tables, Change), u32> {
    let tables = open(table, masks, shortest)?;
    let change = Change::of(m, tables.u, tables.n, masks)?;
    Ok((tables, change))
}

/// Grounds 11 to 14 and 20 of a port that goes into test or out of it.
fn judge_test(table: &[u8], masks: &[u64], shortest: usize, call: Test, port: u32) -> Result<(Tables, Change), u32> {
    let tables = open(table, masks, shortest)?;
    let change = Change::by_test(call, port, tables.u, tables.n, masks)?;
    Ok((tables, change))
}

/// The root before and after a change and how many cells differ.
fn walked<S: Store>(tables: &Tables, new: &Configuration, change: &Change, store: S) -> (Numbers, S) {
    let before = store.get(0);
    let mut walk = Walk { nodes: &tables.nodes, u: tables.u, new, change, store, changed: 0 };
    let after = walk.root();
    (Numbers { before, after, changed: walk.changed }, walk.store)
}

/// Links for a single change, which meets deep sums at many tuples and any other once.
fn link_once(tables: &mut Tables, change: &Change) {
    if tables.deep_sums {
        link(&mut tables.nodes, change.word, 2);
    }
}

/// Checks the tables and fills every cell.
pub fn load(table: &[u8], masks: &[u64], cells: &mut [u32]) -> Result<Loaded, u32> {
    let tables = checked(table, masks, cells.len())?;
    fill::all(&tables, &Configuration::of(masks, tables.n), cells);
    Ok(Loaded { root: cells[0], cells: tables.cells })
}

/// A plan whose table was checked once, so that recomputing it costs nothing but the cells.
pub struct Checked(Tables);

impl Checked {
    pub fn of(table: &[u8]) -> Option<Self> {
        Tables::of(table).map(Checked)
    }

    /// The root by Definition 5 as it is written, with no cells kept.
    pub fn root_by_definition(&self, masks: &[u64]) -> u32 {
        definition::root(&self.0, &Configuration::of(masks, self.0.n))
    }

    /// Definition 5 from scratch for every cell, by rows: what a move saves.
    pub fn recompute(&self, masks: &[u64], cells: &mut [u32]) -> u32 {
        fill::all(&self.0, &Configuration::of(masks, self.0.n), cells);
        cells[0]
    }
}

pub fn make_move(table: &[u8], masks: &mut [u64], cells: &mut [u32], m: &Move) -> Result<Numbers, u32> {
    let (mut tables, change) = judge(table, masks, cells.len(), m)?;
    link_once(&mut tables, &change);
    Ok(make(&tables, &change, masks, cells, m))
}

/// Makes a legal move.
fn make(tables: &Tables, change: &Change, masks: &mut [u64], cells: &mut [u32], m: &Move) -> Numbers {
    let new = Configuration::after(masks, tables.n, m);
    masks[..tables.n].copy_from_slice(&new.sets[..tables.n]);
    walked(tables, &new, change, Writes(cells)).0
}

/// Puts a port in test, or takes it out.
pub fn test(table: &[u8], masks: &mut [u64], cells: &mut [u32], call: Test, port: u32) -> Result<Numbers, u32> {
    let (mut tables, change) = judge_test(table, masks, cells.len(), call, port)?;
    masks[tables.n] ^= 1 << port;
    link_once(&mut tables, &change);
    Ok(walked(&tables, &Configuration::of(masks, tables.n), &change, Writes(cells)).0)
}

/// What a move would answer. It needs no scratch, and asks for it only because the archive's call does (12).
pub fn trial(table: &[u8], masks: &[u64], cells: &[u32], scratch: &[u32], m: &Move) -> Result<Numbers, u32> {
    let (mut tables, change) = judge(table, masks, cells.len().min(scratch.len()), m)?;
    link_once(&mut tables, &change);
    Ok(walked(&tables, &Configuration::after(masks, tables.n, m), &change, Reads(cells)).0)
}

/// How many cells a legal move touches.
pub fn touched(table: &[u8], masks: &[u64], cells: &[u32], m: &Move) -> Option<usize> {
    let (tables, change) = judge(table, masks, cells.len(), m).ok()?;
    Some(counted(&tables, masks, &change, cells))
}

/// How many cells an accepted call touches that puts a port in test or takes it out.
pub fn touched_by_test(table: &[u8], masks: &[u64], cells: &[u32], call: Test, port: u32) -> Option<usize> {
    let (tables, change) = judge_test(table, masks, cells.len(), call, port).ok()?;
    Some(counted(&tables, masks, &change, cells))
}

/// What is touched does not depend on what is written there.
fn counted(tables: &Tables, masks: &[u64], change: &Change, cells: &[u32]) -> usize {
    walked(tables, &Configuration::of(masks, tables.n), change, Counts { cells, touched: 0 }).1.touched
}

/// The tables of a call that goes through the moves of some kinds: grounds 11 to 14.
fn open_kinds(table: &[u8], masks: &[u64], shortest: usize, kinds: u32) -> Result<Tables, u32> {
    let tables = open(table, masks, shortest)?;
    if kinds == 0 || kinds > 15 {
        return Err(14);
    }
    Ok(tables)
}

/// The first of the best candidates in the order kind, S, T, p, q, made if it leaves a smaller root than now.
pub fn improve(table: &[u8], masks: &mut [u64], cells: &mut [u32], scratch: &[u32], kinds: u32) -> Result<Improved, u32> {
    let tables = open_kinds(table, masks, cells.len().min(scratch.len()), kinds)?;
    let way = quicker(&tables, masks, kinds);
    Ok(improve_by(tables, masks, cells, kinds, way))
}

/// Improve in a given way, so that the two can be compared.
pub fn improve_in(way: Way, table: &[u8], masks: &mut [u64], cells: &mut [u32], scratch: &[u32], kinds: u32) -> Result<Improved, u32> {
    let tables = open_kinds(table, masks, cells.len().min(scratch.len()), kinds)?;
    Ok(improve_by(tables, masks, cells, kinds, way))
}

/// Every candidate in the order kind, S, T, p, q, with the root that it would leave.
pub fn roots(way: Way, table: &[u8], masks: &[u64], cells: &[u32], kinds: u32) -> Result<Vec<(Move, u32)>, u32> {
    let mut tables = open_kinds(table, masks, cells.len(), kinds)?;
    let mut all = Vec::new();
    each_root(&mut tables, masks, cells, kinds, way, |m, left| all.push((m, left)));
    Ok(all)
}

fn improve_by(mut tables: Tables, masks: &mut [u64], cells: &mut [u32], kinds: u32, way: Way) -> Improved {
    let root = cells[0];
    let (mut least, mut chosen) = (root, None);
    each_root(&mut tables, masks, cells, kinds, way, |m, left| {
        if left < least {
            (least, chosen) = (left, Some(m));
        }
    });
    let Some(m) = chosen else {
        return Improved::NoBetter(root);
    };
    let change = Change::by(&m);
    link(&mut tables.nodes, change.word, 0);
    Improved::Made(m, make(&tables, &change, masks, cells, &m))
}

/// Every candidate that leaves the least root, in the same order, even if that root is not smaller than now; 16 where the list has
/// no room for them.
pub fn best_moves(table: &[u8], masks: &[u64], cells: &[u32], scratch: &[u32], kinds: u32, list: &mut [Move]) -> Result<usize, u32> {
    let mut tables = open_kinds(table, masks, cells.len().min(scratch.len()), kinds)?;
    let way = quicker(&tables, masks, kinds);
    let (mut least, mut best) = (u32::MAX, Vec::new());
    each_root(&mut tables, masks, cells, kinds, way, |m, left| {
        if left < least {
            least = left;
            best.clear();
        }
        if left == least {
            best.push(m);
        }
    });
    list.get_mut(..best.len()).ok_or(16u32)?.copy_from_slice(&best);
    Ok(best.len())
}
