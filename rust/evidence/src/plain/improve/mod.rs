//! Improve and the list of best moves. Candidates share what their parts bring to each atom of the formula; where there are few of
//! them, each is walked.
mod all_ports;
mod atom;
mod both_ports;
mod differences;
mod flips;
mod rows;
mod under;

use super::change::{candidates, count_candidates, Change};
use super::check::Tables;
use super::configuration::Configuration;
use super::links::link;
use super::store::Reads;
use super::walked;
use crate::calls::Move;
use differences::Differences;
use under::Present;

/// How the root that a candidate would leave is found.
#[derive(Debug, Clone, Copy, PartialEq)]
pub enum Way {
    Walks,
    Shared,
}

/// So many candidates a set are few.
const FEW: usize = 8;
/// A plan of fewer cells is small.
const SMALL: usize = 4096;

/// The way that takes less time. Few candidates have little in common, and a walk costs little where no sum is deep or the plan is small.
pub fn quicker(tables: &Tables, masks: &[u64], kinds: u32) -> Way {
    let cheap = !tables.deep_sums || tables.cells < SMALL;
    if cheap && count_candidates(kinds, tables.u, tables.n, masks) < FEW * tables.n {
        Way::Walks
    } else {
        Way::Shared
    }
}

/// Hands out every candidate in the order kind, S, T, p, q with the root that it would leave.
pub fn each_root(tables: &mut Tables, masks: &[u64], cells: &[u32], kinds: u32, way: Way, each: impl FnMut(Move, u32)) {
    match way {
        Way::Walks => by_walks(tables, masks, cells, kinds, each),
        Way::Shared => by_differences(tables, masks, cells, kinds, each),
    }
}

fn by_walks(tables: &mut Tables, masks: &[u64], cells: &[u32], kinds: u32, mut each: impl FnMut(Move, u32)) {
    // Candidates of the same sets touch the same nodes.
    let mut word = 0;
    candidates(kinds, tables.u, tables.n, masks, |m| {
        let change = Change::by(&m);
        if change.word != word {
            word = change.word;
            link(&mut tables.nodes, word, 0);
        }
        each(m, walked(tables, &Configuration::after(masks, tables.n, &m), &change, Reads(cells)).0.after);
    });
}

fn by_differences(tables: &Tables, masks: &[u64], cells: &[u32], kinds: u32, mut each: impl FnMut(Move, u32)) {
    let sets = Configuration::of(masks, tables.n);
    let present = Present { nodes: &tables.nodes, u: tables.u, cells, sets: &sets };
    let differences = Differences::of(present, tables.n, kinds);
    candidates(kinds, tables.u, tables.n, masks, |m| each(m, differences.root_after(&m)));
}
