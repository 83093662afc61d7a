//! The walk of a change over the touched cells, one cell at a time.
use super::change::Change;
use super::check::{Node, ALL, AND, OR, ROOT, SOME};
use super::configuration::Configuration;
use super::literal::{penalty, with_digit};
use super::store::Store;

pub struct Walk<'a, S> {
    pub nodes: &'a [Node],
    pub u: usize,
    /// The configuration after the change.
    pub new: &'a Configuration,
    pub change: &'a Change,
    pub store: S,
    /// How many cells met so far differ from before.
    pub changed: u32,
}

/// Where a walk stands: the number of a cell among its node's, its tuple, and the word that says what is touched there.
#[derive(Clone, Copy)]
pub struct At {
    pub place: usize,
    pub digits: u32,
    pub word: u64,
}

/// A cell before and after.
pub struct Step {
    pub old: u32,
    pub new: u32,
}

impl Step {
    pub fn added_to(&self, sum: u32) -> u32 {
        sum.wrapping_add(self.new).wrapping_sub(self.old)
    }
}

impl<S: Store> Walk<'_, S> {
    /// The root after the change.
    pub fn root(&mut self) -> u32 {
        let word = self.change.word;
        if self.nodes[0].uses & word == 0 {
            return self.store.get(0);
        }
        self.cell(0, At { place: 0, digits: 0, word }).new
    }

    /// A touched cell.
    pub fn cell(&mut self, i: usize, at: At) -> Step {
        let nodes = self.nodes;
        let node = &nodes[i];
        let here = node.first as usize + at.place;
        let old = self.store.get(here);
        let new = match node.kind() {
            ROOT => self.cell(i + 1, at).new,
            AND => self.sum_of_children(i, old, at),
            OR => self.least_of_children(i, at),
            ALL => self.sum_of_ports(i, old, at),
            SOME => self.least_of_ports(i, at),
            _ => penalty(node, self.new, at.digits),
        };
        self.put(here, Step { old, new })
    }

    fn put(&mut self, at: usize, step: Step) -> Step {
        self.changed += u32::from(step.old != step.new);
        self.store.put(at, step.new);
        step
    }

    fn sum_of_children(&mut self, i: usize, old: u32, at: At) -> u32 {
        let nodes = self.nodes;
        let (mut sum, mut k) = (old, i + 1);
        while k < nodes[i].end() {
            if nodes[k].uses & at.word != 0 {
                sum = self.cell(k, at).added_to(sum);
            }
            k = nodes[k].next();
        }
        sum
    }

    fn least_of_children(&mut self, i: usize, at: At) -> u32 {
        let nodes = self.nodes;
        let (mut least, mut k) = (u32::MAX, i + 1);
        while k < nodes[i].end() {
            let touched = nodes[k].uses & at.word != 0;
            least = least.min(if touched { self.cell(k, at).new } else { self.store.get(nodes[k].first as usize + at.place) });
            k = nodes[k].next();
        }
        least
    }

    /// The cell of a quantifier's child at one of the ports that change.
    #[inline]
    pub fn at_port(&mut self, child: usize, row: At, depth: u8, port: usize) -> Step {
        let at = At { place: row.place + port, digits: with_digit(row.digits, depth, port), ..row };
        self.cell(child, at)
    }

    fn sum_of_ports(&mut self, i: usize, old: u32, at: At) -> u32 {
        let (depth, low, high) = (self.nodes[i].depth, self.change.low, self.change.high);
        let row = At { place: at.place * self.u, ..at };
        if self.nodes[i].uses & self.change.rest(at.word, depth) != 0 {
            let mut sums = [0; 64];
            self.row(i + 1, row, true, &mut sums);
            return sums[..self.u].iter().fold(old, |sum, d| sum.wrapping_add(*d));
        }
        if low == high {
            return self.at_port(i + 1, row, depth, low).added_to(old);
        }
        let [a, b] = self.at_both_ports(i + 1, row, depth);
        b.added_to(a.added_to(old))
    }

    /// The cells of a quantifier's child at both ports that change; the children of a sum are gone through once for both.
    // Inlined it would slow down every other cell.
    #[inline(never)]
    fn at_both_ports(&mut self, child: usize, row: At, depth: u8) -> [Step; 2] {
        let nodes = self.nodes;
        let ports = [self.change.low, self.change.high];
        if nodes[child].kind() != AND {
            return ports.map(|port| self.at_port(child, row, depth, port));
        }
        let here = ports.map(|port| nodes[child].first as usize + row.place + port);
        let old = here.map(|at| self.store.get(at));
        let (mut new, mut k) = (old, child + 1);
        while k < nodes[child].end() {
            if nodes[k].uses & row.word != 0 {
                new = [0, 1].map(|i| self.at_port(k, row, depth, ports[i]).added_to(new[i]));
            }
            k = nodes[k].next();
        }
        [0, 1].map(|i| self.put(here[i], Step { old: old[i], new: new[i] }))
    }

    fn least_of_ports(&mut self, i: usize, at: At) -> u32 {
        let (depth, low, high) = (self.nodes[i].depth, self.change.low, self.change.high);
        let row = At { place: at.place * self.u, ..at };
        if self.nodes[i].uses & self.change.rest(at.word, depth) != 0 {
            let mut least = [u32::MAX; 64];
            self.row(i + 1, row, false, &mut least);
            return least_of(&least[..self.u]);
        }
        let cells = self.store.row(self.nodes[i + 1].first as usize + row.place, self.u);
        let mut least = least_of(&cells[..low]).min(least_of(&cells[high + 1..]));
        if low < high {
            least = least.min(least_of(&cells[low + 1..high])).min(self.at_port(i + 1, row, depth, high).new);
        }
        least.min(self.at_port(i + 1, row, depth, low).new)
    }
}

pub fn least_of(cells: &[u32]) -> u32 {
    cells.iter().fold(u32::MAX, |least, c| least.min(*c))
}
