//! The same by rows: the u cells of a node below a quantifier, at every port of its innermost variable. A cell that is not touched
//! keeps its number.
use super::under::{Present, Under};
use crate::plain::change::ports;
use crate::plain::check::{Node, ALL, AND, IN, NOT_IN, OR, SOME};
use crate::plain::fill::member_row;
use crate::plain::literal::with_digit;
use crate::plain::walk::At;

pub type Row = [u32; 64];

/// The most ports of a move: so many are done one by one.
const FEW: u32 = 2;

/// A sum modulo 2^32.
pub fn total(parts: impl Iterator<Item = u32>) -> u32 {
    parts.fold(0, u32::wrapping_add)
}

/// Adds new minus old, port by port.
pub fn add_differences(into: &mut [u32], new: &[u32], old: &[u32]) {
    for ((sum, n), o) in into.iter_mut().zip(new).zip(old) {
        *sum = sum.wrapping_add(n.wrapping_sub(*o));
    }
}

pub fn sum_of_differences(new: &[u32], old: &[u32]) -> u32 {
    total(new.iter().zip(old).map(|(n, o)| n.wrapping_sub(*o)))
}

fn least_into(into: &mut [u32], cells: &[u32]) {
    into.iter_mut().zip(cells).for_each(|(least, c)| *least = (*least).min(*c));
}

impl Present<'_> {
    /// The least of those children of a minimum that no part of a change touches.
    pub fn least_untouched(&self, k: usize, word: u64, place: usize, out: &mut [u32]) {
        let mut untouched = self.children(k).filter(|c| self.nodes[*c].uses & word == 0).map(|c| self.row(c, place));
        match untouched.next() {
            Some(first) => out.copy_from_slice(first),
            None => return out.fill(u32::MAX),
        }
        untouched.for_each(|row| least_into(out, row));
    }
}

impl Under<'_> {
    /// `row` is the place of port 0, the digits outside, and the word of a port that flips, which must touch the node.
    pub fn row(&self, k: usize, row: At, out: &mut [u32]) {
        let node = &self.present.nodes[k];
        match node.kind() {
            ALL | SOME => out.iter_mut().enumerate().for_each(|(port, cell)| *cell = self.cell_in_row(k, row, port)),
            AND => self.row_of_sums(k, row, out),
            OR => {
                self.present.least_untouched(k, row.word, row.place, out);
                self.join_touched(k, row.word, row, out);
            }
            IN | NOT_IN if node.a() + 1 == node.depth => self.row_of_members(node, row, out),
            _ => out.fill(self.literal(node, row.digits)),
        }
    }

    pub fn row_difference(&self, k: usize, row: At) -> u32 {
        let mut new = [0; 64];
        self.row(k, row, &mut new[..self.present.u]);
        sum_of_differences(&new[..self.present.u], self.present.row(k, row.place))
    }

    /// Gives its old number back to each port that does not flip; few flip, or all but few.
    fn keep(&self, old: &[u32], out: &mut [u32]) {
        if self.flips.ports.count_ones() <= FEW {
            let (first, last) = (self.flips.ports.trailing_zeros() as usize, 63 - self.flips.ports.leading_zeros() as usize);
            let flipped = [out[first], out[last]];
            out.copy_from_slice(old);
            [out[first], out[last]] = flipped;
        } else {
            let kept = !self.flips.ports & u64::MAX >> (64 - out.len());
            ports(kept).for_each(|port| out[port as usize] = old[port as usize]);
        }
    }

    /// The cell of a row at a port.
    fn cell_in_row(&self, k: usize, row: At, port: usize) -> u32 {
        let level = self.present.nodes[k].depth - 1;
        let word = self.flips.word_at(row.word, level, port);
        self.any_cell(k, At { place: row.place + port, digits: with_digit(row.digits, level, port), word })
    }

    /// Joins a row of quantifiers to a minimum, where it is not 0 already.
    fn join_quantifiers(&self, k: usize, row: At, out: &mut [u32]) {
        let open = out.iter_mut().enumerate().filter(|(_, least)| **least > 0);
        open.for_each(|(port, least)| *least = (*least).min(self.cell_in_row(k, row, port)));
    }

    fn row_of_sums(&self, k: usize, row: At, out: &mut [u32]) {
        out.copy_from_slice(self.present.row(k, row.place));
        let mut part = [0; 64];
        let part = &mut part[..out.len()];
        for c in self.present.children(k).filter(|c| self.touched(*c, row.word)) {
            self.row(c, row, part);
            add_differences(out, part, self.present.row(c, row.place));
        }
    }

    /// Joins those children of a minimum that a wider word touches to the others, whose least `out` is already.
    pub fn join_touched(&self, k: usize, wider: u64, row: At, out: &mut [u32]) {
        // Below 0 there is nothing. All bits together are found by vectors, the first cell that is not 0 is not.
        if out.iter().fold(0, |bits, c| bits | c) != 0 {
            self.join_children(k, wider, row, out);
        }
        if !self.touched(k, self.flips.rest(row.word, self.present.nodes[k].depth - 1)) {
            self.keep(self.present.row(k, row.place), out);
        }
    }

    fn join_children(&self, k: usize, wider: u64, row: At, out: &mut [u32]) {
        let mut part = [0; 64];
        let part = &mut part[..out.len()];
        for c in self.present.children(k).filter(|c| self.touched(*c, wider)) {
            if !self.touched(c, row.word) {
                least_into(out, self.present.row(c, row.place));
            } else if self.present.nodes[c].is_quantifier() {
                self.join_quantifiers(c, row, out);
            } else {
                self.row(c, row, part);
                least_into(out, part);
            }
        }
    }

    /// A membership literal by the row's own variable.
    fn row_of_members(&self, node: &Node, row: At, out: &mut [u32]) {
        let old = &self.present.cells[node.first as usize + row.place..][..out.len()];
        if self.flips.ports.count_ones() <= FEW {
            out.copy_from_slice(old);
            self.flips.each_port().for_each(|p| out[p] = self.literal(node, with_digit(row.digits, node.a(), p)));
        } else {
            let after = self.present.sets.sets[usize::from(node.b())] ^ self.flips.ports;
            member_row(after, u32::from(node.kind() == NOT_IN), out);
            self.keep(old, out);
        }
    }
}
