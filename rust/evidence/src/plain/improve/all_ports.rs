//! The flips of some sets at each port, all at once, where every variable of these sets is bound above the atom.
//!
//! In the row of an outer tuple the variables of the sets but the innermost stand at some ports already, and a flip at one of these
//! touches the whole row: it has a row of its own. A flip at any other port touches that port's cell alone, so that one row, in which
//! all of them flip, has the new numbers of all these flips.
use super::atom::{Atom, Brought};
use super::flips::{Flips, Sizes};
use super::rows::{add_differences, sum_of_differences, Row};
use super::under::Present;
use crate::plain::change::ports;
use crate::plain::check::OR;
use crate::plain::literal::{digit, with_digit};
use crate::plain::walk::At;

/// Some sets, the variables by which the atom tests them, the sizes after, and the ports that are asked for.
pub struct AllPorts<'a> {
    pub present: Present<'a>,
    pub atom: Atom,
    pub sets: u64,
    pub variables: u64,
    pub sizes: &'a Sizes,
    pub asked: u64,
}

/// The row of an outer tuple.
struct OuterRow {
    place: usize,
    digits: u32,
    /// Of a minimum, the least of those children that nothing touches.
    untouched: Row,
}

impl AllPorts<'_> {
    pub fn brought(&self) -> Brought {
        let mut all = Brought { by_sizes: 0, by_port: [0; 64] };
        let rows = self.present.u.pow(u32::from(self.atom.depth) - 1);
        for number in 0..rows {
            let (digits, ports) = self.outer(number);
            if self.resized() || self.innermost() || ports & self.asked != 0 {
                self.row(number * self.present.u, digits, ports, &mut all);
            }
        }
        all
    }

    /// Whether sizes alone change the atom.
    fn resized(&self) -> bool {
        self.atom.uses & self.sizes.touched != 0
    }

    /// Whether the innermost variable is one of the sets'.
    fn innermost(&self) -> bool {
        self.variables >> (self.atom.depth - 1) & 1 == 1
    }

    /// The digits of an outer tuple, and the ports at which the sets' variables stand in it.
    fn outer(&self, number: usize) -> (u32, u64) {
        let (mut left, mut digits, mut ports) = (number, 0, 0);
        for v in (0..self.atom.depth - 1).rev() {
            let port = left % self.present.u;
            left /= self.present.u;
            digits = with_digit(digits, v, port);
            ports |= (self.variables >> v & 1) << port;
        }
        (digits, ports)
    }

    fn row(&self, place: usize, digits: u32, outer: u64, all: &mut Brought) {
        let u = self.present.u;
        let mut row = OuterRow { place, digits, untouched: [0; 64] };
        if self.is_minimum() {
            self.present.least_untouched(self.atom.node, self.word(), place, &mut row.untouched[..u]);
        }
        let old = self.present.row(self.atom.node, place);
        if !self.resized() {
            return self.flipped(&row, outer, old, all);
        }
        let mut base = [0; 64];
        self.under(&row, 0, &mut base[..u]);
        all.by_sizes = all.by_sizes.wrapping_add(sum_of_differences(&base[..u], old));
        self.flipped(&row, outer, &base[..u], all);
    }

    /// What the flips bring to a row beyond the sizes.
    fn flipped(&self, row: &OuterRow, outer: u64, base: &[u32], all: &mut Brought) {
        let mut new = [0; 64];
        let new = &mut new[..self.present.u];
        for port in ports(outer & self.asked) {
            self.under(row, 1 << port, new);
            let sum = &mut all.by_port[port as usize];
            *sum = sum.wrapping_add(sum_of_differences(new, base));
        }
        if self.innermost() {
            self.under(row, !outer & u64::MAX >> (64 - self.present.u), new);
            add_differences(&mut all.by_port, new, base);
        }
    }

    /// What any of the flips touches.
    fn word(&self) -> u64 {
        self.sets | self.sizes.touched
    }

    fn is_minimum(&self) -> bool {
        self.present.nodes[self.atom.node].kind() == OR
    }

    /// The atom's new numbers in a row under the flip at some ports.
    fn under(&self, row: &OuterRow, ports: u64, out: &mut [u32]) {
        let flips = Flips { sets: if ports == 0 { 0 } else { self.sets }, ports, sizes: self.sizes };
        let outer = 0..self.atom.depth - 1;
        let word = outer.fold(flips.word(), |word, v| flips.word_at(word, v, digit(row.digits, v) as usize));
        let at = At { place: row.place, digits: row.digits, word };
        let under = self.present.under(flips);
        if self.atom.uses & word == 0 {
            out.copy_from_slice(self.present.row(self.atom.node, row.place));
        } else if self.is_minimum() {
            out.copy_from_slice(&row.untouched[..out.len()]);
            under.join_touched(self.atom.node, self.word(), at, out);
        } else {
            under.row(self.atom.node, at, out);
        }
    }
}
