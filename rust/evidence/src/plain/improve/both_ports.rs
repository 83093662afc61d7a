//! What a swap brings to an atom beyond what the flips of its two ports bring each, where every variable of the set is bound above the
//! atom: over the tuples that hold both ports by variables of the set, both less each alone and plus none.
use super::atom::Atom;
use super::flips::members;
use super::rows::total;
use super::under::Under;
use crate::plain::check::OR;
use crate::plain::literal::with_digit;
use crate::plain::walk::At;

/// The flips of both ports with the sizes after the swap, and the set.
pub struct BothPorts<'a> {
    pub under: Under<'a>,
    pub atom: Atom,
    pub set: usize,
    pub two: [usize; 2],
}

/// A tuple as far as it goes, and the variables of the set that stand at each of the two ports.
#[derive(Clone, Copy)]
struct Held {
    depth: u8,
    place: usize,
    digits: u32,
    by: [u64; 2],
}

impl BothPorts<'_> {
    pub fn beyond(&self) -> u32 {
        self.going_on(self.atom.variables(members(self.set)), Held { depth: 0, place: 0, digits: 0, by: [0; 2] })
    }

    /// Over the tuples that go on from this one, `left` being the set's variables that are still to come.
    fn going_on(&self, left: u64, held: Held) -> u32 {
        let missing = held.by.iter().filter(|by| **by == 0).count() as u32;
        if missing > left.count_ones() {
            return 0;
        }
        if held.depth == self.atom.depth {
            return self.at(held);
        }
        let bit = 1 << held.depth;
        let own = left & bit != 0;
        let below = |port: usize| self.going_on(left & !bit, self.with(held, own, port));
        if own && missing == left.count_ones() {
            total(self.two.into_iter().map(below))
        } else {
            total((0..self.under.present.u).map(below))
        }
    }

    fn with(&self, held: Held, own: bool, port: usize) -> Held {
        let bit = u64::from(own) << held.depth;
        let by = [0, 1].map(|i| held.by[i] | if self.two[i] == port { bit } else { 0 });
        let place = held.place * self.under.present.u + port;
        Held { depth: held.depth + 1, place, digits: with_digit(held.digits, held.depth, port), by }
    }

    fn at(&self, held: Held) -> u32 {
        // Below 0 there is nothing: every cell that is touched is 0.
        if self.settled(held.place) {
            let resized = self.atom.uses & self.under.flips.sizes.touched != 0;
            return if resized { 0 } else { self.under.present.cell(self.atom.node, held.place) };
        }
        let cell = |by: u64| {
            let word = self.under.flips.sizes.touched | by << (4 * self.set);
            self.under.any_cell(self.atom.node, At { place: held.place, digits: held.digits, word })
        };
        let [p, q] = held.by;
        cell(p | q).wrapping_sub(cell(p)).wrapping_sub(cell(q)).wrapping_add(cell(0))
    }

    /// Whether a child of a minimum is 0 that the swap does not touch.
    fn settled(&self, place: usize) -> bool {
        let present = &self.under.present;
        let (word, node) = (members(self.set) | self.under.flips.sizes.touched, self.atom.node);
        let zero = |c: usize| present.nodes[c].uses & word == 0 && present.cell(c, place) == 0;
        present.nodes[node].kind() == OR && present.children(node).any(zero)
    }
}
