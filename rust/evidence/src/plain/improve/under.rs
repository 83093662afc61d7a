//! The new numbers of touched cells under flips, one cell at a time. Nothing is written or counted.
use super::flips::Flips;
use super::rows::total;
use crate::plain::check::{Node, ALL, AND, IN, OR, SIZE, SOME};
use crate::plain::configuration::Configuration;
use crate::plain::literal::{digit, member, size_penalty, with_digit};
use crate::plain::walk::{least_of, At};

/// A plan with its cells and sets, as they are.
#[derive(Clone, Copy)]
pub struct Present<'a> {
    pub nodes: &'a [Node],
    pub u: usize,
    pub cells: &'a [u32],
    pub sets: &'a Configuration,
}

impl<'a> Present<'a> {
    pub fn under(self, flips: Flips<'a>) -> Under<'a> {
        Under { present: self, flips }
    }

    pub fn cell(&self, k: usize, place: usize) -> u32 {
        self.cells[self.nodes[k].first as usize + place]
    }

    /// The u cells from a place on.
    pub fn row(&self, k: usize, place: usize) -> &'a [u32] {
        &self.cells[self.nodes[k].first as usize + place..][..self.u]
    }

    /// The children of a node that has some.
    pub fn children(&self, k: usize) -> impl Iterator<Item = usize> + 'a {
        let nodes = self.nodes;
        let end = nodes[k].end();
        std::iter::successors(Some(k + 1), move |c| Some(nodes[*c].end()).filter(|next| *next < end))
    }
}

#[derive(Clone, Copy)]
pub struct Under<'a> {
    pub present: Present<'a>,
    pub flips: Flips<'a>,
}

impl Under<'_> {
    pub fn touched(&self, k: usize, word: u64) -> bool {
        self.present.nodes[k].uses & word != 0
    }

    /// A cell, touched or not.
    pub fn any_cell(&self, k: usize, at: At) -> u32 {
        if self.touched(k, at.word) {
            self.cell(k, at)
        } else {
            self.present.cell(k, at.place)
        }
    }

    /// A touched cell.
    pub fn cell(&self, k: usize, at: At) -> u32 {
        let node = &self.present.nodes[k];
        match node.kind() {
            AND => self.sum_of_children(k, at),
            OR => self.least_of_children(k, at),
            ALL => self.sum_of_ports(k, at),
            SOME => self.least_of_ports(k, at),
            _ => self.literal(node, at.digits),
        }
    }

    /// A touched literal: where it is of membership, its port flips.
    pub fn literal(&self, node: &Node, digits: u32) -> u32 {
        if node.kind() == SIZE {
            return size_penalty(node.relation(), self.flips.sizes.of[usize::from(node.a())], u32::from(node.b()));
        }
        let before = member(self.present.sets.sets[usize::from(node.b())], digit(digits, node.a()));
        if node.kind() == IN {
            before
        } else {
            1 - before
        }
    }

    /// New minus old of a touched cell.
    pub fn difference(&self, k: usize, at: At) -> u32 {
        self.cell(k, at).wrapping_sub(self.present.cell(k, at.place))
    }

    fn sum_of_children(&self, k: usize, at: At) -> u32 {
        let touched = self.present.children(k).filter(|c| self.touched(*c, at.word));
        self.present.cell(k, at.place).wrapping_add(total(touched.map(|c| self.difference(c, at))))
    }

    /// The children that are not touched cost a read, and below 0 there is nothing.
    fn least_of_children(&self, k: usize, at: At) -> u32 {
        let touched = |c: &usize| self.touched(*c, at.word);
        let kept = self.present.children(k).filter(|c| !touched(c));
        let least = kept.fold(u32::MAX, |least, c| least.min(self.present.cell(c, at.place)));
        let mut renewed = self.present.children(k).filter(touched);
        renewed.try_fold(least, |least, c| if least > 0 { Ok(least.min(self.cell(c, at))) } else { Err(0) }).unwrap_or(0)
    }

    fn sum_of_ports(&self, k: usize, at: At) -> u32 {
        let (u, depth, old) = (self.present.u, self.present.nodes[k].depth, self.present.cell(k, at.place));
        let row = At { place: at.place * u, ..at };
        if self.touched(k, self.flips.rest(at.word, depth)) {
            return old.wrapping_add(self.row_difference(k + 1, row));
        }
        old.wrapping_add(total(self.flips.each_port().map(|p| self.difference(k + 1, at_port(row, depth, p)))))
    }

    fn least_of_ports(&self, k: usize, at: At) -> u32 {
        let (u, depth) = (self.present.u, self.present.nodes[k].depth);
        let row = At { place: at.place * u, ..at };
        let mut own = [0; 64];
        if self.touched(k, self.flips.rest(at.word, depth)) {
            self.row(k + 1, row, &mut own[..u]);
        } else {
            own[..u].copy_from_slice(self.present.row(k + 1, row.place));
            self.flips.each_port().for_each(|p| own[p] = self.cell(k + 1, at_port(row, depth, p)));
        }
        least_of(&own[..u])
    }
}

/// Where a cell of a quantifier's child stands at a port that flips.
fn at_port(row: At, depth: u8, port: usize) -> At {
    At { place: row.place + port, digits: with_digit(row.digits, depth, port), ..row }
}
