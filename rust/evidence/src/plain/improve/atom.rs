//! An atom: a literal, an "or" or an exists above which stand only the root, "and" and for all. The root after a move is the cell below
//! it plus, modulo 2^32, new minus old over all cells of all atoms.
use super::all_ports::AllPorts;
use super::flips::{variables, Flips, Sizes};
use super::rows::{total, Row};
use super::under::{Present, Under};
use crate::plain::change::ports;
use crate::plain::check::{ALL, AND};
use crate::plain::literal::with_digit;
use crate::plain::walk::At;

#[derive(Clone, Copy)]
pub struct Atom {
    pub node: usize,
    pub depth: u8,
    pub uses: u64,
}

/// The atoms of a plan that some set is used in.
pub fn atoms(present: &Present) -> Vec<Atom> {
    let nodes = present.nodes;
    let (mut found, mut k) = (Vec::new(), 1);
    while k < nodes.len() {
        let node = &nodes[k];
        if node.kind() == AND || node.kind() == ALL {
            k += 1;
            continue;
        }
        if node.uses != 0 {
            found.push(Atom { node: k, depth: node.depth, uses: node.uses });
        }
        k = node.end();
    }
    found
}

/// What flips of some sets bring to an atom, as new minus old over its cells: what the sizes alone bring, and what each port's flip
/// adds to that.
pub struct Brought {
    pub by_sizes: u32,
    pub by_port: Row,
}

/// A row costs as much as so many parts of it done cell by cell.
const PARTS: usize = 8;
/// Where sizes touch every cell, so many ports cost as much one by one as all at once.
const FEW_RESIZED: usize = 3;

impl Atom {
    /// The variables by which the atom tests some sets.
    pub fn variables(&self, sets: u64) -> u64 {
        variables(self.uses, sets)
    }

    /// Whether it binds one of these variables itself.
    pub fn binds(&self, variables: u64) -> bool {
        variables >> self.depth != 0
    }

    /// What the flip of some sets brings at each port that is asked for.
    pub fn brought(&self, present: Present, sets: u64, sizes: &Sizes, asked: u64) -> Brought {
        let variables = self.variables(sets);
        if variables != 0 && !self.binds(variables) && self.many(present.u, sizes, asked) {
            return AllPorts { present, atom: *self, variables, sets, sizes, asked }.brought();
        }
        self.one_by_one(present, sets, sizes, if variables != 0 { asked } else { 0 })
    }

    fn one_by_one(&self, present: Present, sets: u64, sizes: &Sizes, asked: u64) -> Brought {
        let by_sizes = self.difference(present.under(Flips::none(sizes)));
        let mut by_port = [0; 64];
        for port in ports(asked) {
            let flips = Flips { sets, ports: 1 << port, sizes };
            by_port[port as usize] = self.difference(present.under(flips)).wrapping_sub(by_sizes);
        }
        Brought { by_sizes, by_port }
    }

    /// Whether all ports at once cost less than those that are asked for.
    fn many(&self, u: usize, sizes: &Sizes, asked: u64) -> bool {
        let count = asked.count_ones() as usize;
        if self.uses & sizes.touched == 0 {
            count * PARTS >= u
        } else {
            count >= FEW_RESIZED
        }
    }

    /// New minus old over all cells of the atom.
    pub fn difference(&self, under: Under) -> u32 {
        self.going_on(&under, 0, At { place: 0, digits: 0, word: under.flips.word() })
    }

    /// The same over the tuples that go on from one of `depth` digits.
    fn going_on(&self, under: &Under, depth: u8, at: At) -> u32 {
        if self.uses & at.word == 0 {
            return 0;
        }
        if depth == self.depth {
            return under.difference(self.node, at);
        }
        let u = under.present.u;
        let row = At { place: at.place * u, ..at };
        let below = |port: usize, word: u64| {
            let digits = with_digit(at.digits, depth, port);
            self.going_on(under, depth + 1, At { place: row.place + port, digits, word })
        };
        if self.uses & under.flips.rest(at.word, depth) == 0 {
            return total(under.flips.each_port().map(|port| below(port, at.word)));
        }
        if depth + 1 == self.depth {
            return under.row_difference(self.node, row);
        }
        total((0..u).map(|port| below(port, under.flips.word_at(at.word, depth, port))))
    }
}
