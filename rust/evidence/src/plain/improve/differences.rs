//! What moves bring to the root, summed over all atoms by set and port. A move then costs a few reads.
use super::atom::{atoms, Atom, Brought};
use super::both_ports::BothPorts;
use super::flips::{members, sets, size, Flips, Sizes};
use super::rows::{total, Row};
use super::under::Present;
use crate::calls::Move;
use crate::plain::change::ports;
use crate::plain::configuration::MOST_SETS;

const ADD: u32 = 1;
const DROP: u32 = 2;
const TRANSFER: u32 = 4;
const SWAP: u32 = 8;

/// By how much a swap can change a set's size: a port in test does not count.
const CHANGES: [i32; 3] = [-1, 0, 1];

/// A swap's parts by the set, for one change of its size.
#[derive(Clone)]
struct Swaps {
    by_sizes: [u32; MOST_SETS],
    by_port: [Row; MOST_SETS],
}

/// What adds and drops of a set bring to one atom.
struct Own {
    set: usize,
    row: Row,
}

pub struct Differences<'a> {
    present: Present<'a>,
    n: usize,
    kinds: u32,
    /// The sizes as they are, with none touched.
    sizes: Sizes,
    /// What an add or drop of a set and port brings.
    one: [Row; MOST_SETS],
    /// What a transfer from a set to another brings beyond a drop and an add.
    two: Vec<Row>,
    /// What the two parts of a swap bring, for each change of the set's size.
    swaps: Vec<Swaps>,
    /// The atoms in which a swap of a set brings more than its parts, or which have no parts of it.
    beyond: Vec<Vec<Atom>>,
}

impl<'a> Differences<'a> {
    pub fn of(present: Present<'a>, n: usize, kinds: u32) -> Self {
        let none = Swaps { by_sizes: [0; MOST_SETS], by_port: [[0; 64]; MOST_SETS] };
        let mut all = Differences {
            present,
            n,
            kinds,
            sizes: Sizes::now(present.sets),
            one: [[0; 64]; MOST_SETS],
            two: vec![[0; 64]; if kinds & TRANSFER != 0 { n * n } else { 0 }],
            swaps: if kinds & SWAP != 0 { vec![none; CHANGES.len()] } else { Vec::new() },
            beyond: vec![Vec::new(); n],
        };
        let mut own = Vec::with_capacity(n);
        for atom in atoms(&present) {
            own.clear();
            own.extend(sets(atom.uses).map(|set| Own { set, row: all.of_set(atom, set) }));
            all.take(atom, &own);
        }
        all
    }

    fn take(&mut self, atom: Atom, own: &[Own]) {
        for one in own {
            add(&mut self.one[one.set], &one.row);
            if self.kinds & SWAP != 0 {
                self.take_swaps(atom, one);
            }
        }
        if self.kinds & TRANSFER != 0 {
            for s in own {
                own.iter().filter(|t| t.set != s.set).for_each(|t| self.take_transfers(atom, s, t));
            }
        }
    }

    fn set(&self, s: usize) -> u64 {
        self.present.sets.sets[s]
    }

    fn all_ports(&self) -> u64 {
        u64::MAX >> (64 - self.present.u)
    }

    /// Ports by whether they are in test: those that count in a size first.
    fn by_test(&self, asked: u64) -> [(u64, i32); 2] {
        [(asked & !self.present.sets.in_test, 1), (asked & self.present.sets.in_test, 0)]
    }

    /// What adds and drops of a set bring to an atom, at the ports that are asked for.
    fn of_set(&self, atom: Atom, s: usize) -> Row {
        let outside = if self.kinds & (ADD | TRANSFER) != 0 { self.all_ports() & !self.set(s) } else { 0 };
        let inside = if self.kinds & (DROP | TRANSFER) != 0 { self.set(s) } else { 0 };
        if atom.uses & size(s) == 0 {
            // No size changes, and what stands at other ports is not read.
            let swaps = self.kinds & SWAP != 0 && !atom.binds(atom.variables(members(s)));
            let asked = if swaps { self.all_ports() } else { outside | inside };
            return atom.brought(self.present, members(s), &self.sizes, asked).by_port;
        }
        let mut row = [0; 64];
        for (asked, sign) in [(outside, 1), (inside, -1)] {
            for (asked, counted) in self.by_test(asked) {
                self.put(atom, members(s), &self.sizes.with(s, sign * counted), asked, &mut row);
            }
        }
        row
    }

    /// Puts what a flip at each of some ports brings, sizes and all.
    fn put(&self, atom: Atom, sets: u64, sizes: &Sizes, asked: u64, row: &mut Row) {
        if asked != 0 {
            let Brought { by_sizes, by_port } = atom.brought(self.present, sets, sizes, asked);
            ports(asked).for_each(|port| row[port as usize] = by_sizes.wrapping_add(by_port[port as usize]));
        }
    }

    fn take_transfers(&mut self, atom: Atom, from: &Own, to: &Own) {
        let (s, t) = (from.set, to.set);
        let mut row = [0; 64];
        let asked = self.set(s) & !self.set(t);
        for (asked, counted) in self.by_test(asked) {
            self.put(atom, members(s) | members(t), &self.sizes.with(s, -counted).with(t, counted), asked, &mut row);
        }
        let two = &mut self.two[s * self.n + t];
        for port in ports(asked).map(|port| port as usize) {
            let beyond = row[port].wrapping_sub(from.row[port]).wrapping_sub(to.row[port]);
            two[port] = two[port].wrapping_add(beyond);
        }
    }

    /// A swap's two parts are what adds and drops bring where no size is asked.
    fn take_swaps(&mut self, atom: Atom, own: &Own) {
        let s = own.set;
        let variables = atom.variables(members(s));
        if atom.binds(variables) || variables.count_ones() > 1 {
            self.beyond[s].push(atom);
        }
        if atom.binds(variables) {
            return;
        }
        if atom.uses & size(s) == 0 {
            return self.swaps.iter_mut().for_each(|swaps| add(&mut swaps.by_port[s], &own.row));
        }
        for (i, more) in CHANGES.into_iter().enumerate() {
            let asked = self.swapped(s, more);
            if asked != 0 {
                let brought = atom.brought(self.present, members(s), &self.sizes.with(s, more), asked);
                self.swaps[i].by_sizes[s] = self.swaps[i].by_sizes[s].wrapping_add(brought.by_sizes);
                add(&mut self.swaps[i].by_port[s], &brought.by_port);
            }
        }
    }

    /// The ports of the swaps of a set that change its size by so much.
    fn swapped(&self, s: usize, more: i32) -> u64 {
        let (inside, outside) = (self.by_test(self.set(s)), self.by_test(self.all_ports() & !self.set(s)));
        let two = inside.iter().flat_map(|p| outside.iter().map(move |q| (p, q)));
        let such = two.filter(|((p, leaves), (q, enters))| *p != 0 && *q != 0 && enters - leaves == more);
        such.fold(0, |all, ((p, _), (q, _))| all | p | q)
    }

    /// The root that a legal move of these kinds would leave.
    pub fn root_after(&self, m: &Move) -> u32 {
        let Present { nodes, cells, .. } = self.present;
        let (s, t, p) = (m.s as usize, m.t as usize, m.p as usize);
        let other = if m.kind == 3 { members(t) | size(t) } else { 0 };
        if nodes[0].uses & (members(s) | size(s) | other) == 0 {
            return cells[0];
        }
        let brought = match m.kind {
            1 | 2 => self.one[s][p],
            3 => self.one[s][p].wrapping_add(self.one[t][p]).wrapping_add(self.two[s * self.n + t][p]),
            _ => self.by_swap(s, p, m.q as usize),
        };
        cells[1].wrapping_add(brought)
    }

    fn by_swap(&self, s: usize, p: usize, q: usize) -> u32 {
        let counts = |port: usize| 1 - (self.present.sets.in_test >> port & 1) as i32;
        let more = counts(q) - counts(p);
        let Swaps { by_sizes, by_port } = &self.swaps[(more + 1) as usize];
        let parts = by_sizes[s].wrapping_add(by_port[s][p]).wrapping_add(by_port[s][q]);
        parts.wrapping_add(total(self.beyond[s].iter().map(|atom| self.beyond_parts(*atom, s, [p, q], more))))
    }

    /// What a swap brings to an atom beyond its parts.
    fn beyond_parts(&self, atom: Atom, set: usize, two: [usize; 2], more: i32) -> u32 {
        let sizes = if atom.uses & size(set) != 0 { self.sizes.with(set, more) } else { self.sizes };
        let flips = Flips { sets: members(set), ports: 1 << two[0] | 1 << two[1], sizes: &sizes };
        let under = self.present.under(flips);
        if atom.binds(atom.variables(members(set))) {
            atom.difference(under)
        } else {
            BothPorts { under, atom, set, two }.beyond()
        }
    }
}

fn add(into: &mut Row, row: &Row) {
    into.iter_mut().zip(row).for_each(|(sum, more)| *sum = sum.wrapping_add(*more));
}
