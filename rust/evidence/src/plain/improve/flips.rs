//! A change under which cells are asked for: some sets flip at some ports, and some have another size. A move is one, and so is each
//! part of a move.
use crate::plain::change::ports;
use crate::plain::configuration::{Configuration, MOST_SETS};

/// The four bits of a set in a node's uses: its members by three variables, and its size.
pub fn members(set: usize) -> u64 {
    7 << (4 * set)
}

pub fn size(set: usize) -> u64 {
    8 << (4 * set)
}

/// The sets that a node's uses tell of, rising.
pub fn sets(mut uses: u64) -> impl Iterator<Item = usize> {
    std::iter::from_fn(move || {
        let set = uses.trailing_zeros() as usize / 4;
        uses &= !(members(set % MOST_SETS) | size(set % MOST_SETS));
        (set < MOST_SETS).then_some(set)
    })
}

/// The variables by which membership literals test some sets, given in words of four bits a set.
pub fn variables(uses: u64, sets: u64) -> u64 {
    let mut met = uses & sets & 0x7777_7777_7777_7777;
    for half in [32, 16, 8, 4] {
        met |= met >> half;
    }
    met & 7
}

/// The sizes that literals read, and which sets' size literals are touched, bit 4s + 3 for set s.
#[derive(Clone, Copy)]
pub struct Sizes {
    pub touched: u64,
    pub of: [u32; MOST_SETS],
}

impl Sizes {
    /// As they are, none touched.
    pub fn now(configuration: &Configuration) -> Self {
        Sizes { touched: 0, of: std::array::from_fn(|s| configuration.size(s as u8)) }
    }

    /// With one set's changed by so much; by 0 its literals are touched all the same.
    pub fn with(mut self, set: usize, more: i32) -> Self {
        self.touched |= size(set);
        self.of[set] = self.of[set].wrapping_add_signed(more);
        self
    }
}

#[derive(Clone, Copy)]
pub struct Flips<'a> {
    /// The bits of the members of each set that flips.
    pub sets: u64,
    /// The ports at which each of them flips.
    pub ports: u64,
    pub sizes: &'a Sizes,
}

impl<'a> Flips<'a> {
    pub fn none(sizes: &'a Sizes) -> Self {
        Flips { sets: 0, ports: 0, sizes }
    }

    /// What is touched where no digit is known.
    pub fn word(&self) -> u64 {
        self.sets | self.sizes.touched
    }

    /// The word below a quantifier of this depth at a port that does not flip.
    pub fn rest(&self, word: u64, depth: u8) -> u64 {
        word & !(self.sets & 0x1111_1111_1111_1111 << depth)
    }

    pub fn word_at(&self, word: u64, depth: u8, port: usize) -> u64 {
        if self.ports >> port & 1 == 1 {
            word
        } else {
            self.rest(word, depth)
        }
    }

    pub fn each_port(&self) -> impl Iterator<Item = usize> {
        ports(self.ports).map(|port| port as usize)
    }
}
