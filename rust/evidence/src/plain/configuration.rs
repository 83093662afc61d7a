//! The sets and the ports in test, as the walks read them.
use crate::calls::Move;

pub const MOST_SETS: usize = 16;

#[derive(Clone, Copy)]
pub struct Configuration {
    pub sets: [u64; MOST_SETS],
    pub in_test: u64,
}

impl Configuration {
    /// Of the caller's masks: n sets, then the ports in test.
    pub fn of(masks: &[u64], n: usize) -> Self {
        let mut sets = [0; MOST_SETS];
        sets[..n].copy_from_slice(&masks[..n]);
        Configuration { sets, in_test: masks[n] }
    }

    /// What a legal move leaves.
    pub fn after(masks: &[u64], n: usize, m: &Move) -> Self {
        let mut new = Configuration::of(masks, n);
        new.sets[m.s as usize] ^= 1 << m.p;
        match m.kind {
            3 => new.sets[m.t as usize] ^= 1 << m.p,
            4 => new.sets[m.s as usize] ^= 1 << m.q,
            _ => {}
        }
        new
    }

    /// The members that are not in test.
    pub fn size(&self, set: u8) -> u32 {
        (self.sets[usize::from(set)] & !self.in_test).count_ones()
    }
}
