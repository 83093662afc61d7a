//! Moves and ports in test: their grounds for refusal, what they change, and the candidates of improve.
use crate::calls::{Move, Test};

/// What the walk needs of a change.
pub struct Change {
    /// The word at the root: a node is touched where its uses meet the word. In the four bits of each changed set, bit v below the
    /// depth says that digit v of the tuple is a changed port; the higher bits are 1.
    pub word: u64,
    /// Bit 4s for each set s with a member that changes.
    sets: u64,
    /// The ports that change, the smaller first; equal where one changes.
    pub low: usize,
    pub high: usize,
}

fn has(masks: &[u64], set: u32, port: u32) -> bool {
    masks[set as usize] >> port & 1 == 1
}

impl Change {
    /// What a move changes, or its ground of 14 and 15.
    pub fn of(m: &Move, u: usize, n: usize, masks: &[u64]) -> Result<Change, u32> {
        let (set, port) = (|s: u32| (s as usize) < n, |p: u32| (p as usize) < u);
        let t = if m.kind == 3 { set(m.t) } else { m.t == 0 };
        let q = if m.kind == 4 { port(m.q) } else { m.q == 0 };
        if !(1..=4).contains(&m.kind) || !set(m.s) || !t || !port(m.p) || !q {
            return Err(14);
        }
        let legal = match m.kind {
            1 => !has(masks, m.s, m.p),
            2 => has(masks, m.s, m.p),
            3 => has(masks, m.s, m.p) && !has(masks, m.t, m.p),
            _ => has(masks, m.s, m.p) && !has(masks, m.s, m.q),
        };
        legal.then(|| Change::by(m)).ok_or(15)
    }

    /// What a legal move changes.
    pub fn by(m: &Move) -> Change {
        let other = if m.kind == 3 { 1 << (4 * m.t) } else { 0 };
        let q = if m.kind == 4 { m.q } else { m.p };
        let sets = 1 << (4 * m.s) | other;
        Change { word: sets * 15, sets, low: m.p.min(q) as usize, high: m.p.max(q) as usize }
    }

    /// What a port that goes into test or out of it changes, or its ground of 14 and 20: the size of each set that holds it, and no
    /// member. `masks` are the n sets, then the ports in test.
    pub fn by_test(call: Test, port: u32, u: usize, n: usize, masks: &[u64]) -> Result<Change, u32> {
        if port as usize >= u {
            return Err(14);
        }
        if has(masks, n as u32, port) == (call == Test::Begin) {
            return Err(20);
        }
        let held = (0..n as u32).filter(|s| has(masks, *s, port));
        Ok(Change { word: held.map(|s| 8u64 << (4 * s)).sum(), sets: 0, low: port as usize, high: port as usize })
    }

    /// The word below a quantifier of this depth at a port that does not change.
    pub fn rest(&self, word: u64, depth: u8) -> u64 {
        word & !(self.sets << depth)
    }

    pub fn word_at(&self, word: u64, depth: u8, port: usize) -> u64 {
        if port == self.low || port == self.high {
            word
        } else {
            self.rest(word, depth)
        }
    }
}

/// The ports of a mask, rising.
pub fn ports(mut mask: u64) -> impl Iterator<Item = u32> {
    std::iter::from_fn(move || {
        let port = mask.trailing_zeros();
        mask &= mask.wrapping_sub(1);
        (port < 64).then_some(port)
    })
}

/// Every legal move of some kinds, in the order kind, S, T, p, q.
pub fn candidates(kinds: u32, u: usize, n: usize, masks: &[u64], mut each: impl FnMut(Move)) {
    let all = u64::MAX >> (64 - u);
    let sets = || 0..n as u32;
    let mask = |s: u32| masks[s as usize];
    if kinds & 1 != 0 {
        sets().for_each(|s| ports(all & !mask(s)).for_each(|p| each(Move { kind: 1, s, t: 0, p, q: 0 })));
    }
    if kinds & 2 != 0 {
        sets().for_each(|s| ports(mask(s)).for_each(|p| each(Move { kind: 2, s, t: 0, p, q: 0 })));
    }
    if kinds & 4 != 0 {
        for s in sets() {
            sets().for_each(|t| ports(mask(s) & !mask(t)).for_each(|p| each(Move { kind: 3, s, t, p, q: 0 })));
        }
    }
    if kinds & 8 != 0 {
        for s in sets() {
            ports(mask(s)).for_each(|p| ports(all & !mask(s)).for_each(|q| each(Move { kind: 4, s, t: 0, p, q })));
        }
    }
}

/// How many candidates there are.
pub fn count_candidates(kinds: u32, u: usize, n: usize, masks: &[u64]) -> usize {
    let count = |mask: u64| mask.count_ones() as usize;
    let of_kind = |kind: u32, s: u64| match kind {
        1 => u - count(s),
        2 => count(s),
        3 => masks[..n].iter().map(|t| count(s & !t)).sum(),
        _ => count(s) * (u - count(s)),
    };
    let asked = (1..=4).filter(|kind| kinds >> (kind - 1) & 1 == 1);
    asked.map(|kind| masks[..n].iter().map(|s| of_kind(kind, *s)).sum::<usize>()).sum()
}
