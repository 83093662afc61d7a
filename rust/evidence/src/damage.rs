//! Damage that is done after a call, so that the comparison itself is held to account: each must be reported.
use crate::calls::Numbers;
use crate::in_test::Given;
use crate::random::Random;
use crate::second::penalty::in_set;
use crate::second::plan::{Plan, SIZE};
use crate::second::table::decode;

/// What the damaging mode changes after a call.
#[derive(Debug, Clone, Copy, PartialEq)]
pub enum Target {
    Nothing,
    /// Plan tables that were read into.
    Tables,
    /// Text tables that were written into.
    Texts,
    Cells,
    /// After a port was put in test or taken out: the mask in test.
    InTest,
    /// Then: a cell of a size literal whose set does not hold the port.
    OtherSizes,
    /// Then: a number of the answer.
    Answers,
}

/// Changes one bit of the target's tables after each call, anywhere in them, and counts how often.
pub struct Damage {
    pub target: Target,
    pub done: u64,
}

impl Damage {
    pub fn to(target: Target) -> Self {
        Damage { target, done: 0 }
    }

    fn word<'a, T>(&mut self, target: Target, words: &'a mut [T], r: &mut Random) -> Option<&'a mut T> {
        if self.target != target || words.is_empty() {
            return None;
        }
        self.done += 1;
        Some(&mut words[r.below(words.len())])
    }

    fn byte(&mut self, target: Target, bytes: &mut [u8], r: &mut Random) {
        if let Some(byte) = self.word(target, bytes, r) {
            *byte ^= 1 << r.below(8);
        }
    }

    pub fn table(&mut self, table: &mut [u8], r: &mut Random) {
        self.byte(Target::Tables, table, r);
    }

    pub fn text(&mut self, text: &mut [u8], r: &mut Random) {
        self.byte(Target::Texts, text, r);
    }

    pub fn cells(&mut self, cells: &mut [u32], r: &mut Random) {
        if let Some(cell) = self.word(Target::Cells, cells, r) {
            *cell ^= 1 << r.below(32);
        }
    }

    /// What a call leaves that puts a port in test or takes it out.
    pub fn test(&mut self, g: &mut Given, port: u32, answer: Result<Numbers, u32>, r: &mut Random) -> Result<Numbers, u32> {
        let Some(plan) = decode(g.table) else { return answer };
        if let Some(mask) = self.word(Target::InTest, g.masks.get_mut(plan.n..=plan.n).unwrap_or_default(), r) {
            *mask ^= 1 << r.below(64);
        }
        let mut others = other_sizes(&plan, g, port);
        if let Some(place) = self.word(Target::OtherSizes, &mut others, r) {
            g.cells[*place] ^= 1 << r.below(32);
        }
        match self.word(Target::Answers, &mut [()], r) {
            Some(()) => other_answer(answer, r),
            None => answer,
        }
    }
}

/// The cells of the size literals whose sets do not hold a port, as far as they are lent.
fn other_sizes(plan: &Plan, g: &Given, port: u32) -> Vec<usize> {
    let holds = |set: u8| port < 64 && g.masks.len() > usize::from(set) && in_set(g.masks, usize::from(set), port as usize);
    let (firsts, nodes) = (plan.firsts(), plan.nodes.iter().enumerate());
    let others = nodes.filter(|(_, node)| node.kind == SIZE && !holds(node.a));
    others.flat_map(|(i, _)| firsts[i]..firsts[i + 1]).filter(|place| *place < g.cells.len()).collect()
}

/// An answer with one bit of its ground or of one of its three numbers changed.
pub fn other_answer(answer: Result<Numbers, u32>, r: &mut Random) -> Result<Numbers, u32> {
    let bit = 1 << r.below(32);
    match (answer, r.below(3)) {
        (Err(number), _) => Err(number ^ bit),
        (Ok(n), 0) => Ok(Numbers { before: n.before ^ bit, ..n }),
        (Ok(n), 1) => Ok(Numbers { after: n.after ^ bit, ..n }),
        (Ok(n), _) => Ok(Numbers { changed: n.changed ^ bit, ..n }),
    }
}
