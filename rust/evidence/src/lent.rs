//! Answers and tables compared, and tables lent between guard words.
use std::fmt::Debug;

use crate::random::Random;

/// A difference, in words.
pub type Compared<T> = Result<T, String>;

pub fn same<T: PartialEq + Debug>(what: &str, engine: &T, second: &T) -> Compared<()> {
    if engine == second {
        return Ok(());
    }
    Err(format!("{what}: the engine has {engine:?}, the second evaluator {second:?}"))
}

/// Tables element by element, so that a difference names its place.
pub fn same_table<T: PartialEq + Debug>(what: &str, engine: &[T], second: &[T]) -> Compared<()> {
    same(&format!("length of {what}"), &engine.len(), &second.len())?;
    match (0..engine.len()).find(|i| engine[*i] != second[*i]) {
        Some(i) => same(&format!("{what} at {i}"), &engine[i], &second[i]),
        None => Ok(()),
    }
}

/// Lengths of a lent table of which a call writes so many elements: none at all, one too few, just as many, and more.
pub fn lengths(count: usize, r: &mut Random) -> Vec<usize> {
    let mut all = vec![0, count.saturating_sub(1), count, count + 1 + r.below(4)];
    all.dedup();
    all
}

/// A table that is lent from the middle of a larger one, so that a word written outside of it is seen.
pub struct Lent<T> {
    all: Vec<T>,
    before: Vec<T>,
}

const GUARDS: usize = 4;

impl<T: Copy + PartialEq + Debug> Lent<T> {
    pub fn of(own: &[T], guard: T) -> Self {
        let all = [&[guard; GUARDS][..], own, &[guard; GUARDS]].concat();
        Lent { before: all.clone(), all }
    }

    pub fn part(&mut self) -> &mut [T] {
        let end = self.all.len() - GUARDS;
        &mut self.all[GUARDS..end]
    }

    /// What was lent holds `own`, then what it held before; nothing around it has changed.
    pub fn holds(&self, what: &str, own: &[T]) -> Compared<()> {
        same_table(what, &self.all, &[&self.before[..GUARDS], own, &self.before[GUARDS + own.len()..]].concat())
    }
}

/// Lends a copy of a table that a call writes, and takes over what it holds then. A word written around it ends the run.
pub fn written<T: Copy + PartialEq + Debug, A>(own: &mut [T], guard: T, call: impl FnOnce(&mut [T]) -> A) -> A {
    let mut lent = Lent::of(own, guard);
    let answer = call(lent.part());
    own.copy_from_slice(lent.part());
    lent.holds("what stands around a table", own).expect("a call writes its table alone");
    answer
}

/// Lends a copy of a table that a call only reads. A word written to it or around it ends the run.
pub fn only_read<T: Copy + PartialEq + Debug, A>(own: &[T], guard: T, call: impl FnOnce(&[T]) -> A) -> A {
    let mut lent = Lent::of(own, guard);
    let answer = call(lent.part());
    lent.holds("a table that is only read", &[]).expect("a call keeps what it reads");
    answer
}
