//! The cells that a walk reads, and what becomes of those it would write: one walk serves move and trial.

pub trait Store {
    fn get(&self, at: usize) -> u32;
    fn row(&self, at: usize, u: usize) -> &[u32];
    fn put(&mut self, at: usize, value: u32);
    fn put_row(&mut self, at: usize, values: &[u32]);
}

/// A trial only reads.
pub struct Reads<'a>(pub &'a [u32]);

impl Store for Reads<'_> {
    fn get(&self, at: usize) -> u32 {
        self.0[at]
    }

    fn row(&self, at: usize, u: usize) -> &[u32] {
        &self.0[at..at + u]
    }

    fn put(&mut self, _: usize, _: u32) {}

    fn put_row(&mut self, _: usize, _: &[u32]) {}
}

pub struct Writes<'a>(pub &'a mut [u32]);

impl Store for Writes<'_> {
    fn get(&self, at: usize) -> u32 {
        self.0[at]
    }

    fn row(&self, at: usize, u: usize) -> &[u32] {
        &self.0[at..at + u]
    }

    fn put(&mut self, at: usize, value: u32) {
        self.0[at] = value;
    }

    fn put_row(&mut self, at: usize, values: &[u32]) {
        self.0[at..at + values.len()].copy_from_slice(values);
    }
}

/// Counts the cells that would be written: the touched ones.
pub struct Counts<'a> {
    pub cells: &'a [u32],
    pub touched: usize,
}

impl Store for Counts<'_> {
    fn get(&self, at: usize) -> u32 {
        self.cells[at]
    }

    fn row(&self, at: usize, u: usize) -> &[u32] {
        &self.cells[at..at + u]
    }

    fn put(&mut self, _: usize, _: u32) {
        self.touched += 1;
    }

    fn put_row(&mut self, _: usize, values: &[u32]) {
        self.touched += values.len();
    }
}
