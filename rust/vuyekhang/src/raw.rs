//! The archive's functions with their answers as C has them, every field to be seen.
//!
//! A host program has no need of this module: the functions at the crate's root say the same in types. It is public for programs
//! that hold the archive to its contract. That a refusal has all fields 0 but its number, for instance, a typed answer does not
//! show. Its functions are inlined where they are called, so that a program which measures the archive's stack measures nothing else.
use crate::answers::{Improved, Loaded, Moved, Read};
use crate::moves::Move;
use crate::refusal::Refusal;

/// `vk_read_answer`.
#[repr(C)]
#[derive(Debug, Clone, Copy, PartialEq, Eq)]
pub struct ReadAnswer {
    /// 0, or the ground for refusal.
    pub number: u32,
    /// Node count.
    pub nodes: u32,
    /// Cell total.
    pub cells: u32,
}

/// `vk_load_answer`.
#[repr(C)]
#[derive(Debug, Clone, Copy, PartialEq, Eq)]
pub struct LoadAnswer {
    /// 0, or the ground for refusal.
    pub number: u32,
    /// The root's penalty.
    pub root: u32,
    /// Cell total.
    pub cells: u32,
}

/// `vk_part`: a part of the caller's cell table, {0, 0} where there is none.
#[repr(C)]
#[derive(Debug, Clone, Copy, PartialEq, Eq)]
pub struct Part {
    /// Where it begins.
    pub first: usize,
    /// How many cells it has.
    pub count: usize,
}

/// `vk_move_answer`.
#[repr(C)]
#[derive(Debug, Clone, Copy, PartialEq, Eq)]
pub struct MoveAnswer {
    /// 0, or the ground for refusal.
    pub number: u32,
    /// Root before.
    pub before: u32,
    /// Root after.
    pub after: u32,
    /// How many cells differ from before.
    pub changed: u32,
}

/// `vk_improve_answer`.
#[repr(C)]
#[derive(Debug, Clone, Copy, PartialEq, Eq)]
pub struct ImproveAnswer {
    /// 0, or the ground for refusal.
    pub number: u32,
    /// 1 where a move was made, else 0.
    pub found: u32,
    /// The move that was made, else all 0.
    pub chosen: Move,
    /// Root before.
    pub before: u32,
    /// Root after; where no move was made, the same.
    pub after: u32,
    /// How many cells differ from before.
    pub changed: u32,
}

/// `vk_count_answer`.
#[repr(C)]
#[derive(Debug, Clone, Copy, PartialEq, Eq)]
pub struct CountAnswer {
    /// 0, or the ground for refusal.
    pub number: u32,
    /// How many bytes of text were written, or moves listed.
    pub count: u32,
}

extern "C" {
    fn vk_read(u: u64, text: *const u8, text_len: usize, table: *mut u8, table_len: usize) -> ReadAnswer;
    fn vk_write(table: *const u8, table_len: usize, text: *mut u8, text_len: usize) -> CountAnswer;
    fn vk_load(table: *const u8, table_len: usize, masks: *const u64, masks_len: usize, cells: *mut u32, cells_len: usize) -> LoadAnswer;
    fn vk_node_cells(table: *const u8, table_len: usize, cells: *const u32, cells_len: usize, node: usize) -> Part;
    fn vk_move(
        table: *const u8,
        table_len: usize,
        masks: *mut u64,
        masks_len: usize,
        cells: *mut u32,
        cells_len: usize,
        journal: *mut Move,
        journal_len: usize,
        journal_count: *mut usize,
        m: Move,
    ) -> MoveAnswer;
    fn vk_undo(
        table: *const u8,
        table_len: usize,
        masks: *mut u64,
        masks_len: usize,
        cells: *mut u32,
        cells_len: usize,
        journal: *const Move,
        journal_len: usize,
        journal_count: *mut usize,
    ) -> MoveAnswer;
    fn vk_test_begin(
        table: *const u8,
        table_len: usize,
        masks: *mut u64,
        masks_len: usize,
        cells: *mut u32,
        cells_len: usize,
        port: u32,
    ) -> MoveAnswer;
    fn vk_test_end(
        table: *const u8,
        table_len: usize,
        masks: *mut u64,
        masks_len: usize,
        cells: *mut u32,
        cells_len: usize,
        port: u32,
    ) -> MoveAnswer;
    fn vk_trial(
        table: *const u8,
        table_len: usize,
        masks: *const u64,
        masks_len: usize,
        cells: *const u32,
        cells_len: usize,
        scratch: *mut u32,
        scratch_len: usize,
        m: Move,
    ) -> MoveAnswer;
    fn vk_improve(
        table: *const u8,
        table_len: usize,
        masks: *mut u64,
        masks_len: usize,
        cells: *mut u32,
        cells_len: usize,
        scratch: *mut u32,
        scratch_len: usize,
        journal: *mut Move,
        journal_len: usize,
        journal_count: *mut usize,
        kinds: u32,
    ) -> ImproveAnswer;
    fn vk_best_moves(
        table: *const u8,
        table_len: usize,
        masks: *const u64,
        masks_len: usize,
        cells: *const u32,
        cells_len: usize,
        scratch: *mut u32,
        scratch_len: usize,
        kinds: u32,
        list: *mut Move,
        list_len: usize,
    ) -> CountAnswer;
}

/// `vk_read`; see [`crate::read`].
#[inline]
pub fn read(u: u64, text: &[u8], table: &mut [u8]) -> ReadAnswer {
    // SAFETY: each pointer comes from a slice of the length beside it, and `table`, which is written, is borrowed here alone.
    unsafe { vk_read(u, text.as_ptr(), text.len(), table.as_mut_ptr(), table.len()) }
}

/// `vk_write`; see [`crate::write`].
#[inline]
pub fn write(table: &[u8], text: &mut [u8]) -> CountAnswer {
    // SAFETY: each pointer comes from a slice of the length beside it, and `text`, which is written, is borrowed here alone.
    unsafe { vk_write(table.as_ptr(), table.len(), text.as_mut_ptr(), text.len()) }
}

/// `vk_load`; see [`crate::load`].
#[inline]
pub fn load(table: &[u8], masks: &[u64], cells: &mut [u32]) -> LoadAnswer {
    // SAFETY: each pointer comes from a slice of the length beside it, and `cells`, which is written, is borrowed here alone.
    unsafe { vk_load(table.as_ptr(), table.len(), masks.as_ptr(), masks.len(), cells.as_mut_ptr(), cells.len()) }
}

/// `vk_node_cells`; see [`crate::node_cells`].
#[inline]
pub fn node_cells(table: &[u8], cells: &[u32], node: usize) -> Part {
    // SAFETY: each pointer comes from a slice of the length beside it, and nothing is written.
    unsafe { vk_node_cells(table.as_ptr(), table.len(), cells.as_ptr(), cells.len(), node) }
}

/// `vk_move`; see [`crate::make_move`].
#[inline]
pub fn make_move(table: &[u8], masks: &mut [u64], cells: &mut [u32], journal: &mut [Move], count: &mut usize, m: Move) -> MoveAnswer {
    let (t, ms, cs, j) = (table.as_ptr(), masks.as_mut_ptr(), cells.as_mut_ptr(), journal.as_mut_ptr());
    // SAFETY: each pointer comes from a slice of the length beside it, that of the count from a reference, and `masks`, `cells`,
    // `journal` and `count`, which are written, are borrowed here alone.
    unsafe { vk_move(t, table.len(), ms, masks.len(), cs, cells.len(), j, journal.len(), count, m) }
}

/// `vk_undo`; see [`crate::undo`].
#[inline]
pub fn undo(table: &[u8], masks: &mut [u64], cells: &mut [u32], journal: &[Move], count: &mut usize) -> MoveAnswer {
    let (t, ms, cs, j) = (table.as_ptr(), masks.as_mut_ptr(), cells.as_mut_ptr(), journal.as_ptr());
    // SAFETY: each pointer comes from a slice of the length beside it, that of the count from a reference, and `masks`, `cells` and
    // `count`, which are written, are borrowed here alone.
    unsafe { vk_undo(t, table.len(), ms, masks.len(), cs, cells.len(), j, journal.len(), count) }
}

/// `vk_test_begin`; see [`crate::test_begin`].
#[inline]
pub fn test_begin(table: &[u8], masks: &mut [u64], cells: &mut [u32], port: u32) -> MoveAnswer {
    // SAFETY: each pointer comes from a slice of the length beside it, and `masks` and `cells`, which are written, are borrowed here
    // alone.
    unsafe { vk_test_begin(table.as_ptr(), table.len(), masks.as_mut_ptr(), masks.len(), cells.as_mut_ptr(), cells.len(), port) }
}

/// `vk_test_end`; see [`crate::test_end`].
#[inline]
pub fn test_end(table: &[u8], masks: &mut [u64], cells: &mut [u32], port: u32) -> MoveAnswer {
    // SAFETY: as for `test_begin`.
    unsafe { vk_test_end(table.as_ptr(), table.len(), masks.as_mut_ptr(), masks.len(), cells.as_mut_ptr(), cells.len(), port) }
}

/// `vk_trial`; see [`crate::trial`].
#[inline]
pub fn trial(table: &[u8], masks: &[u64], cells: &[u32], scratch: &mut [u32], m: Move) -> MoveAnswer {
    let (t, ms, cs, sc) = (table.as_ptr(), masks.as_ptr(), cells.as_ptr(), scratch.as_mut_ptr());
    // SAFETY: each pointer comes from a slice of the length beside it, and `scratch`, which is written, is borrowed here alone.
    unsafe { vk_trial(t, table.len(), ms, masks.len(), cs, cells.len(), sc, scratch.len(), m) }
}

/// `vk_improve`; see [`crate::improve`].
#[inline]
pub fn improve(
    table: &[u8],
    masks: &mut [u64],
    cells: &mut [u32],
    scratch: &mut [u32],
    journal: &mut [Move],
    count: &mut usize,
    kinds: u32,
) -> ImproveAnswer {
    let (t, ms, cs, sc, j) = (table.as_ptr(), masks.as_mut_ptr(), cells.as_mut_ptr(), scratch.as_mut_ptr(), journal.as_mut_ptr());
    // SAFETY: each pointer comes from a slice of the length beside it, that of the count from a reference, and `masks`, `cells`,
    // `scratch`, `journal` and `count`, which are written, are borrowed here alone.
    unsafe { vk_improve(t, table.len(), ms, masks.len(), cs, cells.len(), sc, scratch.len(), j, journal.len(), count, kinds) }
}

/// `vk_best_moves`; see [`crate::best_moves`].
#[inline]
pub fn best_moves(table: &[u8], masks: &[u64], cells: &[u32], scratch: &mut [u32], kinds: u32, list: &mut [Move]) -> CountAnswer {
    let (t, ms, cs, sc) = (table.as_ptr(), masks.as_ptr(), cells.as_ptr(), scratch.as_mut_ptr());
    // SAFETY: each pointer comes from a slice of the length beside it, and `scratch` and `list`, which are written, are borrowed
    // here alone.
    unsafe { vk_best_moves(t, table.len(), ms, masks.len(), cs, cells.len(), sc, scratch.len(), kinds, list.as_mut_ptr(), list.len()) }
}

/// What was answered, or the ground where the number is not 0.
fn accepted<T>(number: u32, answer: T) -> Result<T, Refusal> {
    match number {
        0 => Ok(answer),
        number => Err(Refusal::of(number)),
    }
}

impl ReadAnswer {
    /// The same in types.
    pub fn typed(self) -> Result<Read, Refusal> {
        accepted(self.number, Read { nodes: self.nodes as usize, cells: self.cells as usize })
    }
}

impl LoadAnswer {
    /// The same in types.
    pub fn typed(self) -> Result<Loaded, Refusal> {
        accepted(self.number, Loaded { root: self.root, cells: self.cells as usize })
    }
}

impl MoveAnswer {
    /// The same in types.
    pub fn typed(self) -> Result<Moved, Refusal> {
        accepted(self.number, Moved { before: self.before, after: self.after, changed: self.changed as usize })
    }
}

impl ImproveAnswer {
    /// The same in types.
    pub fn typed(self) -> Result<Improved, Refusal> {
        let moved = Moved { before: self.before, after: self.after, changed: self.changed as usize };
        let made = Improved::Made { chosen: self.chosen, moved };
        accepted(self.number, if self.found == 1 { made } else { Improved::NoBetter { root: self.before } })
    }
}

impl CountAnswer {
    /// The same in types.
    pub fn typed(self) -> Result<usize, Refusal> {
        accepted(self.number, self.count as usize)
    }
}
