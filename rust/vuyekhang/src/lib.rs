//! A planning engine for the ports of a cabinet, proved in Rattle, behind safe functions.
//!
//! A plan is a formula over sets of ports. [`read`] writes its plan table from a text and [`write`] a text from its plan table.
//! [`load`] fills a penalty for every node and every tuple of ports (a cell), and the root's penalty is 0 exactly when the formula
//! is true. [`make_move`] changes the sets and the cells that this touches, [`trial`] says what a move would do, [`improve`] makes
//! the best move and [`best_moves`] lists those that are equally good. Moves that are made go into a journal, and [`undo`] takes
//! the newest of them back. [`test_begin`] puts a port in test and [`test_end`] takes it out: in between it keeps its place in
//! every set and counts in no size.
//!
//! The caller owns every table and lends it for one call; the engine keeps nothing between two calls. A refused call writes
//! nothing, and nothing past a plan's own bytes, masks or cells is read or written.
//!
//! ```
//! use vuyekhang::{load, make_move, read, undo, Move, MOST_RECORDS, MOST_TABLE};
//!
//! // I holds exactly the ports that are in both S and T, and at most one port.
//! let text = b"[STI] @x (x:I <-> x:S & x:T) & #I <= 1";
//! let mut table = [0; MOST_TABLE];
//! let plan = read(3, text, &mut table)?;
//!
//! // S has ports 0 and 1, T has 0 to 2, I has 0: port 1 is missing in I. The last mask is that of the ports in test: none.
//! let mut masks = [3, 7, 1, 0];
//! let mut cells = vec![0; plan.cells];
//! let loaded = load(&table, &masks, &mut cells)?;
//! assert_eq!((loaded.root, loaded.cells), (1, 34));
//!
//! // Without port 1 in T the plan is true.
//! let (mut journal, mut count) = ([Move::default(); MOST_RECORDS], 0);
//! let moved = make_move(&table, &mut masks, &mut cells, &mut journal, &mut count, Move::drop(1, 1))?;
//! assert_eq!((moved.before, moved.after, moved.changed), (1, 0, 8));
//! assert_eq!((masks, &journal[..count]), ([3, 5, 1, 0], &[Move::drop(1, 1)][..]));
//!
//! // Taken back.
//! let undone = undo(&table, &mut masks, &mut cells, &journal, &mut count)?;
//! assert_eq!((undone.before, undone.after, undone.changed), (0, 1, 8));
//! assert_eq!((masks, count), ([3, 7, 1, 0], 0));
//! # Ok::<(), vuyekhang::Refusal>(())
//! ```
//!
//! Any value of any argument is answered, by numbers or by a [`Refusal`]. What the C functions ask of their caller, that lengths
//! are true and that a table which is written is lent once, Rust's references give. No call takes more than [`MOST_STACK`] of stack.
//!
//! To link, the archive `target/staticlib/libvuyekhang.a` must be there: `.ci/archive` proves and writes it.
#![deny(missing_docs)]

mod answers;
mod moves;
pub mod raw;
mod refusal;

pub use answers::{Improved, Loaded, Moved, Read};
pub use moves::{Kinds, Move};
pub use refusal::Refusal;

/// Every plan table fits this many bytes: 9, and 8 for each of at most 512 nodes.
pub const MOST_TABLE: usize = 9 + 8 * 512;

/// No text is longer than this many bytes, so that a text table of so many is long enough for any [`write`].
pub const MOST_TEXT: usize = 4_096;

/// No plan has more cells than this.
pub const MOST_CELLS: usize = 1_048_576;

/// No plan ever has more legal moves than this, so that a list of so many is long enough for any [`best_moves`].
pub const MOST_MOVES: usize = 21_504;

/// A journal is full at this many records, however long it is.
pub const MOST_RECORDS: usize = 1_024;

/// No call takes more bytes of stack than this, whatever it is given: measured, over texts and tables that are made to take much
/// (docs/PERFORMANCE.md, Stack). A thread that Rust starts has 2 MB.
pub const MOST_STACK: usize = 320 << 10;

/// Reads a plan text over `u` ports and writes its plan table, [`Read::table_len`] bytes.
///
/// Tries ground 10, then 1 to 9, each over the whole text, then 12: `table` is shorter than the plan's.
pub fn read(u: u64, text: &[u8], table: &mut [u8]) -> Result<Read, Refusal> {
    raw::read(u, text, table).typed()
}

/// Writes a plan table as text and answers the text's length in bytes. The text is ASCII; bytes past it stay.
///
/// Sets are named from A, all of them declared, variables a, b, c by number; one space stands round `&`, `|` and relations, after a
/// quantifier's variable and after `]`; brackets only where the grammar needs them. Reading this text with the table's own u gives
/// the table's own bytes.
///
/// Tries 11, then 17 (the text is over 4,096 bytes, or has more than 64 of `(` and quantifiers around one token), then 12: the text
/// table is shorter than the text, so that one of [`MOST_TEXT`] is always long enough.
///
/// ```
/// # use vuyekhang::{read, write, MOST_TABLE, MOST_TEXT};
/// # let mut table = [0; MOST_TABLE];
/// let plan = read(3, b"[STI] @x (x:I <-> x:S & x:T) & #I <= 1", &mut table)?;
/// let mut text = [0; MOST_TEXT];
/// let length = write(&table, &mut text)?;
/// assert_eq!(text[..length], *b"[ABC] @a ((a/C | a:A & a:B) & (a:C | a/A | a/B)) & #C <= 1");
///
/// let mut again = [0; MOST_TABLE];
/// read(3, &text[..length], &mut again)?;
/// assert_eq!(again[..plan.table_len()], table[..plan.table_len()]);
/// # Ok::<(), vuyekhang::Refusal>(())
/// ```
pub fn write(table: &[u8], text: &mut [u8]) -> Result<usize, Refusal> {
    raw::write(table, text).typed()
}

/// Checks a plan table and the masks, and writes every cell of the plan: its penalty.
///
/// Bit p of mask s says whether port p is in set s. One mask more, after those of the sets, says which ports are in test; the size of
/// a set is the number of its members that are not, and membership does not look at it. Tries 11, then 12 (fewer masks than
/// one more than the sets, or fewer cells than the plan's total), then 13, of the mask in test too.
pub fn load(table: &[u8], masks: &[u64], cells: &mut [u32]) -> Result<Loaded, Refusal> {
    raw::load(table, masks, cells).typed()
}

/// A node's cells as a part of the caller's cell table, in rising order of their tuples, the outermost variable counting most.
///
/// It is never refused: the part is empty where the plan table is broken (11), the cell table is shorter than the plan's total
/// (12), or there is no such node.
///
/// ```
/// # use vuyekhang::{load, node_cells, read, MOST_TABLE};
/// let mut table = [0; MOST_TABLE];
/// let plan = read(3, b"[S] @x x:S", &mut table)?;
/// let mut cells = vec![0; plan.cells];
/// load(&table, &[0b101, 0], &mut cells)?;
/// // Node 0 is the root, 1 "for all x", 2 "x in S".
/// assert_eq!(node_cells(&table, &cells, 2), [0, 1, 0]);
/// assert!(node_cells(&table, &cells, 3).is_empty());
/// # Ok::<(), vuyekhang::Refusal>(())
/// ```
pub fn node_cells<'a>(table: &[u8], cells: &'a [u32], node: usize) -> &'a [u32] {
    let part = raw::node_cells(table, cells, node);
    &cells[part.first..part.first + part.count]
}

/// Makes a move: writes its masks and the touched cells in place, and the move into the journal.
///
/// The first `count` records of the journal are the moves that were made and not taken back, the newest last: a caller begins
/// with 0 and lends both on to every call. The move is written at the old count, the count is then one more, and every other record
/// stays.
///
/// Tries 11, then 12 (fewer masks or cells than [`load`] asks for, or a count past the journal's length or past [`MOST_RECORDS`]),
/// then 13, 14, 15, then 18: the count is the journal's length or [`MOST_RECORDS`]. The cells are taken as they are: after a [`load`]
/// and nothing but these calls each is its penalty.
pub fn make_move(
    table: &[u8],
    masks: &mut [u64],
    cells: &mut [u32],
    journal: &mut [Move],
    count: &mut usize,
    m: Move,
) -> Result<Moved, Refusal> {
    raw::make_move(table, masks, cells, journal, count, m).typed()
}

/// Takes the newest move of the journal back: makes its opposite, answers as [`make_move`] would for that, and lowers the count by
/// one. No record is written.
///
/// The opposite of an add is a drop and that of a drop an add, that of a transfer goes from t to s, and that of a swap has p and q
/// exchanged. After a [`load`] and nothing but these calls, the sets are those before the move. Ports in test stay in test, and each
/// cell is its penalty with these: where none went in or out since, the cells are those before the move, too.
///
/// Tries 11 to 13 as [`make_move`] does, then 19 (the count is 0), then 14 of the record and 15 of its opposite.
///
/// ```
/// # use vuyekhang::{load, make_move, read, undo, Move, Refusal, MOST_TABLE};
/// # let mut table = [0; MOST_TABLE];
/// # let plan = read(3, b"[S] #S = 2", &mut table)?;
/// # let (mut masks, mut cells) = ([0b011, 0], vec![0; plan.cells]);
/// # load(&table, &masks, &mut cells)?;
/// let (mut journal, mut count) = ([Move::default(); 4], 0);
/// make_move(&table, &mut masks, &mut cells, &mut journal, &mut count, Move::swap(0, 1, 2))?;
/// assert_eq!((masks, count), ([0b101, 0], 1));
/// undo(&table, &mut masks, &mut cells, &journal, &mut count)?;
/// assert_eq!((masks, count), ([0b011, 0], 0));
/// assert_eq!(undo(&table, &mut masks, &mut cells, &journal, &mut count), Err(Refusal::JournalEmpty));
/// # Ok::<(), vuyekhang::Refusal>(())
/// ```
pub fn undo(table: &[u8], masks: &mut [u64], cells: &mut [u32], journal: &[Move], count: &mut usize) -> Result<Moved, Refusal> {
    raw::undo(table, masks, cells, journal, count).typed()
}

/// Puts a port in test: it keeps its place in every set and counts in no size. Writes its bit of the mask after those of the sets and
/// the touched cells, which are those of the size literals of every set that holds it, and of the nodes above them.
///
/// It goes into no journal: [`undo`] takes moves back and leaves the ports in test as they are. Tries 11 to 13 as [`load`] does, then
/// 14 (a port of u or more), then 20: the port is in test already.
///
/// ```
/// # use vuyekhang::{load, read, test_begin, test_end, Moved, Refusal, MOST_TABLE};
/// # let mut table = [0; MOST_TABLE];
/// // A group of four of six ports. With one under line test it delivers three.
/// let plan = read(6, b"[G] #G >= 4", &mut table)?;
/// let (mut masks, mut cells) = ([0b011110, 0], vec![0; plan.cells]);
/// assert_eq!(load(&table, &masks, &mut cells)?.root, 0);
/// assert_eq!(test_begin(&table, &mut masks, &mut cells, 2)?, Moved { before: 0, after: 1, changed: 2 });
/// assert_eq!(masks, [0b011110, 0b000100]);
/// assert_eq!(test_begin(&table, &mut masks, &mut cells, 2), Err(Refusal::AlreadyInCondition));
///
/// assert_eq!(test_end(&table, &mut masks, &mut cells, 2)?, Moved { before: 1, after: 0, changed: 2 });
/// assert_eq!(masks, [0b011110, 0]);
/// # Ok::<(), vuyekhang::Refusal>(())
/// ```
pub fn test_begin(table: &[u8], masks: &mut [u64], cells: &mut [u32], port: u32) -> Result<Moved, Refusal> {
    raw::test_begin(table, masks, cells, port).typed()
}

/// Takes a port out of test: it counts again in the size of every set that holds it. Writes and tries what [`test_begin`] does; 20
/// where the port is not in test.
pub fn test_end(table: &[u8], masks: &mut [u64], cells: &mut [u32], port: u32) -> Result<Moved, Refusal> {
    raw::test_end(table, masks, cells, port).typed()
}

/// What [`make_move`] would answer with room in its journal, with masks and cells kept.
///
/// Scratch has as many cells as the plan or more (else 12); what an accepted call leaves in so many of them is not said.
pub fn trial(table: &[u8], masks: &[u64], cells: &[u32], scratch: &mut [u32], m: Move) -> Result<Moved, Refusal> {
    raw::trial(table, masks, cells, scratch, m).typed()
}

/// Makes the first, in the order of [`Move`], of the legal moves of some kinds that leave the least root, if that is smaller than
/// now.
///
/// The move goes into the journal as that of [`make_move`] does. Tries 11 to 13 as [`make_move`] and [`trial`] do, then 14 (kinds
/// is 0 or above 15), then 18, but only where it would make a move. Scratch as for [`trial`].
///
/// ```
/// # use vuyekhang::{improve, load, read, Improved, Kinds, Move, Moved, MOST_TABLE};
/// # let mut table = [0; MOST_TABLE];
/// # let plan = read(3, b"[S] #S = 2 & @x (x/S | ?y (y:S & x != y))", &mut table)?;
/// # let (mut masks, mut cells, mut scratch) = ([0b111, 0], vec![0; plan.cells], vec![0; plan.cells]);
/// # load(&table, &masks, &mut cells)?;
/// # let (mut journal, mut count) = ([Move::default(); 4], 0);
/// let answer = improve(&table, &mut masks, &mut cells, &mut scratch, &mut journal, &mut count, Kinds::ADD | Kinds::DROP)?;
/// match answer {
///     Improved::Made { chosen, moved } => println!("{chosen:?}: root {} to {}", moved.before, moved.after),
///     Improved::NoBetter { root } => println!("no better move, root {root}"),
/// }
/// # let expected = Move::drop(0, 0);
/// # assert!(matches!(answer, Improved::Made { chosen, moved: Moved { before: 1, after: 0, .. } } if chosen == expected));
/// # assert_eq!(journal[..count], [expected]);
/// # Ok::<(), vuyekhang::Refusal>(())
/// ```
pub fn improve(
    table: &[u8],
    masks: &mut [u64],
    cells: &mut [u32],
    scratch: &mut [u32],
    journal: &mut [Move],
    count: &mut usize,
    kinds: Kinds,
) -> Result<Improved, Refusal> {
    raw::improve(table, masks, cells, scratch, journal, count, kinds.0).typed()
}

/// Lists the legal moves of some kinds that leave the least root, as [`trial`] would answer it, and answers how many there are.
///
/// They begin the list, each once and in the order of [`Move`], also where that root is not smaller than now; 0 of them where no
/// move is legal. Records past the count stay. Tries 11 to 13 as [`trial`] does, then 14 (kinds), then 16: the list is shorter than
/// the count, so that one of [`MOST_MOVES`] is always long enough. Scratch as for [`trial`].
///
/// ```
/// # use vuyekhang::{best_moves, load, read, Kinds, Move, Refusal, MOST_TABLE};
/// # let mut table = [0; MOST_TABLE];
/// // Port 1 is in S and T and not in I: to drop it from S mends the plan, and to drop it from T.
/// let plan = read(3, b"[STI] @x (x:I <-> x:S & x:T) & #I <= 1", &mut table)?;
/// let (masks, mut cells, mut scratch) = ([3, 7, 1, 0], vec![0; plan.cells], vec![0; plan.cells]);
/// load(&table, &masks, &mut cells)?;
/// let mut list = [Move::default(); 8];
/// let count = best_moves(&table, &masks, &cells, &mut scratch, Kinds::ALL, &mut list)?;
/// assert_eq!(list[..count], [Move::drop(0, 1), Move::drop(1, 1)]);
///
/// let short = best_moves(&table, &masks, &cells, &mut scratch, Kinds::ALL, &mut list[..1]);
/// assert_eq!(short, Err(Refusal::ListTooShort));
/// # Ok::<(), vuyekhang::Refusal>(())
/// ```
pub fn best_moves(
    table: &[u8],
    masks: &[u64],
    cells: &[u32],
    scratch: &mut [u32],
    kinds: Kinds,
    list: &mut [Move],
) -> Result<usize, Refusal> {
    raw::best_moves(table, masks, cells, scratch, kinds.0, list).typed()
}
