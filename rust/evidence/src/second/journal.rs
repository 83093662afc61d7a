//! The calls that write: a move, improve, and undo, with the journal of accepted moves. Paper 01, sections One move and Grounds for
//! refusal; request 2026-03 of paper 02.
use super::moves::{best_moves, flipped, improved, legal, made, tables, unknown};
use super::plan::Plan;
use crate::calls::{Improved, Journal, Move, Numbers};

/// "a lent journal of move records, at most 1,024"
pub const MOST: usize = 1_024;

/// "a record count past the journal's length or past 1,024 is 12"
pub fn past(journal: &Journal) -> bool {
    journal.count > journal.records.len() || journal.count > MOST
}

/// "journal full (its length or 1,024 reached)"
pub fn full(journal: &Journal) -> bool {
    journal.count >= journal.records.len() || journal.count >= MOST
}

/// Grounds 11 to 13 of a call that is lent a journal.
fn opened(table: &[u8], masks: &[u64], lengths: &[usize], journal: &Journal) -> Result<Plan, u32> {
    match tables(table, masks, lengths) {
        Err(11) => Err(11),
        _ if past(journal) => Err(12),
        judged => judged,
    }
}

/// Grounds 14, of one move, and 15, of another.
fn judged(plan: &Plan, masks: &[u64], known: &Move, fits: &Move) -> Result<(), u32> {
    if unknown(plan, known) {
        return Err(14);
    }
    if legal(masks, fits) {
        Ok(())
    } else {
        Err(15)
    }
}

/// What a legal move writes.
fn write(plan: &Plan, masks: &mut [u64], cells: &mut [u32], m: &Move) -> Numbers {
    let (numbers, new) = made(plan, masks, cells, m);
    masks.copy_from_slice(&flipped(masks, m));
    cells[..new.len()].copy_from_slice(&new);
    numbers
}

/// A move over the caller's tables: writes masks and cells where it is accepted, and the move into the journal.
pub fn make_move(table: &[u8], masks: &mut [u64], cells: &mut [u32], journal: &mut Journal, m: &Move) -> Result<Numbers, u32> {
    let plan = opened(table, masks, &[cells.len()], journal)?;
    judged(&plan, masks, m, m)?;
    if full(journal) {
        return Err(18);
    }
    journal.records[journal.count] = *m;
    journal.count += 1;
    Ok(write(&plan, masks, cells, m))
}

/// "18 [..] (for improve, only when it would make one), last"
pub fn improve(
    table: &[u8],
    masks: &mut [u64],
    cells: &mut [u32],
    scratch: usize,
    journal: &mut Journal,
    kinds: u32,
) -> Result<Improved, u32> {
    opened(table, masks, &[cells.len(), scratch], journal)?;
    let answer = improved(&best_moves(table, masks, cells, scratch, kinds)?, cells[0]);
    if let Improved::Made(m, _) = &answer {
        make_move(table, masks, cells, journal, m)?;
    }
    Ok(answer)
}

/// The move that changes the same pairs back.
pub fn opposite(m: &Move) -> Move {
    match m.kind {
        1 => Move { kind: 2, ..*m },
        2 => Move { kind: 1, ..*m },
        3 => Move { s: m.t, t: m.s, ..*m },
        _ => Move { p: m.q, q: m.p, ..*m },
    }
}

/// "Undo makes the opposite of the newest record, returns a move's three numbers and lowers the record count by one; the freed place
/// is unwritten until used again." 19 comes "after 13"; "a foreign record meets 14, and its opposite 15, as any move does".
pub fn undo(table: &[u8], masks: &mut [u64], cells: &mut [u32], journal: &mut Journal) -> Result<Numbers, u32> {
    let plan = opened(table, masks, &[cells.len()], journal)?;
    let newest = journal.records[..journal.count].last().ok_or(19u32)?;
    let back = opposite(newest);
    judged(&plan, masks, newest, &back)?;
    journal.count -= 1;
    Ok(write(&plan, masks, cells, &back))
}
