//! The two calls that put a port in test and take it out. Request 2026-05 of paper 02.
use super::moves::{numbers, tables, updated};
use super::penalty::in_set;
use super::plan::{Plan, SIZE};
use crate::calls::{Numbers, Test};

/// "they touch every size literal whose set holds it, and its ancestors": whether such a literal stands at or below a node.
pub fn resized(plan: &Plan, masks: &[u64], port: usize, node: usize) -> bool {
    let below = &plan.nodes[node..usize::from(plan.nodes[node].end)];
    below.iter().any(|n| n.kind == SIZE && in_set(masks, usize::from(n.a), port))
}

/// Puts a port in test or takes it out: writes the mask in test and the touched cells. Grounds 11 to 13, 14 of the port, then "20, the
/// port is already in that condition, after 14".
pub fn test(table: &[u8], masks: &mut [u64], cells: &mut [u32], call: Test, port: u32) -> Result<Numbers, u32> {
    let plan = tables(table, masks, &[cells.len()])?;
    let port = port as usize;
    if port >= plan.u {
        return Err(14);
    }
    if in_set(masks, plan.n, port) == (call == Test::Begin) {
        return Err(20);
    }
    masks[plan.n] ^= 1 << port;
    let old = &cells[..plan.cells()];
    let new = updated(&plan, masks, |node, _| resized(&plan, masks, port, node), old);
    let answer = numbers(old, &new);
    cells[..new.len()].copy_from_slice(&new);
    Ok(answer)
}
