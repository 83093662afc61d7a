//! How much stack each exported call takes at most, over texts and plan tables that are made to take much.
pub mod calls;
pub mod paint;
pub mod tables;
pub mod texts;

use calls::{Call, Tables};
use paint::Stack;

/// "No call above 320 KiB for any input": the goal of issue 19.
pub const MOST_STACK: usize = 320 << 10;

/// Tables with a short name, and the calls that are made over them, in this order.
pub struct Input {
    pub name: String,
    pub tables: Tables,
    pub calls: Vec<Call>,
}

/// Every input that is measured.
pub fn inputs() -> impl Iterator<Item = Input> {
    texts::texts().chain(tables::tables())
}

/// A call as it was measured: its number and its bytes of stack.
pub struct Line {
    pub input: String,
    pub call: Call,
    pub number: u32,
    pub bytes: usize,
}

/// What is painted below a call: a reader that recurses takes over 3 MB, no other call takes near 1.
fn room(call: Call) -> usize {
    match call {
        Call::Read => 8 << 20,
        _ => 1 << 20,
    }
}

/// Makes the calls of an input in their order and measures each.
pub fn measure(stack: &Stack, input: Input) -> Vec<Line> {
    let Input { name, mut tables, calls } = input;
    let mut line = |call: Call| {
        let mut number = 0;
        let bytes = stack.used(room(call), || number = tables.make(call));
        Line { input: name.clone(), call, number, bytes }
    };
    calls.into_iter().map(&mut line).collect()
}
