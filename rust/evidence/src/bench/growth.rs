//! The cost of a move against the size of its plan and against what it touches.
use super::plans::Plan;
use crate::calls::Move;

pub const ADD: Move = Move { kind: 1, s: 0, t: 0, p: 5, q: 0 };

/// A plan of rules about sets A and B, which `ADD` touches, and rules about C and D, which it does not.
fn plan(name: &'static str, touched: usize, others: usize) -> Plan {
    let rule = |a: char, b: char| format!("@x@y(x/{a}|y/{b})");
    let rules: Vec<String> = (0..touched).map(|_| rule('A', 'B')).chain((0..others).map(|_| rule('C', 'D'))).collect();
    let text = format!("[ABCD]#A<=9&{}", rules.join("&"));
    Plan { name, u: 64, text, sets: vec![0xF0F, 0xFF, 0xF000, 0x3F], moves: [ADD; 4] }
}

/// One rule is touched; the plan grows.
pub fn larger() -> Vec<Plan> {
    [0, 5, 20, 80].map(|others| plan("larger", 1, others)).into()
}

/// The plan keeps its size; more of its rules are touched.
pub fn more_touched() -> Vec<Plan> {
    [1, 5, 20, 80].map(|touched| plan("more touched", touched, 80 - touched)).into()
}
