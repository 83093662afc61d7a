//! The penalty of a literal. A tuple's digits stand in one word, 8 bits a variable, so that none is found by division.
use super::check::{Node, COMPARE, IN, NOT_IN};
use super::configuration::Configuration;

pub fn with_digit(digits: u32, variable: u8, port: usize) -> u32 {
    digits | (port as u32) << (8 * u32::from(variable))
}

pub fn digit(digits: u32, variable: u8) -> u32 {
    digits >> (8 * u32::from(variable)) & 0xFF
}

pub fn member(mask: u64, port: u32) -> u32 {
    (mask >> port) as u32 & 1
}

pub fn related(relation: u8, x: u32, y: u32) -> bool {
    match relation {
        0 => x < y,
        1 => x <= y,
        2 => x == y,
        3 => x != y,
        4 => x >= y,
        _ => x > y,
    }
}

pub fn size_penalty(relation: u8, s: u32, c: u32) -> u32 {
    match relation {
        0 => (s + 1).saturating_sub(c),
        1 => s.saturating_sub(c),
        2 => s.abs_diff(c),
        3 => u32::from(s == c),
        4 => c.saturating_sub(s),
        _ => (c + 1).saturating_sub(s),
    }
}

pub fn penalty(node: &Node, of: &Configuration, digits: u32) -> u32 {
    let member = || member(of.sets[usize::from(node.b())], digit(digits, node.a()));
    match node.kind() {
        IN => 1 - member(),
        NOT_IN => member(),
        COMPARE => u32::from(!related(node.relation(), digit(digits, node.a()), digit(digits, node.b()))),
        _ => size_penalty(node.relation(), of.size(node.a()), u32::from(node.b())),
    }
}
