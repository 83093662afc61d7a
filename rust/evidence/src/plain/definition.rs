//! Definition 5 as it is written: the root's penalty by recursion over nodes and ports, with no cells kept.
use super::check::{Node, Tables, ALL, AND, OR, ROOT, SOME};
use super::configuration::Configuration;
use super::literal::{penalty, with_digit};

pub fn root(tables: &Tables, of: &Configuration) -> u32 {
    Definition { nodes: &tables.nodes, u: tables.u, of }.at(0, 0)
}

struct Definition<'a> {
    nodes: &'a [Node],
    u: usize,
    of: &'a Configuration,
}

impl Definition<'_> {
    fn at(&self, i: usize, digits: u32) -> u32 {
        let node = &self.nodes[i];
        let port = |x: usize| self.at(i + 1, with_digit(digits, node.depth, x));
        match node.kind() {
            ROOT => self.at(i + 1, digits),
            ALL => (0..self.u).fold(0, |sum, x| sum + port(x)),
            SOME => (0..self.u).fold(u32::MAX, |least, x| least.min(port(x))),
            AND => self.children(i, digits, 0, |sum, c| sum + c),
            OR => self.children(i, digits, u32::MAX, u32::min),
            _ => penalty(node, self.of, digits),
        }
    }

    fn children(&self, i: usize, digits: u32, start: u32, join: impl Fn(u32, u32) -> u32) -> u32 {
        let (mut value, mut k) = (start, i + 1);
        while k < self.nodes[i].end() {
            value = join(value, self.at(k, digits));
            k = self.nodes[k].end();
        }
        value
    }
}
