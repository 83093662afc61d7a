//! The trees of a plan text, and how they come into the core.
use super::check::{AND, OR};

const NONE: usize = usize::MAX;

/// What a tree is in the text; `And` and `Or` are kinds of the core too, once negations have gone down.
#[derive(Clone, Copy, PartialEq)]
pub enum Op {
    And,
    Or,
    Right,
    Left,
    Both,
    Not,
    Quantifier,
    Literal,
}

/// A tree as it comes into the core, either as it is (0) or negated (1).
pub struct Tree {
    pub op: Op,
    pub kind: [u8; 2],
    pub relation: u8,
    pub a: u8,
    pub b: u8,
    /// The first child, and the next child of its own parent.
    pub first: usize,
    pub next: usize,
    /// Nodes and cells of the core, the tree's own node included.
    pub nodes: [u64; 2],
    pub cells: [u64; 2],
}

/// No children and no fields.
pub const NOTHING: Tree =
    Tree { op: Op::Literal, kind: [0; 2], relation: 0, a: 0, b: 0, first: NONE, next: NONE, nodes: [0; 2], cells: [0; 2] };

pub fn opposite(relation: u8) -> u8 {
    [4, 5, 3, 2, 0, 1][usize::from(relation)]
}

/// Whether a node of a kind is merged into its parent.
pub fn merges(kind: u8, parent: u8) -> bool {
    kind == parent && (kind == AND || kind == OR)
}

impl Tree {
    /// What stands below a tree's nodes in the core: a child, which way, and the kind of the node right above it. A double arrow
    /// has two nodes in between, of two parts each.
    pub fn parts<'a>(&self, trees: &'a [Tree], way: usize) -> impl Iterator<Item = (usize, usize, u8)> + 'a {
        let both = self.op == Op::Both;
        let kind = self.kind[if both { 1 - way } else { way }];
        let turns: &[usize] = match self.op {
            Op::Right => &[1, 0],
            Op::Left => &[0, 1],
            Op::Both => &[1, 0, 0, 1],
            _ => &[],
        };
        let some = |c: usize| Some(c).filter(|c| *c != NONE);
        let children = move |first: usize| std::iter::successors(some(first), move |c| some(trees[*c].next));
        let again = children(if both { self.first } else { NONE });
        let each = children(self.first).chain(again).enumerate();
        each.map(move |(i, child)| (child, way ^ turns.get(i).copied().unwrap_or(0), kind))
    }
}
