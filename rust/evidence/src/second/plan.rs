//! A plan: nodes in the order of the plan table, each with its kind and fields. Paper 01, section Plan table.

/// The bytes of a plan table's header, and of one record.
pub const HEADER: usize = 9;
pub const RECORD: usize = 8;

pub const MOST_SETS: usize = 16;
pub const MOST_NODES: usize = 512;
pub const MOST_CELLS: usize = 1_048_576;

#[derive(Debug, Clone, PartialEq)]
pub struct Node {
    pub kind: u8,
    pub relation: u8,
    pub a: u8,
    pub b: u8,
    pub parent: u16,
    pub end: u16,
}

#[derive(Debug, Clone, PartialEq)]
pub struct Plan {
    pub u: usize,
    pub n: usize,
    pub nodes: Vec<Node>,
}

pub const ROOT: u8 = 0;
pub const ALL: u8 = 1;
pub const SOME: u8 = 2;
pub const AND: u8 = 3;
pub const OR: u8 = 4;
pub const IN: u8 = 5;
pub const NOT_IN: u8 = 6;
pub const COMPARE: u8 = 7;
pub const SIZE: u8 = 8;

impl Plan {
    /// The children of a node in text order: the first stands behind it, each other where the one before it ends. Asked only
    /// of tables whose nodes are in order.
    pub fn children(&self, node: usize) -> Vec<usize> {
        let end = usize::from(self.nodes[node].end);
        let later = |child: &usize| Some(usize::from(self.nodes[*child].end)).filter(|next| *next < end);
        std::iter::successors(Some(node + 1).filter(|first| *first < end), later).collect()
    }

    /// "Depth is the number of quantifiers strictly above a node".
    pub fn depth(&self, node: usize) -> usize {
        if node == 0 {
            return 0;
        }
        let above = usize::from(self.nodes[node].parent);
        self.depth(above) + usize::from(matches!(self.nodes[above].kind, ALL | SOME))
    }

    /// "A node of depth d has u^d cells".
    pub fn width(&self, node: usize) -> usize {
        self.u.pow(self.depth(node) as u32)
    }

    /// The first cell of each node, and the cell total behind the last.
    pub fn firsts(&self) -> Vec<usize> {
        let mut firsts = vec![0];
        for node in 0..self.nodes.len() {
            firsts.push(firsts[node] + self.width(node));
        }
        firsts
    }

    pub fn cells(&self) -> usize {
        (0..self.nodes.len()).map(|node| self.width(node)).sum()
    }

    /// The most quantifiers above a node.
    pub fn deepest(&self) -> usize {
        (0..self.nodes.len()).map(|node| self.depth(node)).max().unwrap_or(0)
    }

    /// How many bytes its plan table has.
    pub fn bytes(&self) -> usize {
        HEADER + RECORD * self.nodes.len()
    }
}
