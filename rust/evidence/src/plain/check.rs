//! The check of a plan table (ground 11), with what the walks need of each node.

pub const ROOT: u8 = 0;
pub const ALL: u8 = 1;
pub const SOME: u8 = 2;
pub const AND: u8 = 3;
pub const OR: u8 = 4;
pub const IN: u8 = 5;
pub const NOT_IN: u8 = 6;
pub const COMPARE: u8 = 7;
pub const SIZE: u8 = 8;

pub const HEADER: usize = 9;
pub const RECORD: usize = 8;
pub const MOST_NODES: usize = 512;
const MOST_CELLS: usize = 1 << 20;

#[derive(Clone, Copy)]
pub struct Node {
    /// Four bits a set: bits 0 to 2 the variables by which membership literals at or below the node test it, bit 3 a size literal
    /// at or below. The check leaves the node's own and its children's, `gather` all.
    pub uses: u64,
    /// As the table has it, from the lowest byte on: kind, relation, a, b, then parent and end of two bytes each.
    record: u64,
    pub first: u32,
    /// In the check the end of its last child met so far, where its next child must stand, and so its own end when all is checked.
    /// Then where a walk goes on behind it (links.rs).
    next: u16,
    pub depth: u8,
}

impl Node {
    pub fn is_quantifier(&self) -> bool {
        self.kind() == ALL || self.kind() == SOME
    }

    pub fn kind(&self) -> u8 {
        self.record as u8
    }

    pub fn relation(&self) -> u8 {
        (self.record >> 8) as u8
    }

    pub fn a(&self) -> u8 {
        (self.record >> 16) as u8
    }

    pub fn b(&self) -> u8 {
        (self.record >> 24) as u8
    }

    fn parent(&self) -> usize {
        usize::from((self.record >> 32) as u16)
    }

    pub fn end(&self) -> usize {
        usize::from((self.record >> 48) as u16)
    }

    pub fn next(&self) -> usize {
        usize::from(self.next)
    }

    pub fn set_next(&mut self, next: usize) {
        self.next = next as u16;
    }
}

pub struct Tables {
    pub u: usize,
    pub n: usize,
    pub cells: usize,
    pub nodes: Vec<Node>,
    /// Whether a sum is below two quantifiers or three; `gather` says so.
    pub deep_sums: bool,
}

fn word(bytes: &[u8], at: usize) -> u16 {
    u16::from_le_bytes([bytes[at], bytes[at + 1]])
}

/// Ports, sets and node count of a sound header.
fn header(table: &[u8]) -> Option<(usize, usize, usize)> {
    if table.len() < HEADER || table[..5] != *b"PLN\x01\x00" {
        return None;
    }
    let (u, n, count) = (usize::from(table[5]), usize::from(table[6]), usize::from(word(table, 7)));
    let sound = (1..=64).contains(&u) && (1..=16).contains(&n) && (2..=MOST_NODES).contains(&count);
    (sound && table.len() >= HEADER + RECORD * count).then_some((u, n, count))
}

type Records<'a> = &'a [[u8; RECORD]];

fn record(records: Records, i: usize) -> u64 {
    u64::from_le_bytes(records[i])
}

/// The end of the i-th node, if there is one.
fn end(records: Records, i: usize) -> usize {
    records.get(i).map_or(0, |record| usize::from(word(record, 6)))
}

/// The root: it and its child span all nodes.
fn root(records: Records) -> Option<Node> {
    let (count, record) = (records.len(), record(records, 0));
    let sound = record == (count as u64) << 48 | 0xFFFF << 32 | u64::from(ROOT) && end(records, 1) == count;
    sound.then_some(Node { uses: 0, record, first: 0, next: 1, depth: 0 })
}

/// The node behind these, which must stand as the next child of its parent.
fn next(nodes: &mut [Node], records: Records, first: usize, n: u8) -> Option<Node> {
    let i = nodes.len();
    let mut node = Node { uses: 0, record: record(records, i), first: first as u32, next: i as u16 + 1, depth: 0 };
    let above = nodes.get_mut(node.parent())?;
    if above.next() != i || above.end() < node.end() {
        return None;
    }
    above.set_next(node.end());
    node.depth = above.depth + u8::from(above.is_quantifier());
    node.uses = own_uses(&node, i, n, above.kind(), end(records, i + 1))?;
    above.uses |= node.uses;
    Some(node)
}

/// What the i-th node uses itself, or `None` where its fields or the nodes below it break a rule; the end of its first child tells
/// whether it has one child or more.
fn own_uses(node: &Node, i: usize, n: u8, above: u8, first_end: usize) -> Option<u64> {
    let (kind, depth, end) = (node.kind(), node.depth, node.end());
    let (none, some) = (end == i + 1, end > i + 1);
    match (kind, node.relation(), node.a(), node.b()) {
        (IN | NOT_IN, 0, a, b) if none && a < depth && b < n => Some(1 << (4 * b + a)),
        (AND | OR, 0, 0, 0) if some && first_end < end && kind != above => Some(0),
        (ALL | SOME, 0, 0, 0) if some && first_end == end && depth < 3 => Some(0),
        (COMPARE, 0..=5, a, b) if none && a < depth && b < depth => Some(0),
        (SIZE, 0..=5, a, 0..=64) if none && a < n => Some(8 << (4 * a)),
        _ => None,
    }
}

impl Tables {
    /// `None` where the table breaks a rule or is cut short.
    pub fn of(table: &[u8]) -> Option<Tables> {
        let (u, n, count) = header(table)?;
        let (records, _) = table[HEADER..HEADER + RECORD * count].as_chunks();
        let powers = [1, u, u * u, u * u * u];
        let mut nodes = Vec::with_capacity(count);
        nodes.push(root(records)?);
        let mut cells = 1;
        while nodes.len() < count {
            let node = next(&mut nodes, records, cells, n as u8)?;
            cells += powers[usize::from(node.depth)];
            nodes.push(node);
        }
        // A node stands as the next child of a parent that has not ended, so that no child is missing in the end.
        (cells <= MOST_CELLS).then_some(Tables { u, n, cells, nodes, deep_sums: false })
    }

    /// Hands uses up from every inner node, as literals have done, and looks for deep sums: what a change asks for, and a load does not.
    pub fn gather(&mut self) {
        let nodes = &mut self.nodes;
        for i in (1..nodes.len()).rev() {
            let Node { uses, depth, .. } = nodes[i];
            let (kind, parent) = (nodes[i].kind(), nodes[i].parent());
            if kind < IN {
                nodes[parent].uses |= uses;
                self.deep_sums |= kind == AND && depth >= 2;
            }
        }
    }
}
