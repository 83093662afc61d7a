//! Reading: a plan text's table, or the ground for refusal.
use super::check::{HEADER, RECORD, ROOT};
use super::parse::Parser;
use super::tokens::known;
use super::tree::{merges, opposite, Op, Tree};
use crate::calls::Read;

const MOST_TEXT: usize = 4096;

/// Reads a plan text over u ports and writes its plan table.
pub fn read(u: u64, text: &[u8], table: &mut [u8]) -> Result<Read, u32> {
    if !(1..=64).contains(&u) {
        return Err(10);
    }
    if text.len() > MOST_TEXT {
        return Err(1);
    }
    if !text.iter().all(|b| known(*b)) {
        return Err(2);
    }
    let mut parser = Parser::of(u, text);
    let (tree, nodes, cells) = parser.text()?;
    let (nodes, cells) = (nodes as usize + 1, cells as usize + 1);
    let table = table.get_mut(..HEADER + RECORD * nodes).ok_or(12u32)?;
    table[..HEADER].copy_from_slice(&[b'P', b'L', b'N', 1, 0, u as u8, parser.set_count as u8, nodes as u8, (nodes >> 8) as u8]);
    let mut emitter = Emitter { trees: &parser.trees, records: &mut table[HEADER..], count: 0 };
    let root = emitter.open([ROOT, 0, 0, 0], u16::MAX);
    emitter.tree(tree, 0, root, ROOT);
    emitter.close(root);
    Ok(Read { nodes, cells })
}

/// Writes the records of the core, parent first.
struct Emitter<'a> {
    trees: &'a [Tree],
    records: &'a mut [u8],
    count: u16,
}

impl Emitter<'_> {
    /// Begins a node; its end is written when it is closed.
    fn open(&mut self, fields: [u8; 4], parent: u16) -> u16 {
        let record = &mut self.records[RECORD * usize::from(self.count)..][..RECORD];
        record[..4].copy_from_slice(&fields);
        record[4..6].copy_from_slice(&parent.to_le_bytes());
        self.count += 1;
        self.count - 1
    }

    fn close(&mut self, node: u16) {
        self.records[RECORD * usize::from(node) + 6..][..2].copy_from_slice(&self.count.to_le_bytes());
    }

    /// A tree as it is (way 0) or negated (1), below a node of a kind.
    fn tree(&mut self, tree: usize, way: usize, parent: u16, above: u8) {
        let trees = self.trees;
        let tree = &trees[tree];
        let kind = tree.kind[way];
        match tree.op {
            Op::Not => self.tree(tree.first, 1 - way, parent, above),
            Op::Literal => {
                let turned = way == 1 && kind > super::check::NOT_IN;
                let relation = if turned { opposite(tree.relation) } else { tree.relation };
                let node = self.open([kind, relation, tree.a, tree.b], parent);
                self.close(node);
            }
            _ if merges(kind, above) => self.parts(tree, way, parent),
            _ => {
                let node = self.open([kind, 0, 0, 0], parent);
                self.parts(tree, way, node);
                self.close(node);
            }
        }
    }

    fn parts(&mut self, tree: &Tree, way: usize, parent: u16) {
        let mut inner = parent;
        for (i, (child, way, kind)) in tree.parts(self.trees, way).enumerate() {
            if tree.op == Op::Both && i % 2 == 0 {
                inner = self.open([kind, 0, 0, 0], parent);
            }
            self.tree(child, way, inner, kind);
            if tree.op == Op::Both && i % 2 == 1 {
                self.close(inner);
            }
        }
    }
}
