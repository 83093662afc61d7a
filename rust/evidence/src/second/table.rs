//! The plan table: its bytes and its rules (ground 11). Paper 01, section Plan table.
use super::plan::{Node, Plan, ALL, AND, COMPARE, HEADER, IN, MOST_CELLS, MOST_NODES, MOST_SETS, NOT_IN, OR, RECORD, ROOT, SIZE, SOME};

fn word(bytes: &[u8], at: usize) -> u16 {
    u16::from_le_bytes([bytes[at], bytes[at + 1]])
}

pub fn encode(plan: &Plan) -> Vec<u8> {
    let mut bytes = b"PLN".to_vec();
    bytes.extend(1u16.to_le_bytes());
    bytes.extend([plan.u as u8, plan.n as u8]);
    bytes.extend((plan.nodes.len() as u16).to_le_bytes());
    for node in &plan.nodes {
        bytes.extend([node.kind, node.relation, node.a, node.b]);
        bytes.extend(node.parent.to_le_bytes());
        bytes.extend(node.end.to_le_bytes());
    }
    bytes
}

/// Ports, sets and node count, or the rule that the header breaks.
fn header(bytes: &[u8]) -> Result<(usize, usize, usize), &'static str> {
    let rule = |keeps: bool, name: &'static str| if keeps { Ok(()) } else { Err(name) };
    rule(bytes.len() >= HEADER, "header cut short")?;
    rule(&bytes[..3] == b"PLN", "mark")?;
    rule(word(bytes, 3) == 1, "version")?;
    let (u, n, count) = (usize::from(bytes[5]), usize::from(bytes[6]), usize::from(word(bytes, 7)));
    rule((1..=64).contains(&u), "ports")?;
    rule((1..=MOST_SETS).contains(&n), "sets")?;
    rule((2..=MOST_NODES).contains(&count), "node count")?;
    rule(bytes.len() >= HEADER + RECORD * count, "records cut short")?;
    Ok((u, n, count))
}

fn record(bytes: &[u8], i: usize) -> Node {
    let r = &bytes[HEADER + RECORD * i..HEADER + RECORD * (i + 1)];
    Node { kind: r[0], relation: r[1], a: r[2], b: r[3], parent: word(r, 4), end: word(r, 6) }
}

impl Plan {
    /// Nodes stand parent first and subtrees stand together: a node's parent is the node before it or stands above that one.
    /// Its end is where the first later node stands that is not below it.
    fn order(&self) -> Option<&'static str> {
        let mut above: Vec<usize> = vec![0];
        let mut ends = vec![self.nodes.len(); self.nodes.len()];
        for i in 1..self.nodes.len() {
            while above.last().is_some_and(|&a| a != usize::from(self.nodes[i].parent)) {
                ends[above.pop().expect("just seen")] = i;
            }
            if above.is_empty() {
                return Some("parent");
            }
            above.push(i);
        }
        if self.nodes[0].parent != u16::MAX {
            return Some("the root's parent");
        }
        self.nodes.iter().zip(ends).any(|(node, end)| usize::from(node.end) != end).then_some("end")
    }

    /// "Root and quantifiers have one child, and/or two or more, literals none"; "only node 0 is a root"; nesting of and/or.
    fn family(&self, i: usize) -> Option<&'static str> {
        let kind = self.nodes[i].kind;
        let children = self.children(i);
        let number = match kind {
            ROOT | ALL | SOME => children.len() == 1,
            AND | OR => children.len() >= 2,
            _ => children.is_empty(),
        };
        let nested = matches!(kind, AND | OR) && children.iter().any(|&c| self.nodes[c].kind == kind);
        if kind > SIZE {
            return Some("kind");
        }
        if (kind == ROOT) != (i == 0) {
            return Some("only node 0 is a root");
        }
        if nested {
            return Some("nesting");
        }
        (!number).then_some("number of children")
    }

    fn fields(&self, i: usize) -> Option<&'static str> {
        let node = &self.nodes[i];
        let depth = self.depth(i);
        let variable = |v: u8| usize::from(v) < depth;
        let set = |s: u8| usize::from(s) < self.n;
        let rules = match node.kind {
            IN | NOT_IN => [(node.relation == 0, "unused field"), (variable(node.a), "variable"), (set(node.b), "set")],
            COMPARE => [(node.relation <= 5, "relation"), (variable(node.a), "variable"), (variable(node.b), "variable")],
            SIZE => [(node.relation <= 5, "relation"), (set(node.a), "set"), (node.b <= 64, "constant")],
            _ => [(node.relation == 0, "unused field"), (node.a == 0, "unused field"), (node.b == 0, "unused field")],
        };
        let depth_rule = [(depth <= 3, "depth")];
        depth_rule.into_iter().chain(rules).find(|(keeps, _)| !keeps).map(|(_, name)| name)
    }
}

/// The plan of a table, or the first rule found that it breaks, which is ground 11. Bytes past the last record play no part.
pub fn judge(bytes: &[u8]) -> Result<Plan, &'static str> {
    let (u, n, count) = header(bytes)?;
    let plan = Plan { u, n, nodes: (0..count).map(|i| record(bytes, i)).collect() };
    // In this order, since the later rules walk up and down a tree that the first one makes sure of.
    let broken = plan.order().or_else(|| (0..count).find_map(|i| plan.family(i).or_else(|| plan.fields(i))));
    match broken {
        Some(rule) => Err(rule),
        None if plan.cells() > MOST_CELLS => Err("cell total"),
        None => Ok(plan),
    }
}

pub fn decode(bytes: &[u8]) -> Option<Plan> {
    judge(bytes).ok()
}

/// The rules by the names that `judge` gives.
pub const RULES: [&str; 21] = [
    "header cut short",
    "mark",
    "version",
    "ports",
    "sets",
    "node count",
    "records cut short",
    "parent",
    "the root's parent",
    "end",
    "kind",
    "only node 0 is a root",
    "nesting",
    "number of children",
    "depth",
    "unused field",
    "variable",
    "set",
    "relation",
    "constant",
    "cell total",
];
