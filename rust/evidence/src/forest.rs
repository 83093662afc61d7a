//! Plans as trees: random ones of every shape, which need not come from a text, and damage to a plan's tree. Everything follows from a
//! seed.
use crate::random::{ports, Random};
use crate::second::plan::{Node, Plan, ALL, AND, COMPARE, IN, MOST_CELLS, MOST_NODES, MOST_SETS, OR, ROOT, SIZE, SOME};

/// A node with the nodes below it: parents and ends are laid out behind it, and so stay right.
pub struct Branch {
    node: Node,
    below: Vec<Branch>,
}

impl Branch {
    /// A node of a kind with its relation, a and b.
    pub fn of(kind: u8, [relation, a, b]: [u8; 3], below: Vec<Branch>) -> Branch {
        Branch { node: Node { kind, relation, a, b, parent: 0, end: 0 }, below }
    }
}

fn branch(plan: &Plan, i: usize) -> Branch {
    Branch { node: plan.nodes[i].clone(), below: plan.children(i).into_iter().map(|c| branch(plan, c)).collect() }
}

fn lay(b: &Branch, parent: u16, nodes: &mut Vec<Node>) {
    let i = nodes.len();
    nodes.push(Node { parent, ..b.node.clone() });
    b.below.iter().for_each(|c| lay(c, i as u16, nodes));
    nodes[i].end = nodes.len() as u16;
}

/// The plan whose root has this child, over some ports and sets. It keeps the rules of order alone.
pub fn planted(u: usize, n: usize, child: Branch) -> Plan {
    let mut nodes = Vec::new();
    lay(&Branch::of(ROOT, [0; 3], vec![child]), u16::MAX, &mut nodes);
    Plan { u, n, nodes }
}

/// The branch at a place in the table's order, counted down to 0.
fn at_place<'a>(b: &'a mut Branch, left: &mut usize) -> Option<&'a mut Branch> {
    if *left == 0 {
        return Some(b);
    }
    *left -= 1;
    b.below.iter_mut().find_map(|c| at_place(c, left))
}

/// One change to a plan's tree or its numbers, with parents and ends laid out anew: it may break any other rule, or none.
pub fn damage_plan(plan: &Plan, r: &mut Random) -> Plan {
    let mut tree = branch(plan, 0);
    let (mut u, mut n) = (plan.u, plan.n);
    let mut place = r.below(plan.nodes.len());
    let chosen = at_place(&mut tree, &mut place).expect("there are so many nodes");
    match r.below(9) {
        0 => chosen.node.kind = r.below(10) as u8,
        1 => chosen.node.relation = r.below(8) as u8,
        2 => chosen.node.a = r.one_of(&[0, 1, 2, 3, n - 1, n]) as u8,
        3 => chosen.node.b = r.one_of(&[0, 1, 2, n - 1, n, 63, 64, 65]) as u8,
        4 => drop(chosen.below.pop()),
        5 => {
            let inner = Branch { node: chosen.node.clone(), below: std::mem::take(&mut chosen.below) };
            *chosen = Branch::of(1 + r.below(4) as u8, [0; 3], vec![inner]);
        }
        6 => {
            let same = chosen.below.first().map(|c| c.node.clone());
            chosen.below.extend(same.map(|node| Branch { node, below: Vec::new() }));
        }
        // Most often 64, with which a plan soonest has too many cells.
        7 => u = r.one_of(&[0, 1, 40, 63, 64, 64, 64, 65]),
        _ => n = r.one_of(&[0, 1, n - 1, 16, 17]),
    }
    let mut nodes = Vec::new();
    lay(&tree, u16::MAX, &mut nodes);
    Plan { u, n, nodes }
}

/// Grows a tree over n sets that keeps every rule of a plan but the one on cells, which the number of ports decides.
struct Grower<'a> {
    r: &'a mut Random,
    n: usize,
    /// How many nodes may still be made.
    left: usize,
    /// The most quantifiers above a node.
    quantifiers: usize,
}

impl Grower<'_> {
    fn quantifier(&mut self) -> u8 {
        [ALL, SOME][self.r.below(2)]
    }

    /// "No "and" is a child of "and", no "or" of "or"".
    fn join(&mut self, above: u8) -> u8 {
        match above {
            AND => OR,
            OR => AND,
            _ => [AND, OR][self.r.below(2)],
        }
    }

    fn variable(&mut self, depth: usize) -> u8 {
        self.r.below(depth) as u8
    }

    /// Of one digit or two, the least and the greatest among them.
    fn constant(&mut self) -> u8 {
        let any = self.r.below(65);
        self.r.one_of(&[0, 9, 10, 64, any]) as u8
    }

    /// A literal of any kind that the quantifiers above it allow, with any fields.
    fn literal(&mut self, depth: usize) -> Branch {
        let kind = if depth == 0 { SIZE } else { IN + self.r.below(4) as u8 };
        let (relation, set) = (self.r.below(6) as u8, self.r.below(self.n) as u8);
        let fields = match kind {
            SIZE => [relation, set, self.constant()],
            COMPARE => [relation, self.variable(depth), self.variable(depth)],
            _ => [0, self.variable(depth), set],
        };
        Branch::of(kind, fields, Vec::new())
    }

    /// Anything that may stand below a node of kind `above`, which has counted the node at its top.
    fn any(&mut self, above: u8, depth: usize) -> Branch {
        let choice = self.r.below(100);
        if depth < self.quantifiers && self.left >= 1 && choice < 35 {
            self.left -= 1;
            let kind = self.quantifier();
            return Branch::of(kind, [0; 3], vec![self.any(kind, depth + 1)]);
        }
        if self.left >= 2 && choice < 75 {
            let most = self.r.one_of(&[2, 4, 20]).min(self.left);
            let count = 2 + self.r.below(most - 1);
            self.left -= count;
            let kind = self.join(above);
            return Branch::of(kind, [0; 3], (0..count).map(|_| self.any(kind, depth)).collect());
        }
        self.literal(depth)
    }

    /// "And" and "or" by turns, each with a literal beside the rest, and quantifiers here and there: just so many of `(` and quantifiers
    /// stand around the innermost literal of its text.
    fn nested(&mut self, above: u8, depth: usize, around: usize) -> Branch {
        if around == 0 {
            return self.literal(depth);
        }
        if depth < self.quantifiers && self.r.chance(5) {
            let kind = self.quantifier();
            return Branch::of(kind, [0; 3], vec![self.nested(kind, depth + 1, around - 1)]);
        }
        let kind = self.join(above);
        let bracket = usize::from(matches!(above, ALL | SOME | AND));
        let rest = self.nested(kind, depth, around - bracket);
        let mut below = vec![self.literal(depth), rest];
        below.rotate_left(usize::from(self.r.chance(20)));
        Branch::of(kind, [0; 3], below)
    }

    /// An "and" or an "or" of size literals whose text has just so many bytes: `[`, the sets' letters, `] `, and literals of 8 bytes or
    /// of 7 with 3 between two of them.
    fn long(&mut self, bytes: usize) -> Branch {
        let count = (bytes - self.n).div_ceil(11);
        let short = count * 11 - (bytes - self.n);
        let mut literal = |i: usize| {
            let relation = if i < short { [0, 2, 5] } else { [1, 3, 4] }[self.r.below(3)];
            Branch::of(SIZE, [relation, self.r.below(self.n) as u8, 10 + self.r.below(55) as u8], Vec::new())
        };
        let below = (0..count).map(&mut literal).collect();
        Branch::of(self.join(ROOT), [0; 3], below)
    }
}

/// A sound plan of a tree that is grown over some sets, with fewer ports where its cells would be too many.
fn grown(r: &mut Random, tree: impl FnOnce(&mut Grower) -> Branch) -> Plan {
    let most = r.one_of(&[4, MOST_SETS]);
    let n = 1 + r.below(most);
    let most = r.one_of(&[3, 12, 40, MOST_NODES - 1]);
    // The root and its child are made in any case.
    let (left, quantifiers) = (r.below(most), r.below(4));
    let child = tree(&mut Grower { r, n, left, quantifiers });
    let mut plan = planted(ports(r) as usize, n, child);
    while plan.cells() > MOST_CELLS {
        plan.u = 1 + r.below(plan.u - 1);
    }
    plan
}

/// A sound plan whose text has just so many bytes, about 4,096 of them.
pub fn long_plan(r: &mut Random, bytes: usize) -> Plan {
    grown(r, |grower| grower.long(bytes))
}

/// A sound plan in whose text just so many of `(` and quantifiers stand around one token.
pub fn nested_plan(r: &mut Random, around: usize) -> Plan {
    grown(r, |grower| grower.nested(ROOT, 0, around))
}

/// A sound plan of any shape; some about the limits of a text.
pub fn any_plan(r: &mut Random) -> Plan {
    match r.below(20) {
        0 => {
            let bytes = 4090 + r.below(14);
            long_plan(r, bytes)
        }
        1 => {
            let around = 60 + r.below(9);
            nested_plan(r, around)
        }
        _ => grown(r, |grower| grower.any(ROOT, 0)),
    }
}
