//! The core of a formula: arrows and negations gone, "and" in "and" and "or" in "or" merged, laid out as a plan's nodes. Paper 01,
//! section Plan text.
use super::formula::{opposite, Tree};
use super::plan::{Node, Plan, ALL, AND, COMPARE, IN, NOT_IN, OR, ROOT, SIZE, SOME};

/// What a core formula begins with, which decides whether it merges into what stands above it.
#[derive(Clone, Copy, PartialEq)]
enum Top {
    And,
    Or,
    Other,
}

/// How many nodes and cells a core has; kept far above every limit and below the largest number.
#[derive(Clone, Copy)]
pub struct Amount {
    top: Top,
    pub nodes: u128,
    pub cells: u128,
}

const ENOUGH: u128 = 1 << 100;

/// The amount of an "and" or an "or" of these parts, each node of which has `width` cells.
fn joined(top: Top, width: u128, parts: &[Amount]) -> Amount {
    let mut sum = Amount { top, nodes: 1, cells: width };
    for part in parts {
        let merged = u128::from(part.top == top);
        sum.nodes = (sum.nodes + part.nodes - merged).min(ENOUGH);
        sum.cells = (sum.cells + part.cells - merged * width).min(ENOUGH);
    }
    sum
}

/// The amounts of a tree's core and of its negation's, each part looked at once: nested `<->` would double it every time.
pub fn amounts(tree: &Tree, u: u128, width: u128) -> (Amount, Amount) {
    use Top::{And, Or, Other};
    let one = |nodes, cells| Amount { top: Other, nodes, cells };
    let join = |top, parts: &[Amount]| joined(top, width, parts);
    match tree {
        Tree::Not(f) => {
            let (yes, no) = amounts(f, u, width);
            (no, yes)
        }
        Tree::All(_, f) | Tree::Some(_, f) => {
            let (yes, no) = amounts(f, u, (width * u).min(ENOUGH));
            (one(yes.nodes + 1, yes.cells + width), one(no.nodes + 1, no.cells + width))
        }
        Tree::And(parts) | Tree::Or(parts) => {
            let (yes, no): (Vec<Amount>, Vec<Amount>) = parts.iter().map(|f| amounts(f, u, width)).unzip();
            let plain = if matches!(tree, Tree::And(_)) { (And, Or) } else { (Or, And) };
            (join(plain.0, &yes), join(plain.1, &no))
        }
        Tree::Right(f, g) | Tree::Left(f, g) | Tree::Both(f, g) => {
            let ((f, not_f), (g, not_g)) = (amounts(f, u, width), amounts(g, u, width));
            match tree {
                Tree::Right(..) => (join(Or, &[not_f, g]), join(And, &[f, not_g])),
                Tree::Left(..) => (join(Or, &[f, not_g]), join(And, &[not_f, g])),
                _ => (
                    join(And, &[join(Or, &[not_f, g]), join(Or, &[f, not_g])]),
                    join(Or, &[join(And, &[f, not_g]), join(And, &[not_f, g])]),
                ),
            }
        }
        _ => (one(1, width), one(1, width)),
    }
}

/// A core formula, before it is laid out as a table. Variables are letters, sets too.
enum Core {
    All(u8, Box<Core>),
    Some(u8, Box<Core>),
    And(Vec<Core>),
    Or(Vec<Core>),
    Literal(Tree),
}

fn and_of(parts: Vec<Core>) -> Core {
    let mut flat = Vec::new();
    for part in parts {
        match part {
            Core::And(inner) => flat.extend(inner),
            other => flat.push(other),
        }
    }
    Core::And(flat)
}

fn or_of(parts: Vec<Core>) -> Core {
    let mut flat = Vec::new();
    for part in parts {
        match part {
            Core::Or(inner) => flat.extend(inner),
            other => flat.push(other),
        }
    }
    Core::Or(flat)
}

/// "F->G is ~F|G, F<-G is F|~G, F<->G is (~F|G)&(F|~G). Then negation goes down by De Morgan". `yes` false: of the negation.
fn core(tree: &Tree, yes: bool) -> Core {
    let or = |f: Core, g: Core| or_of(vec![f, g]);
    let and = |f: Core, g: Core| and_of(vec![f, g]);
    match tree {
        Tree::Not(f) => core(f, !yes),
        Tree::And(parts) if yes => and_of(parts.iter().map(|f| core(f, true)).collect()),
        Tree::And(parts) => or_of(parts.iter().map(|f| core(f, false)).collect()),
        Tree::Or(parts) if yes => or_of(parts.iter().map(|f| core(f, true)).collect()),
        Tree::Or(parts) => and_of(parts.iter().map(|f| core(f, false)).collect()),
        Tree::Right(f, g) if yes => or(core(f, false), core(g, true)),
        Tree::Right(f, g) => and(core(f, true), core(g, false)),
        Tree::Left(f, g) if yes => or(core(f, true), core(g, false)),
        Tree::Left(f, g) => and(core(f, false), core(g, true)),
        Tree::Both(f, g) if yes => and(or(core(f, false), core(g, true)), or(core(f, true), core(g, false))),
        Tree::Both(f, g) => or(and(core(f, true), core(g, false)), and(core(f, false), core(g, true))),
        Tree::All(v, f) if yes => Core::All(*v, Box::new(core(f, true))),
        Tree::All(v, f) => Core::Some(*v, Box::new(core(f, false))),
        Tree::Some(v, f) if yes => Core::Some(*v, Box::new(core(f, true))),
        Tree::Some(v, f) => Core::All(*v, Box::new(core(f, false))),
        literal if yes => Core::Literal(literal.clone()),
        Tree::In(v, s) => Core::Literal(Tree::NotIn(*v, *s)),
        Tree::NotIn(v, s) => Core::Literal(Tree::In(*v, *s)),
        Tree::Compare(v, r, w) => Core::Literal(Tree::Compare(*v, opposite(*r), *w)),
        Tree::Size(s, r, c) => Core::Literal(Tree::Size(*s, opposite(*r), *c)),
    }
}

/// Lays a core out as nodes, parent first, children in text order.
struct Layout<'a> {
    sets: &'a [u8],
    bound: Vec<u8>,
    nodes: Vec<Node>,
}

impl Layout<'_> {
    fn variable(&self, v: u8) -> u8 {
        self.bound.iter().position(|b| *b == v).expect("ground 5 is tried before") as u8
    }

    fn set(&self, s: u8) -> u8 {
        self.sets.iter().position(|b| *b == s).expect("ground 5 is tried before") as u8
    }

    fn put(&mut self, kind: u8, fields: [u8; 3], parent: u16) -> u16 {
        let [relation, a, b] = fields;
        self.nodes.push(Node { kind, relation, a, b, parent, end: 0 });
        (self.nodes.len() - 1) as u16
    }

    fn close(&mut self, node: u16) {
        self.nodes[usize::from(node)].end = self.nodes.len() as u16;
    }

    fn lay(&mut self, core: &Core, parent: u16) {
        let node = match core {
            Core::All(v, f) | Core::Some(v, f) => {
                let node = self.put(if matches!(core, Core::All(..)) { ALL } else { SOME }, [0; 3], parent);
                self.bound.push(*v);
                self.lay(f, node);
                self.bound.pop();
                node
            }
            Core::And(parts) | Core::Or(parts) => {
                let node = self.put(if matches!(core, Core::And(_)) { AND } else { OR }, [0; 3], parent);
                parts.iter().for_each(|f| self.lay(f, node));
                node
            }
            Core::Literal(literal) => self.literal(literal, parent),
        };
        self.close(node);
    }

    fn literal(&mut self, literal: &Tree, parent: u16) -> u16 {
        match literal {
            Tree::In(v, s) => self.put(IN, [0, self.variable(*v), self.set(*s)], parent),
            Tree::NotIn(v, s) => self.put(NOT_IN, [0, self.variable(*v), self.set(*s)], parent),
            Tree::Compare(v, r, w) => self.put(COMPARE, [*r, self.variable(*v), self.variable(*w)], parent),
            Tree::Size(s, r, c) => self.put(SIZE, [*r, self.set(*s), *c as u8], parent),
            _ => unreachable!("only literals stand below"),
        }
    }
}

pub fn plan_of(u: u8, sets: &[u8], tree: &Tree) -> Plan {
    let mut layout = Layout { sets, bound: Vec::new(), nodes: Vec::new() };
    let root = layout.put(ROOT, [0; 3], u16::MAX);
    layout.lay(&core(tree, true), root);
    layout.close(root);
    Plan { u: usize::from(u), n: sets.len(), nodes: layout.nodes }
}
