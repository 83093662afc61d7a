//! Definition 5, truth, and the cell table. Paper 01, sections Plan table and Penalty; size as request 2026-05 of paper 02 has it.
use super::formula::Tree;
use super::plan::{Plan, ALL, AND, COMPARE, IN, NOT_IN, OR, ROOT, SIZE, SOME};

pub fn in_set(masks: &[u64], set: usize, port: usize) -> bool {
    masks[set] >> port & 1 == 1
}

pub fn related(relation: u8, x: u64, y: u64) -> bool {
    match relation {
        0 => x < y,
        1 => x <= y,
        2 => x == y,
        3 => x != y,
        4 => x >= y,
        _ => x > y,
    }
}

/// "Size s against c, 0 where true, else: .."
fn size_penalty(relation: u8, s: u64, c: u64) -> u64 {
    if related(relation, s, c) {
        return 0;
    }
    match relation {
        0 => s + 1 - c,
        1 => s - c,
        2 => s.abs_diff(c),
        3 => 1,
        4 => c - s,
        _ => c + 1 - s,
    }
}

/// "the size of a set becomes the number of its members not in test"; the mask after those of the n sets names the ports in test.
fn size(u: usize, n: usize, masks: &[u64], set: usize) -> u64 {
    (0..u).filter(|port| in_set(masks, set, *port) && !in_set(masks, n, *port)).count() as u64
}

/// A literal's penalty at a tuple: cases (f) to (i).
pub fn literal_penalty(plan: &Plan, masks: &[u64], node: usize, tuple: &[usize]) -> u64 {
    let n = &plan.nodes[node];
    let port = |v: u8| tuple[usize::from(v)];
    match n.kind {
        COMPARE => u64::from(!related(n.relation, port(n.a) as u64, port(n.b) as u64)),
        SIZE => size_penalty(n.relation, size(plan.u, plan.n, masks, usize::from(n.a)), u64::from(n.b)),
        IN => u64::from(!in_set(masks, usize::from(n.b), port(n.a))),
        NOT_IN => u64::from(in_set(masks, usize::from(n.b), port(n.a))),
        _ => unreachable!("a literal"),
    }
}

/// The cells directly below a cell: a node and its tuple for each.
pub fn below(plan: &Plan, node: usize, tuple: &[usize]) -> Vec<(usize, Vec<usize>)> {
    let children = plan.children(node);
    match plan.nodes[node].kind {
        ALL | SOME => (0..plan.u).map(|port| (children[0], [tuple, &[port]].concat())).collect(),
        _ => children.into_iter().map(|child| (child, tuple.to_vec())).collect(),
    }
}

/// The penalty of a node at a tuple, from scratch.
pub fn penalty(plan: &Plan, masks: &[u64], node: usize, tuple: &[usize]) -> u64 {
    let kind = plan.nodes[node].kind;
    if kind >= IN {
        return literal_penalty(plan, masks, node, tuple);
    }
    let mut parts = below(plan, node, tuple).into_iter().map(|(n, t)| penalty(plan, masks, n, &t));
    match kind {
        ALL | AND => parts.sum(),
        SOME | OR => parts.min().expect("it has children"),
        ROOT => parts.next().expect("it has a child"),
        _ => unreachable!("every kind is above"),
    }
}

/// The tuples of a depth in the order of their cells, the outermost variable counting most.
pub fn tuples(u: usize, depth: usize) -> Vec<Vec<usize>> {
    let mut all = vec![Vec::new()];
    for _ in 0..depth {
        all = all.iter().flat_map(|t: &Vec<usize>| (0..u).map(move |p| [&t[..], &[p]].concat())).collect();
    }
    all
}

/// Every cell of a plan.
pub fn cells(plan: &Plan, masks: &[u64]) -> Vec<u32> {
    let mut all = Vec::new();
    for node in 0..plan.nodes.len() {
        for tuple in tuples(plan.u, plan.depth(node)) {
            all.push(penalty(plan, masks, node, &tuple) as u32);
        }
    }
    all
}

/// Truth of a text's own tree, arrows and negations included; variables and sets are letters.
pub fn text_true(tree: &Tree, u: usize, sets: &[u8], masks: &[u64], bound: &mut Vec<(u8, usize)>) -> bool {
    let port = |v: &u8, bound: &[(u8, usize)]| bound.iter().rev().find(|b| b.0 == *v).expect("bound").1;
    let set = |s: &u8| sets.iter().position(|b| b == s).expect("declared");
    match tree {
        Tree::Right(f, g) => !text_true(f, u, sets, masks, bound) || text_true(g, u, sets, masks, bound),
        Tree::Left(f, g) => text_true(f, u, sets, masks, bound) || !text_true(g, u, sets, masks, bound),
        Tree::Both(f, g) => text_true(f, u, sets, masks, bound) == text_true(g, u, sets, masks, bound),
        Tree::Or(parts) => parts.iter().any(|f| text_true(f, u, sets, masks, bound)),
        Tree::And(parts) => parts.iter().all(|f| text_true(f, u, sets, masks, bound)),
        Tree::Not(f) => !text_true(f, u, sets, masks, bound),
        Tree::All(v, f) => (0..u).all(|p| with(bound, (*v, p), |bound| text_true(f, u, sets, masks, bound))),
        Tree::Some(v, f) => (0..u).any(|p| with(bound, (*v, p), |bound| text_true(f, u, sets, masks, bound))),
        Tree::In(v, s) => in_set(masks, set(s), port(v, bound)),
        Tree::NotIn(v, s) => !in_set(masks, set(s), port(v, bound)),
        Tree::Compare(v, r, w) => related(*r, port(v, bound) as u64, port(w, bound) as u64),
        Tree::Size(s, r, c) => related(*r, size(u, sets.len(), masks, set(s)), *c),
    }
}

fn with(bound: &mut Vec<(u8, usize)>, one: (u8, usize), then: impl Fn(&mut Vec<(u8, usize)>) -> bool) -> bool {
    bound.push(one);
    let result = then(bound);
    bound.pop();
    result
}
