//! Random plans for improve: few sets, which meet again and again in the same clauses, so that the two parts of a transfer or a swap
//! touch the same cells; and what of this a plan has.
use crate::random::{Random, Text};
use crate::second::formula::RELATIONS;
use crate::second::plan::{Node, Plan, ALL, AND, IN, NOT_IN, OR, ROOT, SIZE, SOME};

struct Clauses<'a> {
    r: &'a mut Random,
    u: u64,
    sets: usize,
    tokens: Vec<String>,
}

/// Numbers of ports: the least and the greatest, and few, so that depth 3 is met.
fn ports(r: &mut Random) -> u64 {
    match r.below(10) {
        0 => 1,
        1 => 64,
        2 => 1 + r.below(64) as u64,
        _ => 2 + r.below(5) as u64,
    }
}

/// Some clauses under for all, and at times under an exists or under nothing.
pub fn clauses(r: &mut Random) -> Text {
    let (u, sets) = (ports(r), 1 + r.below(4));
    let mut w = Clauses { r, u, sets, tokens: Vec::new() };
    w.put("[");
    ('A'..='Z').take(sets).for_each(|set| w.put(&set.to_string()));
    w.put("]");
    w.below(0);
    Text { u, tokens: w.tokens }
}

const VARIABLES: [&str; 3] = ["x", "y", "z"];

impl Clauses<'_> {
    fn put(&mut self, token: &str) {
        self.tokens.push(token.to_string());
    }

    /// The most variables: cells of many ports are many.
    fn deepest(&self) -> usize {
        match self.u {
            0..=6 => 3,
            7..=16 => 2,
            _ => 1 + usize::from(self.u < 24),
        }
    }

    /// A conjunction of one to three parts: clauses, or a quantifier with more below.
    fn below(&mut self, depth: usize) {
        let parts = 1 + self.r.below(3);
        for part in 0..parts {
            if part > 0 {
                self.put("&");
            }
            if depth < self.deepest() && self.r.chance(if depth == 0 { 90 } else { 55 }) {
                let sign = if self.r.chance(85) { "@" } else { "?" };
                self.quantifier(sign, depth);
            } else {
                self.clause(depth);
            }
        }
    }

    fn quantifier(&mut self, sign: &str, depth: usize) {
        [sign, VARIABLES[depth], "("].into_iter().for_each(|token| self.put(token));
        self.below(depth + 1);
        self.put(")");
    }

    /// Two to four parts joined by "or", or one literal.
    fn clause(&mut self, depth: usize) {
        let parts = if self.r.chance(15) { 1 } else { 2 + self.r.below(3) };
        self.put("(");
        for part in 0..parts {
            if part > 0 {
                self.put("|");
            }
            match self.r.below(10) {
                0 if depth < self.deepest() => {
                    let sign = self.r.pick(&["?", "?", "@"]);
                    self.quantifier(sign, depth);
                }
                1 => {
                    self.put("(");
                    self.literal(depth);
                    self.put("&");
                    self.literal(depth);
                    self.put(")");
                }
                _ => self.literal(depth),
            }
        }
        self.put(")");
    }

    fn set(&mut self) -> String {
        ((b'A' + self.r.below(self.sets) as u8) as char).to_string()
    }

    fn literal(&mut self, depth: usize) {
        let (relation, set) = (self.r.pick(&RELATIONS), self.set());
        let variables = &VARIABLES[..depth];
        let size = (self.r.word() % (self.u + 2)).min(64).to_string();
        match self.r.below(10) {
            0 if depth > 1 => [self.r.pick(variables), relation, self.r.pick(variables)].into_iter().for_each(|token| self.put(token)),
            3..=9 if depth > 0 => [self.r.pick(variables), self.r.pick(&[":", "/"]), &set].into_iter().for_each(|token| self.put(token)),
            _ => ["#", &set, relation, &size].into_iter().for_each(|token| self.put(token)),
        }
    }
}

/// The trees above which stand only the root, "and" and for all.
fn atoms(plan: &Plan) -> Vec<usize> {
    let parent = |node: &usize| Some(usize::from(plan.nodes[*node].parent)).filter(|above| *above < plan.nodes.len());
    let above = |node: usize| std::iter::successors(parent(&node), parent);
    let sum = |node: usize| [ROOT, AND, ALL].contains(&plan.nodes[node].kind);
    (0..plan.nodes.len()).filter(|node| !sum(*node) && above(*node).all(sum)).collect()
}

/// What improve, where candidates share work, can get wrong in a plan.
pub const CASES: [&str; 12] = [
    "two sets in one atom by one variable",
    "two sets in one atom by two variables",
    "one set in one atom by two variables",
    "one set by a variable above the atom and one in it",
    "a size beside members of the same set",
    "a minimum under for all",
    "an exists within an atom",
    "a for all within an atom",
    "an atom that is an exists",
    "an atom that is a literal",
    "u 1",
    "u 64",
];

/// Those of them that a plan has.
pub fn cases(plan: &Plan) -> Vec<&'static str> {
    let mut met = [false; CASES.len()];
    for atom in atoms(plan) {
        met.iter_mut().zip(of_atom(plan, atom)).for_each(|(met, holds)| *met |= holds);
    }
    [met[10], met[11]] = [plan.u == 1, plan.u == 64];
    CASES.into_iter().zip(met).filter(|(_, met)| *met).map(|(case, _)| case).collect()
}

/// Those of the first ten that an atom has.
fn of_atom(plan: &Plan, atom: usize) -> [bool; 10] {
    let below = &plan.nodes[atom..usize::from(plan.nodes[atom].end)];
    let depth = plan.depth(atom);
    let above = |n: &Node| usize::from(n.a) < depth;
    let members = || below.iter().filter(|n| [IN, NOT_IN].contains(&n.kind));
    let two = |fits: &dyn Fn(&Node, &Node) -> bool| members().any(|f| members().any(|g| fits(f, g)));
    let both_above = |f: &Node, g: &Node| above(f) && above(g);
    [
        two(&|f, g| both_above(f, g) && f.a == g.a && f.b != g.b),
        two(&|f, g| both_above(f, g) && f.a != g.a && f.b != g.b),
        two(&|f, g| both_above(f, g) && f.a != g.a && f.b == g.b),
        two(&|f, g| above(f) && !above(g) && f.b == g.b),
        below.iter().any(|n| n.kind == SIZE && members().any(|f| f.b == n.a)),
        depth > 0 && [OR, SOME].contains(&below[0].kind),
        below[1..].iter().any(|n| n.kind == SOME),
        below.iter().any(|n| n.kind == ALL),
        below[0].kind == SOME,
        below.len() == 1,
    ]
}
