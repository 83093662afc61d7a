//! Plan tables that nest deep, run long or have many cells, sound ones and damaged ones, each by a short name, and the calls that are
//! made over them.
use vuyekhang::Move;

use super::calls::{Call, Tables};
use super::Input;
use crate::archive::{read, record};
use crate::bench::plans::{plans, Plan as Measured};
use crate::forest::{planted, Branch};
use crate::second::plan::{Plan, ALL, AND, COMPARE, IN, MOST_NODES, NOT_IN, OR, ROOT, SIZE, SOME};
use crate::second::table::{encode, judge};

/// Every kind of move, then all of them.
const KINDS: [u32; 5] = [1, 2, 4, 8, 15];

/// The masks of the deep plans, which have two sets: port 0 in the first, port 1 in the second, no port in test.
const MASKS: [u64; 3] = [0b01, 0b10, 0];

/// A move of each kind of the first set, which the literals are about.
const MOVES: [Move; 4] = [Move::add(0, 1), Move::drop(0, 0), Move::transfer(0, 1, 0), Move::swap(0, 0, 1)];

/// From so many cells on only drops are searched: there are fewer of them.
const MANY_CELLS: usize = 300_000;

/// Every call over a plan: each move tried, made and taken back, a port put in test and taken out, each search.
fn calls(moves: &[Move], kinds: &[u32], nodes: usize) -> Vec<Call> {
    let parts = [0, nodes - 1, nodes].map(Call::NodeCells);
    let made = moves.iter().flat_map(|m| [Call::Trial(*m), Call::Move(*m), Call::Undo]);
    let held = moves.iter().find(|m| m.kind == Move::DROP).map_or(0, |m| m.p);
    let tests = [Call::TestBegin(held), Call::TestEnd(held)];
    let searches = kinds.iter().flat_map(|kinds| [Call::BestMoves(*kinds), Call::Improve(*kinds), Call::Undo]);
    [Call::Write, Call::Load].into_iter().chain(parts).chain(made).chain(tests).chain(searches).collect()
}

/// The calls over a plan of two sets, which need not be sound.
fn input(name: String, plan: &Plan) -> Input {
    let table = encode(plan);
    // A damaged plan may seem to have any number of cells.
    let cells = judge(&table).map_or(1, |plan| plan.cells());
    let kinds = if cells < MANY_CELLS { &KINDS[..] } else { &KINDS[1..2] };
    Input { name, tables: Tables::of_plan(&table, MASKS.to_vec(), cells), calls: calls(&MOVES, kinds, plan.nodes.len()) }
}

/// The literals of a plan.
#[derive(Clone, Copy)]
enum Leaves {
    /// The size of the first set, which every move of it touches at every tuple.
    Sizes,
    /// Whether the first set has the outermost variable's port.
    Outermost,
    /// Whether it has the innermost variable's.
    Innermost,
    /// Each kind in turn.
    Every,
}

impl Leaves {
    fn name(self) -> &'static str {
        match self {
            Leaves::Sizes => "sizes",
            Leaves::Outermost => "the outermost variable",
            Leaves::Innermost => "the innermost variable",
            Leaves::Every => "every literal",
        }
    }

    /// The literal of a node, below so many quantifiers: a size where there are none.
    fn at(self, depth: usize, node: usize) -> Branch {
        let innermost = depth.saturating_sub(1) as u8;
        let (kind, fields) = match self {
            _ if depth == 0 => (SIZE, [4, 0, 64]),
            Leaves::Sizes => (SIZE, [4, 0, 64]),
            Leaves::Outermost => (IN, [0, 0, 0]),
            Leaves::Innermost => (NOT_IN, [0, innermost, 0]),
            Leaves::Every => [(IN, [0, innermost, 0]), (NOT_IN, [0, 0, 1]), (COMPARE, [1, 0, innermost]), (SIZE, [4, 0, 64])][node % 4],
        };
        Branch::of(kind, fields, Vec::new())
    }
}

/// A plan's nodes with children by their kinds, the outermost first, each "and" and "or" with a literal before what is nested in it or
/// behind it. The innermost node is a literal.
fn nest(kinds: &[u8], leaves: Leaves, nested_first: bool) -> Branch {
    let quantifier = |kind: &u8| matches!(*kind, ALL | SOME);
    let mut depth = kinds.iter().filter(|kind| quantifier(kind)).count();
    let mut tree = leaves.at(depth, 0);
    for (i, kind) in kinds.iter().enumerate().rev() {
        let mut below = vec![tree];
        if quantifier(kind) {
            depth -= 1;
        } else {
            below.insert(usize::from(nested_first), leaves.at(depth, i));
        }
        tree = Branch::of(*kind, [0; 3], below);
    }
    tree
}

/// "And" and "or" by turns, as many as the nodes allow beside so many quantifiers.
fn joins(quantifiers: usize) -> Vec<u8> {
    let count = (MOST_NODES - 2 - quantifiers) / 2;
    (0..count).map(|i| [AND, OR][i % 2]).collect()
}

/// Where the quantifiers of a deep plan stand among its "and" and "or".
#[derive(Clone, Copy)]
enum Place {
    Above,
    Between,
    Below,
}

impl Place {
    fn name(self) -> &'static str {
        match self {
            Place::Above => "above",
            Place::Between => "between",
            Place::Below => "below",
        }
    }

    /// The kinds of a deep plan with these quantifiers, the outermost first.
    fn kinds(self, quantifiers: &[u8]) -> Vec<u8> {
        let mut all = joins(quantifiers.len());
        let length = all.len();
        for (i, kind) in quantifiers.iter().enumerate() {
            let at = match self {
                Place::Above => i,
                Place::Between => (i + 1) * length / (quantifiers.len() + 1) + i,
                Place::Below => length + i,
            };
            all.insert(at, *kind);
        }
        all
    }
}

/// As deep as 512 nodes allow, below no, one, two or three quantifiers.
fn deep() -> Vec<Input> {
    let mut all = Vec::new();
    let quantifiers: [&[u8]; 8] =
        [&[], &[ALL], &[SOME], &[ALL, SOME], &[SOME, ALL], &[ALL, ALL, ALL], &[SOME, SOME, SOME], &[SOME, ALL, SOME]];
    for signs in quantifiers {
        let places: &[Place] = if signs.is_empty() { &[Place::Above] } else { &[Place::Above, Place::Between, Place::Below] };
        for (place, leaves, first) in choices(places) {
            let kinds = place.kinds(signs);
            let shown: String = signs.iter().map(|kind| if *kind == ALL { '@' } else { '?' }).collect();
            let order = if first { "nested first" } else { "nested last" };
            let name = format!("{} nested, `{shown}` {}, {}, {order}", kinds.len(), place.name(), leaves.name());
            all.push(input(name, &planted(2, 2, nest(&kinds, leaves, first))));
        }
    }
    all
}

fn choices(places: &[Place]) -> Vec<(Place, Leaves, bool)> {
    let leaves = [Leaves::Sizes, Leaves::Outermost, Leaves::Innermost, Leaves::Every];
    let each = places.iter().flat_map(|place| leaves.map(|leaves| (*place, leaves)));
    each.flat_map(|(place, leaves)| [true, false].map(|first| (place, leaves, first))).collect()
}

/// One "and" or "or" of as many literals as the nodes allow, below some quantifiers.
fn flat() -> Vec<Input> {
    let mut all = Vec::new();
    for quantifiers in 0..=3 {
        for (kind, leaves) in [(AND, Leaves::Sizes), (OR, Leaves::Every), (AND, Leaves::Innermost)] {
            let count = MOST_NODES - 2 - quantifiers;
            let joined = Branch::of(kind, [0; 3], (0..count).map(|i| leaves.at(quantifiers, i)).collect());
            let child = (0..quantifiers).fold(joined, |below, _| Branch::of(ALL, [0; 3], vec![below]));
            let name = format!("{count} side by side below {quantifiers} quantifiers, kind {kind}, {}", leaves.name());
            all.push(input(name, &planted(2, 2, child)));
        }
    }
    all
}

/// One node below the other, each with one child, all 512 of them.
fn chain(name: &str, kinds: &[u8]) -> Input {
    let tree = (0..MOST_NODES - 2).fold(Leaves::Sizes.at(0, 0), |below, i| Branch::of(kinds[i % kinds.len()], [0; 3], vec![below]));
    input(format!("damaged: 510 nodes one below the other, {name}"), &planted(2, 2, tree))
}

/// A change to the records of the deepest plan and of the flattest.
fn changed(name: &str, change: impl Fn(&mut Plan)) -> Vec<Input> {
    let deepest = planted(2, 2, nest(&joins(0), Leaves::Sizes, false));
    let sizes = (0..MOST_NODES - 2).map(|i| Leaves::Sizes.at(0, i)).collect();
    let flattest = planted(2, 2, Branch::of(AND, [0; 3], sizes));
    let each = [("255 nested", deepest), ("510 side by side", flattest)];
    let damaged = each.map(|(of, mut plan)| {
        change(&mut plan);
        input(format!("damaged: {of}, {name}"), &plan)
    });
    damaged.into()
}

/// Tables that break a rule, most of them as far down or as far behind as can be.
fn damaged() -> Vec<Input> {
    let chains = [
        chain("\"and\" in \"and\"", &[AND]),
        chain("\"and\" and \"or\"", &[AND, OR]),
        chain("quantifiers", &[ALL]),
        chain("quantifiers and \"and\"", &[ALL, AND]),
        chain("roots", &[ROOT]),
        chain("literals", &[SIZE]),
        chain("unknown kinds", &[9]),
    ];
    let same = input("damaged: 255 nested, \"and\" in \"and\"".into(), &planted(2, 2, nest(&[AND; 255], Leaves::Sizes, false)));
    let four = [joins(4), vec![ALL; 4]].concat();
    let fourth = input("damaged: 253 nested, then 4 quantifiers".into(), &planted(2, 2, nest(&four, Leaves::Sizes, false)));
    let records = [
        changed("the last relation unknown", |plan| plan.nodes[MOST_NODES - 1].relation = 6),
        changed("the last end past the table", |plan| plan.nodes[MOST_NODES - 1].end += 1),
        changed("each end past that of the node above", |plan| plan.nodes.iter_mut().skip(1).for_each(|node| node.end += 1)),
        changed("every end the last one", |plan| plan.nodes.iter_mut().for_each(|node| node.end = MOST_NODES as u16)),
        changed("every end behind its own node", |plan| (1..MOST_NODES).for_each(|i| plan.nodes[i].end = i as u16 + 1)),
        changed("every parent the node before", |plan| (1..MOST_NODES).for_each(|i| plan.nodes[i].parent = i as u16 - 1)),
        changed("parents and ends of a chain", |plan| {
            (1..MOST_NODES).for_each(|i| (plan.nodes[i].parent, plan.nodes[i].end) = (i as u16 - 1, MOST_NODES as u16));
        }),
    ];
    chains.into_iter().chain([same, fourth]).chain(records.into_iter().flatten()).collect()
}

/// The calls over a plan that is read from its text.
fn measured(plan: &Measured) -> Input {
    let mut table = vec![0; vuyekhang::MOST_TABLE];
    let answer = read(plan.u, plan.text.as_bytes(), &mut table).unwrap_or_else(|n| panic!("the text of {} is refused: {n}", plan.name));
    let kinds = if answer.cells < MANY_CELLS { &KINDS[..] } else { &KINDS[1..2] };
    let calls = calls(&plan.moves.map(|m| record(&m)), kinds, answer.nodes);
    Input { name: plan.name.to_string(), tables: Tables::of_plan(&table, plan.masks(), answer.cells), calls }
}

/// Nearly as many cells as a plan may have, with 16 sets and 64 ports: every pair of ports, and below them every third one.
fn widest() -> Measured {
    let pairs: Vec<String> = (0..61).map(|i| format!("x:{}", char::from(b'A' + i % 16))).collect();
    let text = format!("[ABCDEFGHIJKLMNOP]@x@y({}&@z(x:A&z/B))", pairs.join("&"));
    let sets = (0..16).map(|i| 0x0F0F_0000_0F0F << i).collect();
    let moves = MOVES.map(|m| crate::calls::Move { kind: m.kind, s: m.s, t: m.t, p: m.p, q: m.q });
    Measured { name: "widest", u: 64, text, sets, moves }
}

pub fn tables() -> impl Iterator<Item = Input> {
    let made = [deep, flat, damaged].into_iter().flat_map(|inputs| inputs());
    made.chain(plans().into_iter().chain([widest()]).map(|plan| measured(&plan)))
}
