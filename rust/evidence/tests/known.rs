//! The known plans of paper 01, through the second evaluator alone and through the archive.
use evidence::archive::{load, read, Archive};
use evidence::calls::{Calls, Improved, Journal, Loaded, Move, Numbers, Read};
use evidence::second::journal::make_move;
use evidence::second::moves::{best_moves, improved, legal_moves, pairs, touched};
use evidence::second::penalty::{cells, text_true, tuples};
use evidence::second::table::{decode, encode};
use evidence::second::text::{read as second_read, Accepted};
use vuyekhang::{node_cells, MOST_MOVES};

const PLAN_A: &str = "[STI] @x (x:I <-> x:S & x:T) & #I <= 1";

fn accepted(u: u64, text: &str) -> Accepted {
    second_read(u, text.as_bytes(), usize::MAX).unwrap_or_else(|n| panic!("{text} is refused: {n}"))
}

/// Both evaluators read the text to the same table; the root's penalty and the cell total by both.
fn root(u: u64, text: &str, masks: &[u64]) -> (u32, usize) {
    let second = accepted(u, text);
    let mut table = vec![0; second.plan.bytes()];
    let answer = read(u, text.as_bytes(), &mut table);
    assert_eq!(answer, Ok(Read { nodes: second.plan.nodes.len(), cells: second.cells }));
    assert_eq!(table, encode(&second.plan));
    assert_eq!(decode(&table).as_ref(), Some(&second.plan));
    let own = cells(&second.plan, masks);
    assert_eq!(own.len(), second.cells);
    let mut filled = vec![7; own.len()];
    assert_eq!(load(&table, masks, &mut filled), Ok(Loaded { root: own[0], cells: own.len() }));
    assert_eq!(filled, own);
    let holds = text_true(&second.tree, u as usize, &second.sets, masks, &mut Vec::new());
    assert_eq!(own[0] == 0, holds);
    (own[0], own.len())
}

fn number(u: u64, text: &str) -> u32 {
    let mut table = vec![0; 5000];
    let answer = read(u, text.as_bytes(), &mut table).map_or_else(|n| n, |_| 0);
    assert_eq!(answer, second_read(u, text.as_bytes(), table.len()).map_or_else(|n| n, |_| 0), "{text}");
    answer
}

#[test]
fn plan_a() {
    assert_eq!(root(3, PLAN_A, &[3, 7, 1, 0]), (1, 34));
    let plan = accepted(3, PLAN_A).plan;
    assert_eq!(plan.nodes.len(), 14);
    let own = cells(&plan, &[3, 7, 1, 0]);
    assert_eq!(own[3..6], [0, 1, 0]);
    assert_eq!(own[30..34], [1, 1, 1, 0]);
    assert_eq!(node_cells(&encode(&plan), &own, 10), [0, 1, 1]);
    assert!(node_cells(&encode(&plan), &own, 14).is_empty());
}

/// An empty journal.
fn room() -> Journal {
    Journal { records: vec![STOOD; 4], count: 0 }
}

#[test]
fn plan_b() {
    let plan = accepted(3, PLAN_A).plan;
    let mut masks = [3, 7, 1, 0];
    let mut own = cells(&plan, &masks);
    let drop = Move { kind: 2, s: 1, t: 0, p: 1, q: 0 };
    let is_touched = |node: usize, t: &Vec<usize>| pairs(&drop).iter().any(|pair| touched(&plan, node, t, *pair));
    let count: usize = (0..14).map(|node| tuples(3, plan.depth(node)).iter().filter(|t| is_touched(node, t)).count()).sum();
    assert_eq!(count, 9);
    let mut journal = room();
    let answer = make_move(&encode(&plan), &mut masks, &mut own, &mut journal, &drop);
    assert_eq!(answer, Ok(Numbers { before: 1, after: 0, changed: 8 }));
    assert_eq!((masks, journal.count, journal.records), ([3, 5, 1, 0], 1, vec![drop, STOOD, STOOD, STOOD]));
    assert_eq!(own, cells(&plan, &masks));
}

#[test]
fn plan_b_by_the_archive() {
    let plan = accepted(3, PLAN_A).plan;
    let table = encode(&plan);
    let mut masks = [3, 7, 1, 0];
    let mut own = cells(&plan, &masks);
    let mut scratch = vec![9; own.len()];
    let drop = Move { kind: 2, s: 1, t: 0, p: 1, q: 0 };
    let numbers = Numbers { before: 1, after: 0, changed: 8 };
    assert_eq!(Archive.trial(&table, &masks, &own, &mut scratch, &drop), Ok(numbers));
    assert_eq!(Archive.trial(&table, &masks, &own, &mut scratch[1..], &drop), Err(12));
    let mut journal = room();
    assert_eq!(Archive.make_move(&table, &mut masks, &mut own, &mut journal, &drop), Ok(numbers));
    assert_eq!((masks, &own), ([3, 5, 1, 0], &cells(&plan, &masks)));
    assert_eq!(Archive.make_move(&table, &mut masks, &mut own, &mut journal, &drop), Err(15));
    assert_eq!(Archive.improve(&table, &mut masks, &mut own, &mut scratch, &mut journal, 15), Ok(Improved::NoBetter(0)));
    assert_eq!(Archive.improve(&table, &mut masks, &mut own, &mut scratch, &mut journal, 16), Err(14));
    let undone = Numbers { before: 0, after: 1, changed: 8 };
    assert_eq!(Archive.undo(&table, &mut masks, &mut own, &mut journal), Ok(undone));
    assert_eq!((masks, &own), ([3, 7, 1, 0], &cells(&plan, &masks)));
    assert_eq!(Archive.undo(&table, &mut masks, &mut own, &mut journal), Err(19));
}

fn add(s: u32, p: u32) -> Move {
    Move { kind: 1, s, t: 0, p, q: 0 }
}

fn drop(s: u32, p: u32) -> Move {
    Move { kind: 2, s, t: 0, p, q: 0 }
}

fn transfer(s: u32, t: u32, p: u32) -> Move {
    Move { kind: 3, s, t, p, q: 0 }
}

fn swap(s: u32, p: u32, q: u32) -> Move {
    Move { kind: 4, s, t: 0, p, q }
}

/// A record that no list holds.
const STOOD: Move = Move { kind: 9, s: 9, t: 9, p: 9, q: 9 };

/// The best moves of a plan and the root that they leave: by the second evaluator alone, and then by the archive, into lists of
/// just their number, of one more and of one fewer. Improve answers the first of them, or "no better move".
fn best_of(u: u64, text: &str, masks: &[u64], kinds: u32, expected: &[Move], root: u32) {
    let plan = accepted(u, text).plan;
    let (table, own) = (encode(&plan), cells(&plan, masks));
    let best = best_moves(&table, masks, &own, own.len(), kinds).expect("the plan is sound");
    assert_eq!(best.iter().map(|(m, _)| *m).collect::<Vec<_>>(), expected, "kinds {kinds}");
    assert!(best.iter().all(|(_, numbers)| numbers.after == root), "kinds {kinds}");
    let by_archive = |room: usize| {
        let mut list = vec![STOOD; room];
        let answer = Archive.best_moves(&table, masks, &own, &mut own.clone(), kinds, &mut list);
        (answer, list)
    };
    let count = expected.len();
    assert_eq!(by_archive(count), (Ok(count), expected.to_vec()));
    assert_eq!(by_archive(count + 1), (Ok(count), [expected, &[STOOD]].concat()));
    if count > 0 {
        assert_eq!(by_archive(count - 1), (Err(16), vec![STOOD; count - 1]));
    }
    let answer = Archive.improve(&table, &mut masks.to_vec(), &mut own.clone(), &mut own.clone(), &mut room(), kinds);
    assert_eq!(answer, Ok(improved(&best, own[0])));
}

/// In plan A's masks port 1 is in S and T and not in I. Where no move of a kind mends that, those that do no harm are listed.
#[test]
fn best_moves_of_plan_a() {
    let best = |kinds: u32, expected: &[Move], root: u32| best_of(3, PLAN_A, &[3, 7, 1, 0], kinds, expected, root);
    best(15, &[drop(0, 1), drop(1, 1)], 0);
    best(1, &[add(2, 1)], 1);
    best(4, &[transfer(1, 0, 2)], 1);
    best(8, &[swap(0, 1, 2), swap(2, 0, 1)], 1);
    best(13, &[add(2, 1), transfer(1, 0, 2), swap(0, 1, 2), swap(2, 0, 1)], 1);
}

/// The state that examples/plan.c lists: the plan is true and stays so. With every port everywhere none can be added.
#[test]
fn best_moves_of_a_true_plan() {
    best_of(3, PLAN_A, &[1, 7, 1, 0], 15, &[drop(1, 1), drop(1, 2), transfer(1, 0, 1), transfer(1, 0, 2)], 0);
    best_of(3, PLAN_A, &[7, 7, 7, 0], 1, &[], 0);
}

/// Moves of two kinds mend a plan; the kind comes first in the order. Sets that occur alike are told apart by their number.
#[test]
fn equally_good_moves_of_two_kinds() {
    best_of(2, "[ST] #S >= 1", &[0, 1, 0], 15, &[add(0, 0), add(0, 1), transfer(1, 0, 0)], 0);
    best_of(2, "[ST] #S >= 1", &[0, 1, 0], 12, &[transfer(1, 0, 0)], 0);
    best_of(2, "[STI] #S < 1 & #T < 1", &[2, 2, 1, 0], 15, &[drop(0, 1), drop(1, 1), transfer(0, 2, 1), transfer(1, 2, 1)], 1);
}

/// "Improve makes the first of the best."
#[test]
fn improve_makes_the_first() {
    let plan = accepted(3, PLAN_A).plan;
    let (table, mut masks) = (encode(&plan), [3, 7, 1, 0]);
    let mut own = cells(&plan, &masks);
    let best = best_moves(&table, &masks, &own, own.len(), 15).expect("plan A is sound");
    let expected = Improved::Made(drop(0, 1), Numbers { before: 1, after: 0, changed: 8 });
    assert_eq!(improved(&best, own[0]), expected);
    assert_eq!(improved(&best, 0), Improved::NoBetter(0));
    assert_eq!(Archive.improve(&table, &mut masks, &mut own.clone(), &mut own, &mut room(), 15), Ok(expected));
    assert_eq!(masks, [1, 7, 1, 0]);
}

/// "Moves are ordered by kind, S, T, p, q, smaller first."
#[test]
fn legal_moves_rise() {
    let plan = accepted(5, "[STI] #S < 1").plan;
    let all = legal_moves(&plan, &[3, 21, 14, 0], 15);
    let key = |m: &Move| [m.kind, m.s, m.t, m.p, m.q];
    assert!(all.windows(2).all(|two| key(&two[0]) < key(&two[1])));
    assert_eq!([1, 2, 3, 4].map(|kind| all.iter().filter(|m| m.kind == kind).count()), [7, 8, 10, 18]);
}

/// Every port in half of the sets and every set with half of the ports: no plan has more legal moves, and here all leave root 0.
#[test]
fn most_moves() {
    let plan = accepted(64, "[ABCDEFGHIJKLMNOP] #A <= 64").plan;
    let (even, odd) = (u64::MAX / 3, u64::MAX / 3 * 2);
    let masks: Vec<u64> = (0..16).map(|s| if s % 2 == 0 { even } else { odd }).chain([0]).collect();
    let (table, own) = (encode(&plan), cells(&plan, &masks));
    let all = legal_moves(&plan, &masks, 15);
    assert_eq!(all.len(), MOST_MOVES);
    let mut list = vec![STOOD; MOST_MOVES];
    let mut listed = |room: usize| Archive.best_moves(&table, &masks, &own, &mut own.clone(), 15, &mut list[..room]);
    assert_eq!(listed(MOST_MOVES - 1), Err(16));
    assert_eq!(listed(MOST_MOVES), Ok(MOST_MOVES));
    assert_eq!(list, all);
}

/// Kinds, sets and ports that would be known if they were cut to a byte or to 16 bits.
#[test]
fn wide_fields_are_not_cut() {
    let plan = accepted(3, PLAN_A).plan;
    let table = encode(&plan);
    let mut masks = [3, 7, 1, 0];
    let mut own = cells(&plan, &masks);
    let drop = Move { kind: 2, s: 1, t: 0, p: 1, q: 0 };
    for more in [1 << 8, 1 << 16, 1 << 31] {
        for wide in [
            Move { kind: drop.kind + more, ..drop },
            Move { s: drop.s + more, ..drop },
            Move { t: more, ..drop },
            Move { p: drop.p + more, ..drop },
            Move { q: more, ..drop },
        ] {
            assert_eq!(Archive.make_move(&table, &mut masks, &mut own, &mut room(), &wide), Err(14));
            let mut foreign = Journal { records: vec![wide], count: 1 };
            assert_eq!(Archive.undo(&table, &mut masks, &mut own, &mut foreign), Err(14));
        }
        assert_eq!(Archive.improve(&table, &mut masks, &mut own.clone(), &mut own, &mut room(), more + 2), Err(14));
        assert_eq!(Archive.best_moves(&table, &masks, &own.clone(), &mut own, more + 2, &mut [STOOD; 9]), Err(14));
    }
}

#[test]
fn plans_c_to_i() {
    assert_eq!(root(2, "[ST] @x (x/S | x:T) & ?x (x:T & x/S)", &[1, 1, 0]).0, 1);
    assert_eq!(root(1, "[S] ?x x:S", &[0, 0]).0, 1);
    assert_eq!(root(1, "[S] ?x x:S", &[1, 0]).0, 0);
    assert_eq!(root(64, "[S] #S < 0", &[0, 0]).0, 1);
    assert_eq!(root(64, "[S] #S > 64", &[u64::MAX, 0]).0, 1);
    assert_eq!(root(64, "[S] #S = 2", &[0, 0]).0, 2);
    assert_eq!(root(64, "[S] #S = 2", &[15, 0]).0, 2);
    assert_eq!(root(64, "[S] #S != 2", &[3, 0]).0, 1);
}

#[test]
fn large_plans() {
    let sixteen = format!("[S] @x @y ({})", ["x:S"; 16].join(" & "));
    assert_eq!(root(64, &sixteen, &[0, 0]).0, 65_536);
    assert_eq!(root(64, "[S] @x @y @z (x:S & z:S)", &[1, 0]).1, 790_594);
    assert_eq!(number(64, "[S] @x @y @z (x:S & y:S & z:S)"), 9);
}

#[test]
fn refusals() {
    assert_eq!(number(64, "[S] #S <= 64"), 0);
    assert_eq!(number(64, "[S] #S <= 65"), 6);
    assert_eq!(number(64, "[S] #S <= 064"), 3);
    assert_eq!(number(64, "[S] #S<1->#S<2->#S<3"), 3);
    assert_eq!(number(64, "[S] @x @x x:S"), 5);
    assert_eq!(number(64, "[S] #S < 1 - $"), 2);
    assert_eq!(number(0, "$"), 10);
}

/// A tuple read with the innermost variable first would change these cells.
#[test]
fn outermost_counts_most() {
    let plan = accepted(3, "[S] @x @y (x < y | x:S)").plan;
    let own = cells(&plan, &[0, 0]);
    let compare = plan.nodes.iter().position(|n| n.kind == 7).expect("it compares ports");
    assert_eq!(node_cells(&encode(&plan), &own, compare), [1, 0, 0, 1, 1, 0, 1, 1, 1]);
}
