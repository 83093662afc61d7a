//! Ports in test (request 2026-05 of paper 02), reading by reading, through the archive and through the second evaluator.
use evidence::archive::{load, Archive};
use evidence::calls::{Calls, Improved, Journal, Loaded, Move, Numbers, Test};
use evidence::in_test::edge_ports;
use evidence::lists::Second;
use evidence::second::penalty::{cells, text_true};
use evidence::second::plan::{Plan, SIZE};
use evidence::second::table::encode;
use evidence::second::text::{read, Accepted};

const BOTH: [&dyn Calls; 2] = [&Archive, &Second];

fn accepted(u: u64, text: &str) -> Accepted {
    read(u, text.as_bytes(), usize::MAX).unwrap_or_else(|n| panic!("{text} is refused: {n}"))
}

/// The tables of a plan, and an empty journal.
#[derive(Debug, Clone, PartialEq)]
struct Tables {
    plan: Plan,
    table: Vec<u8>,
    masks: Vec<u64>,
    cells: Vec<u32>,
    journal: Journal,
}

impl Tables {
    /// As a load leaves them, by both.
    fn of(u: u64, text: &str, masks: &[u64]) -> Self {
        let Accepted { plan, tree, sets, .. } = accepted(u, text);
        let (table, own) = (encode(&plan), cells(&plan, masks));
        let mut loaded = vec![7; own.len()];
        assert_eq!(load(&table, masks, &mut loaded), Ok(Loaded { root: own[0], cells: own.len() }));
        assert_eq!(loaded, own);
        assert_eq!(own[0] == 0, text_true(&tree, plan.u, &sets, masks, &mut Vec::new()));
        let journal = Journal { records: vec![Move::default(); 4], count: 0 };
        Tables { plan, table, masks: masks.to_vec(), cells: own, journal }
    }

    /// With cells that are no penalties: each is its own place and more.
    fn foreign(u: u64, text: &str, masks: &[u64]) -> Self {
        let mut t = Tables::of(u, text, masks);
        t.cells.iter_mut().enumerate().for_each(|(at, cell)| *cell = 1_000 + at as u32);
        t
    }

    fn test(&mut self, calls: &dyn Calls, call: Test, port: u32) -> Result<Numbers, u32> {
        calls.test(&self.table, &mut self.masks, &mut self.cells, call, port)
    }

    /// The number of a refused call, which has written nothing.
    fn refused(&self, calls: &dyn Calls, call: Test, port: u32) -> u32 {
        let mut after = self.clone();
        let number = after.test(calls, call, port).expect_err("a refusal");
        assert_eq!(after, *self);
        number
    }

    fn make(&mut self, calls: &dyn Calls, m: &Move) -> Result<Numbers, u32> {
        calls.make_move(&self.table, &mut self.masks, &mut self.cells, &mut self.journal, m)
    }

    fn undo(&mut self, calls: &dyn Calls) -> Result<Numbers, u32> {
        calls.undo(&self.table, &mut self.masks, &mut self.cells, &mut self.journal)
    }

    /// Every cell is its penalty under the present masks.
    fn true_cells(&self) {
        assert_eq!(self.cells, cells(&self.plan, &self.masks));
    }

    /// The nodes with a cell that is not its number in `before`.
    fn written(&self, before: &[u32]) -> Vec<usize> {
        let firsts = self.plan.firsts();
        (0..self.plan.nodes.len()).filter(|i| self.cells[firsts[*i]..firsts[i + 1]] != before[firsts[*i]..firsts[i + 1]]).collect()
    }
}

/// "A group of four with one port under line test delivers three."
#[test]
fn a_group_of_four_delivers_three() {
    for calls in BOTH {
        let mut t = Tables::of(8, "[G] #G = 4", &[0b1111, 0]);
        assert_eq!(t.test(calls, Test::Begin, 2), Ok(Numbers { before: 0, after: 1, changed: 2 }));
        assert_eq!(t.masks, [0b1111, 0b100]);
        // A port that the group does not hold changes no size.
        assert_eq!(t.test(calls, Test::Begin, 7), Ok(Numbers { before: 1, after: 1, changed: 0 }));
        assert_eq!(t.masks, [0b1111, 0b1000_0100]);
        assert_eq!(t.test(calls, Test::Begin, 0), Ok(Numbers { before: 1, after: 2, changed: 2 }));
        t.true_cells();
    }
}

/// "Membership is unaffected": in and not in, alone and under each quantifier, beside a size that changes.
#[test]
fn membership_is_unaffected() {
    let texts = ["[S] @x x:S & #S >= 0", "[S] ?x x:S & #S >= 0", "[S] @x x/S & #S >= 0", "[S] ?x x/S & #S >= 0"];
    for (calls, text) in BOTH.into_iter().flat_map(|calls| texts.map(|text| (calls, text))) {
        for set in 0..8 {
            let mut t = Tables::of(3, text, &[set, 0]);
            let before = t.cells.clone();
            for port in 0..3 {
                let numbers = Numbers { before: before[0], after: before[0], changed: 0 };
                assert_eq!(t.test(calls, Test::Begin, port), Ok(numbers), "{text} with {set:03b}");
            }
            assert_eq!((&t.cells, &t.masks), (&before, &vec![set, 7]));
        }
    }
}

/// "they touch every size literal whose set holds it, and its ancestors": of both sets, under a quantifier at every tuple, and no other
/// node, which foreign cells show. Nodes: 0 root, 1 "and", 2 #S, 3 #T, 4 #R, 5 for all, 6 "or", 7 #T, 8 x:S.
#[test]
fn sizes_of_the_holding_sets_are_touched() {
    let text = "[STR] #S = 1 & #T = 2 & #R = 3 & @x (#T < 2 | x:S)";
    for calls in BOTH {
        for (port, nodes) in [(0, vec![0, 1, 2, 3, 5, 6, 7]), (1, vec![0, 1, 3, 5, 6, 7]), (2, vec![0, 1, 4]), (3, vec![])] {
            let mut t = Tables::foreign(4, text, &[0b0001, 0b0011, 0b0100, 0]);
            let before = t.cells.clone();
            let numbers = t.test(calls, Test::Begin, port).expect("the port is not in test");
            assert_eq!(t.written(&before), nodes, "port {port}");
            let differ = t.cells.iter().zip(&before).filter(|(new, old)| new != old).count();
            assert_eq!((numbers.before, numbers.after, numbers.changed), (before[0], t.cells[0], differ as u32));
            let firsts = t.plan.firsts();
            for i in nodes.into_iter().filter(|i| t.plan.nodes[*i].kind == SIZE) {
                let own = cells(&t.plan, &t.masks);
                assert_eq!(t.cells[firsts[i]..firsts[i + 1]], own[firsts[i]..firsts[i + 1]], "a literal is made afresh");
            }
        }
    }
}

/// Sums by difference modulo 2^32, minima and the root afresh: "written as a move's are".
#[test]
fn sums_of_foreign_cells() {
    for calls in BOTH {
        // Nodes: 0 root, 1 "and", 2 #S, 3 #S.
        let mut t = Tables::of(2, "[S] #S = 2 & #S < 9", &[0b11, 0]);
        t.cells = vec![50, 3, 7, 0];
        assert_eq!(t.test(calls, Test::Begin, 1), Ok(Numbers { before: 50, after: 3u32.wrapping_sub(6), changed: 3 }));
        assert_eq!(t.cells, [3u32.wrapping_sub(6), 3u32.wrapping_sub(6), 1, 0]);
        // Nodes: 0 root, 1 "or", 2 #S, 3 #T.
        let mut t = Tables::of(2, "[ST] #S = 2 | #T = 5", &[0b11, 0, 0]);
        t.cells = vec![50, 60, 70, 80];
        assert_eq!(t.test(calls, Test::Begin, 1), Ok(Numbers { before: 50, after: 1, changed: 3 }));
        assert_eq!(t.cells, [1, 1, 1, 80]);
    }
}

/// 11, 12, 13, 14, 20 in this order, each with all later ones standing by.
#[test]
fn order_of_grounds() {
    let text = "[ST] #S = 1 & @x (x:S <-> x:T)";
    // Port 0 is in test and port 1 is not: both calls meet 20.
    let so = [(Test::Begin, 0), (Test::End, 1)];
    for (calls, (call, port)) in BOTH.into_iter().flat_map(|calls| so.map(|asked| (calls, asked))) {
        let sound = Tables::of(3, text, &[1, 3, 1]);
        assert_eq!(sound.refused(calls, call, port), 20);
        for unknown in edge_ports(3).into_iter().filter(|port| *port > 2) {
            assert_eq!(sound.refused(calls, call, unknown), 14, "port {unknown}");
        }
        for outside in [vec![9, 3, 1], vec![1, 11, 1], vec![1, 3, 9], vec![1, 3, 1 | 1 << 63]] {
            let t = Tables { masks: outside, ..sound.clone() };
            assert_eq!([t.refused(calls, call, port), t.refused(calls, call, 3)], [13; 2], "{:?}", t.masks);
        }
        for few in [vec![], vec![1], vec![9, 3]] {
            let t = Tables { masks: few, ..sound.clone() };
            assert_eq!([t.refused(calls, call, port), t.refused(calls, call, 3)], [12; 2], "{:?}", t.masks);
        }
        let short = Tables { cells: sound.cells[1..].to_vec(), masks: vec![9, 3, 9], ..sound.clone() };
        assert_eq!(short.refused(calls, call, 3), 12);
        let broken = Tables { table: sound.table[1..].to_vec(), ..short };
        assert_eq!(broken.refused(calls, call, 3), 11);
    }
}

/// Every other call is lent the mask in test too: 12 without it, 13 with a port of u or more in it.
#[test]
fn every_call_asks_for_the_mask_in_test() {
    let t = Tables::of(3, "[ST] #S = 1 & #T = 1", &[1, 3, 1]);
    let m = Move { kind: 2, s: 1, t: 0, p: 1, q: 0 };
    let full = || Journal { records: vec![m], count: 1 };
    for (masks, number) in [(vec![1, 3], 12), (vec![1, 3, 8], 13)] {
        for calls in BOTH {
            let (mut ms, mut cs, mut scratch) = (masks.clone(), t.cells.clone(), t.cells.clone());
            assert_eq!(calls.make_move(&t.table, &mut ms, &mut cs, &mut t.journal.clone(), &m), Err(number));
            assert_eq!(calls.undo(&t.table, &mut ms, &mut cs, &mut full()), Err(number));
            assert_eq!(calls.trial(&t.table, &ms, &cs, &mut scratch, &m), Err(number));
            assert_eq!(calls.improve(&t.table, &mut ms, &mut cs, &mut scratch, &mut t.journal.clone(), 15), Err(number));
            assert_eq!(calls.best_moves(&t.table, &ms, &cs, &mut scratch, 15, &mut [m; 40]), Err(number));
            assert_eq!((ms, cs), (masks.clone(), t.cells.clone()));
        }
        assert_eq!(load(&t.table, &masks, &mut t.cells.clone()), Err(number));
    }
}

/// Masks past n + 1 are the caller's: ports of u or more there play no part, and nothing is written.
#[test]
fn further_masks_are_the_callers() {
    for calls in BOTH {
        let mut t = Tables::of(3, "[S] #S = 1", &[3, 0]);
        t.masks.extend([u64::MAX, 5]);
        assert_eq!(t.test(calls, Test::Begin, 1), Ok(Numbers { before: 1, after: 0, changed: 2 }));
        assert_eq!(t.masks, [3, 2, u64::MAX, 5]);
    }
}

/// The last port of 64, and a plan of one port.
#[test]
fn last_ports() {
    for (calls, u) in BOTH.into_iter().flat_map(|calls| [1, 2, 63, 64].map(|u| (calls, u))) {
        let mut t = Tables::of(u, "[S] #S >= 1", &[1 << (u - 1), 0]);
        let last = u as u32 - 1;
        assert_eq!(t.refused(calls, Test::Begin, last + 1), 14);
        assert_eq!(t.test(calls, Test::Begin, last), Ok(Numbers { before: 0, after: 1, changed: 2 }));
        assert_eq!(t.masks, [1 << last, 1 << last]);
        assert_eq!(t.test(calls, Test::End, last), Ok(Numbers { before: 1, after: 0, changed: 2 }));
        assert_eq!(t.masks, [1 << last, 0]);
    }
}

/// A begin and its end, for every port and every mask in test: masks and cells are those of before.
#[test]
fn an_end_gives_back_what_a_begin_took() {
    let text = "[ST] @x (x:S -> ?y (y:T & #S > 1 & x < y)) & #T = 2";
    for (calls, in_test) in BOTH.into_iter().flat_map(|calls| (0..8).map(move |in_test| (calls, in_test))) {
        let start = Tables::of(3, text, &[0b110, 0b011, in_test]);
        for port in 0..3 {
            let both = if in_test >> port & 1 == 0 { [Test::Begin, Test::End] } else { [Test::End, Test::Begin] };
            let mut t = start.clone();
            let there = t.test(calls, both[0], port).expect("the port's condition is the other one");
            assert_eq!(t.masks, [0b110, 0b011, in_test ^ 1 << port]);
            t.true_cells();
            let back = t.test(calls, both[1], port).expect("the port's condition is the other one");
            assert_eq!((back.before, back.after, back.changed), (there.after, there.before, there.changed));
            assert_eq!(t, start);
        }
    }
}

/// With every port in test every size is 0, whatever the sets hold.
#[test]
fn every_port_in_test() {
    let text = "[ST] #S = 0 & #T = 0 & @x (#S < 1 & #T < 1)";
    for calls in BOTH {
        let mut t = Tables::of(5, text, &[0b11111, 0b01010, 0]);
        assert_eq!(t.cells[0], 5 + 2 + 5 * (5 + 2));
        for port in 0..5 {
            t.test(calls, Test::Begin, port).expect("the port is not in test");
            t.true_cells();
        }
        assert_eq!((t.cells[0], &t.masks), (0, &vec![0b11111, 0b01010, 0b11111]));
        for call in [Test::Begin, Test::End] {
            assert_eq!(t.refused(calls, call, 5), 14);
        }
    }
}

/// A move of a port in test changes no size and still touches the size literals of its set, which foreign cells show: each is made
/// afresh. Its membership changes.
#[test]
fn a_move_of_a_port_in_test_touches_sizes() {
    let add = Move { kind: 1, s: 0, t: 0, p: 1, q: 0 };
    for calls in BOTH {
        let mut t = Tables::of(2, "[S] #S = 1 & ?x x:S", &[1, 2]);
        // Nodes: 0 root, 1 "and", 2 #S, 3 exists, 4 x:S with two cells.
        assert_eq!(t.make(calls, &add), Ok(Numbers { before: 0, after: 0, changed: 1 }));
        assert_eq!((&t.masks, &t.cells), (&vec![3, 2], &vec![0, 0, 0, 0, 0, 0]));
        let mut t = Tables::foreign(2, "[S] #S = 1", &[1, 2]);
        let mut scratch = t.cells.clone();
        let numbers = Numbers { before: 1_000, after: 0, changed: 2 };
        assert_eq!(calls.trial(&t.table, &t.masks, &t.cells, &mut scratch, &add), Ok(numbers));
        assert_eq!(t.make(calls, &add), Ok(numbers));
        assert_eq!((&t.masks, &t.cells), (&vec![3, 2], &vec![0, 0]));
    }
}

/// "Undo doesn't take them back: it restores the set masks, and the cells are true for the present mask of ports in test."
#[test]
fn undo_leaves_ports_in_test() {
    let add = |p: u32| Move { kind: 1, s: 0, t: 0, p, q: 0 };
    for calls in BOTH {
        let mut t = Tables::of(4, "[S] #S = 2 & @x (x:S | #S < 3)", &[0b0001, 0b0001]);
        t.make(calls, &add(1)).expect("legal");
        t.test(calls, Test::Begin, 1).expect("it is not in test");
        t.make(calls, &add(2)).expect("legal");
        t.test(calls, Test::End, 0).expect("it is in test");
        assert_eq!((&t.masks, t.journal.count), (&vec![0b0111, 0b0010], 2));
        t.undo(calls).expect("a record is left");
        assert_eq!((&t.masks, t.journal.count), (&vec![0b0011, 0b0010], 1));
        t.true_cells();
        t.test(calls, Test::Begin, 3).expect("it is not in test");
        t.undo(calls).expect("a record is left");
        assert_eq!((&t.masks, t.journal.count), (&vec![0b0001, 0b1010], 0));
        t.true_cells();
        // The calls in test have left no record to take back.
        assert_eq!(t.undo(calls), Err(19));
    }
}

/// "not journalled, never 18": between a move that a full journal refuses and the same again, a port goes into test and out.
#[test]
fn a_full_journal_stops_no_test() {
    let add = |p: u32| Move { kind: 1, s: 0, t: 0, p, q: 0 };
    for calls in BOTH {
        let mut t = Tables::of(6, "[S] #S = 4", &[0, 0]);
        assert!((0..4).all(|p| t.make(calls, &add(p)).is_ok()));
        let filled = t.journal.clone();
        for (call, numbers) in
            [(Test::Begin, Numbers { before: 0, after: 1, changed: 2 }), (Test::End, Numbers { before: 1, after: 0, changed: 2 })]
        {
            assert_eq!(t.make(calls, &add(4)), Err(18));
            assert_eq!(t.test(calls, call, 3), Ok(numbers));
            assert_eq!(t.journal, filled);
        }
    }
}

/// Improve counts sizes without the ports in test: of two adds that look alike it makes the one that mends the plan.
#[test]
fn improve_looks_at_ports_in_test() {
    for calls in BOTH {
        let t = Tables::of(3, "[S] #S >= 1", &[0, 0b011]);
        let (mut masks, mut cs, mut scratch) = (t.masks.clone(), t.cells.clone(), t.cells.clone());
        let answer = calls.improve(&t.table, &mut masks, &mut cs, &mut scratch, &mut t.journal.clone(), 1);
        let expected = Move { kind: 1, s: 0, t: 0, p: 2, q: 0 };
        assert!(matches!(answer, Ok(Improved::Made(m, _)) if m == expected), "{answer:?}");
        assert_eq!(masks, [0b100, 0b011]);
    }
}
