//! The plain engine answers as the archive does, and leaves the same masks and cells: over the measured plans and random ones.
use evidence::archive::{load, load_fields, read, read_fields, Archive};
use evidence::bench::plans::{opposite, plans};
use evidence::calls::{Calls, Journal, Loaded, Move, Test};
use evidence::counts::Counts;
use evidence::improving;
use evidence::in_test::any_test;
use evidence::plain::Way;
use evidence::random::{any_text, damage_table, masks as random_masks, text, Random};
use evidence::second::in_test::resized;
use evidence::second::plan::Plan;
use evidence::second::table::decode;
use evidence::{plain, with_stack};
use vuyekhang::{raw, MOST_TABLE};

/// The tables of both engines.
struct Both {
    table: Vec<u8>,
    masks: [Vec<u64>; 2],
    cells: [Vec<u32>; 2],
    scratch: Vec<u32>,
    /// The archive's; the plain engine keeps none.
    journal: Journal,
}

impl Both {
    /// Cells that hold anything, or loaded ones.
    fn new(table: Vec<u8>, masks: Vec<u64>, count: usize) -> Self {
        let cells = vec![0; count];
        let journal = Journal { records: vec![Move::default(); 32], count: 0 };
        Both { table, masks: [masks.clone(), masks], cells: [cells.clone(), cells], scratch: vec![0; count], journal }
    }

    fn same(&self) {
        assert_eq!(self.masks[0], self.masks[1]);
        assert!(self.cells[0] == self.cells[1], "cells differ");
    }

    fn load(&mut self) -> Result<Loaded, u32> {
        let fields = raw::load(&self.table, &self.masks[0], &mut self.cells[0].clone());
        let answer = load(&self.table, &self.masks[0], &mut self.cells[0]);
        assert_eq!(fields, load_fields(answer));
        assert_eq!(answer, plain::load(&self.table, &self.masks[1], &mut self.cells[1]));
        self.same();
        answer
    }

    fn trial(&mut self, m: Move) {
        let answer = Archive.trial(&self.table, &self.masks[0], &self.cells[0], &mut self.scratch, &m);
        assert_eq!(answer, plain::trial(&self.table, &self.masks[1], &self.cells[1], &self.scratch, &m), "trial {m:?}");
        self.same();
    }

    fn make(&mut self, m: Move) {
        let answer = Archive.make_move(&self.table, &mut self.masks[0], &mut self.cells[0], &mut self.journal, &m);
        assert_eq!(answer, plain::make_move(&self.table, &mut self.masks[1], &mut self.cells[1], &m), "move {m:?}");
        self.same();
    }

    fn test(&mut self, call: Test, port: u32) {
        let answer = Archive.test(&self.table, &mut self.masks[0], &mut self.cells[0], call, port);
        let plain = plain::test(&self.table, &mut self.masks[1], &mut self.cells[1], call, port);
        assert_eq!(answer, plain, "{call:?} of port {port}");
        self.same();
    }

    /// Where a call is accepted, it touches every cell of the nodes that the rule names.
    fn touched_by_test(&self, plan: &Plan, call: Test, port: u32) {
        if let Some(count) = plain::touched_by_test(&self.table, &self.masks[1], &self.cells[1], call, port) {
            let named = (0..plan.nodes.len()).filter(|node| resized(plan, &self.masks[1], port as usize, *node));
            assert_eq!(count, named.map(|node| plan.width(node)).sum::<usize>(), "{call:?} of port {port}");
        }
    }

    /// The plain engine's cells are Definition 5's.
    fn are_penalties(&mut self) {
        let now = self.cells[1].clone();
        plain::Checked::of(&self.table).expect("a sound table").recompute(&self.masks[1], &mut self.cells[1]);
        assert!(now == self.cells[1], "cells after a call are penalties");
    }

    /// The plain engine finds the same root after every candidate in both ways.
    fn same_roots(&self, name: &str) {
        let roots = |way| plain::roots(way, &self.table, &self.masks[1], &self.cells[1], 15).expect(name);
        assert!(roots(Way::Walks) == roots(Way::Shared), "roots of {name} differ");
    }

    fn improve(&mut self, kinds: u32) {
        let answer = Archive.improve(&self.table, &mut self.masks[0], &mut self.cells[0], &mut self.scratch, &mut self.journal, kinds);
        let plain = plain::improve(&self.table, &mut self.masks[1], &mut self.cells[1], &self.scratch, kinds);
        assert_eq!(answer, plain, "improve {kinds}");
        self.same();
    }
}

#[test]
fn measured_plans() {
    with_stack(|| {
        for plan in plans() {
            let mut table = vec![0; MOST_TABLE];
            let answer = read(plan.u, plan.text.as_bytes(), &mut table).expect(plan.name);
            table.truncate(9 + 8 * answer.nodes);
            let held = plan.held_port();
            let mut both = Both::new(table, plan.masks(), answer.cells);
            both.load().expect(plan.name);
            for m in plan.moves {
                both.trial(m);
                both.make(m);
                both.are_penalties();
                both.make(opposite(m));
            }
            for call in [Test::Begin, Test::End] {
                both.test(call, held);
                both.are_penalties();
            }
            both.improve(2);
            both.same_roots(plan.name);
            // Random plans of many ports are not deep: these are, and have any cells and ports in test here.
            let r = &mut Random::new(plan.u);
            both.cells[1].iter_mut().for_each(|c| *c = if r.chance(50) { r.word() as u32 } else { *c });
            *both.masks[1].last_mut().expect("ports in test") = 0x0F0F_0F0F_0F0F_0F0F & u64::MAX >> (64 - plan.u);
            both.same_roots(plan.name);
        }
    });
}

fn any_move(r: &mut Random, u: usize, n: usize) -> Move {
    let kind = r.below(6) as u32;
    let (t, q) = if r.chance(5) { (1, 1) } else { (usize::from(kind == 3), usize::from(kind == 4)) };
    // At times one past the last, which is 14.
    let past = usize::from(r.chance(3));
    let below = |r: &mut Random, most: usize, used: usize| (r.below(most + past) * used) as u32;
    Move { kind, s: below(r, n, 1), t: below(r, n, t), p: below(r, u, 1), q: below(r, u, q) }
}

/// A random plan, from a load or from cells that hold anything.
fn one_plan(r: &mut Random) {
    let made = text(r);
    let mut table = vec![0; MOST_TABLE];
    let Some(answer) = read(made.u, &made.bytes(r), &mut table).ok().filter(|answer| answer.cells <= 20_000) else {
        return;
    };
    table.truncate(9 + 8 * answer.nodes);
    let plan = decode(&table).expect("what is read is sound");
    let (u, n) = (plan.u, plan.n);
    let mut both = Both::new(table, random_masks(r, u, n), answer.cells);
    if r.chance(75) {
        both.load().expect("a sound plan");
    } else {
        let cells: Vec<u32> = both.cells[0].iter().map(|_| r.word() as u32 >> r.below(32)).collect();
        both.cells = [cells.clone(), cells];
    }
    for _ in 0..12 {
        let m = any_move(r, u, n);
        both.trial(m);
        both.make(m);
        let (call, port) = any_test(&plan, &both.masks[0], r);
        both.touched_by_test(&plan, call, port);
        both.test(call, port);
    }
    if answer.cells < 2_000 {
        both.improve(r.below(17) as u32);
    }
    damage_table(&mut both.table, r);
    // Accepted or refused, by both alike.
    let _ = both.load();
}

#[test]
fn random_plans() {
    with_stack(|| (1..=8_000).for_each(|seed| one_plan(&mut Random::new(seed))));
}

/// Improve in both ways and the list of best moves, over plans in which the parts of a move meet.
#[test]
fn improves() {
    let counts = with_stack(|| {
        let mut counts = Counts::default();
        for seed in 1..=3_000 {
            let compared = improving::one_plan(&mut Random::new(seed), &mut counts);
            assert_eq!(compared, Ok(()), "seed {seed}");
        }
        counts
    });
    assert_eq!(improving::missed(&counts), Vec::<String>::new());
}

/// Sound texts and damaged ones, with room enough or too little.
#[test]
fn random_texts() {
    with_stack(|| {
        for seed in 1..=20_000 {
            let mut r = Random::new(seed);
            let (u, text) = any_text(&mut r);
            let room = if r.chance(10) { r.below(200) } else { MOST_TABLE };
            let mut tables = [vec![7; room], vec![7; room]];
            let fields = raw::read(u, &text, &mut tables[0].clone());
            let answer = read(u, &text, &mut tables[0]);
            let told = || format!("u {u}, room {room}, text {:?}", String::from_utf8_lossy(&text));
            assert_eq!(fields, read_fields(answer), "{}", told());
            assert_eq!(answer, plain::read(u, &text, &mut tables[1]), "{}", told());
            assert_eq!(tables[0], tables[1], "{}", told());
        }
    });
}
