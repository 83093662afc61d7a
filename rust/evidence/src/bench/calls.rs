//! Each call on one plan: the archive, the plain engine, and recomputing every cell. Answers are compared before they are timed.
use std::hint::black_box;
use std::time::Duration;

use vuyekhang::MOST_TABLE;

use super::clock::{medians, now, timed};
use super::plans::{opposite, Plan, KINDS};
use super::state::State;
use crate::calls::{Improved, Move, Numbers, Read, Test};
use crate::plain::Way;
use crate::{archive, plain};

/// Times in nanoseconds; zero where a call has no such time.
pub struct Line {
    pub call: String,
    pub archive: f64,
    pub plain: f64,
    /// Every cell from scratch by rows, and the root alone by recursion as Definition 5 is written.
    pub by_rows: f64,
    pub by_recursion: f64,
    pub touched: usize,
    pub changed: u32,
}

fn line(call: impl Into<String>, [archive, plain]: [f64; 2]) -> Line {
    Line { call: call.into(), archive, plain, by_rows: 0.0, by_recursion: 0.0, touched: 0, changed: 0 }
}

/// An answer that the compiler must work out.
fn keep<T>(answer: T) {
    black_box(answer);
}

/// Every call on a plan, each printed as soon as it is measured.
pub fn measure(plan: &Plan, state: &State, each: &mut dyn FnMut(&Line)) {
    each(&reading(plan));
    each(&loading(state));
    each(&refusing(state));
    for (m, kind) in plan.moves.into_iter().zip(KINDS) {
        each(&moving(state, m, kind));
    }
    for (m, kind) in plan.moves.into_iter().zip(KINDS) {
        each(&undoing(state, m, kind));
    }
    each(&testing(state, plan.held_port()));
    for (m, kind) in plan.moves.into_iter().zip(KINDS) {
        each(&trying(state, m, kind));
    }
    for (i, kind) in KINDS.into_iter().enumerate() {
        each(&improving(state, 1 << i, kind));
    }
    each(&improving(state, 15, "all kinds"));
}

fn reading(plan: &Plan) -> Line {
    line("read", read_times(plan.u, plan.text.as_bytes()).1)
}

/// A text read by the archive and by the plain engine: what both answer, and the times.
pub fn read_times(u: u64, text: &[u8]) -> (Result<Read, u32>, [f64; 2]) {
    let (mut by_archive, mut by_plain) = (vec![0; MOST_TABLE], vec![0; MOST_TABLE]);
    let answer = archive::read(u, text, &mut by_archive);
    assert_eq!(answer, plain::read(u, text, &mut by_plain));
    assert_eq!(by_archive, by_plain, "plan tables differ");
    let mut archive = |times| timed(times, || keep(archive::read(u, black_box(text), &mut by_archive)));
    let mut plain = |times| timed(times, || keep(plain::read(u, black_box(text), &mut by_plain)));
    (answer, medians([&mut archive, &mut plain]))
}

fn loading(state: &State) -> Line {
    let (mut a, mut p) = (state.clone(), state.clone());
    assert_eq!(archive::load(&a.table, &a.masks, &mut a.cells), plain::load(&p.table, &p.masks, &mut p.cells));
    a.same(&p);
    let mut archive = |times| timed(times, || keep(archive::load(&a.table, black_box(&a.masks), &mut a.cells)));
    let mut plain = |times| timed(times, || keep(plain::load(&p.table, black_box(&p.masks), &mut p.cells)));
    line("load", medians([&mut archive, &mut plain]))
}

/// Recomputing, over a state of its own: what a move saves.
struct Recompute {
    checked: plain::Checked,
    masks: Vec<u64>,
    cells: Vec<u32>,
}

impl Recompute {
    fn of(state: &State) -> Self {
        let checked = plain::Checked::of(&state.table).expect("the table is sound");
        assert_eq!(checked.root_by_definition(&state.masks), state.cells[0]);
        Recompute { checked, masks: state.masks.clone(), cells: state.cells.clone() }
    }

    fn by_rows(&mut self, times: usize) -> Duration {
        timed(times, || keep(self.checked.recompute(black_box(&self.masks), &mut self.cells)))
    }

    fn by_recursion(&self, times: usize) -> Duration {
        timed(times, || keep(self.checked.root_by_definition(black_box(&self.masks))))
    }
}

const UNKNOWN: Move = Move { kind: 0, s: 0, t: 0, p: 0, q: 0 };

/// A move of an unknown kind: what a call costs before it does anything, the check of the table above all.
fn refusing(state: &State) -> Line {
    let (mut a, mut p) = (state.clone(), state.clone());
    assert_eq!(made_by_archive(&mut a, UNKNOWN), made_by_plain(&mut p, UNKNOWN));
    let mut archive = |times| timed(times, || keep(made_by_archive(&mut a, UNKNOWN)));
    let mut plain = |times| timed(times, || keep(made_by_plain(&mut p, UNKNOWN)));
    line("refused (14)", medians([&mut archive, &mut plain]))
}

fn made_by_archive(s: &mut State, m: Move) -> Result<Numbers, u32> {
    s.make_room();
    archive::make_move(&s.table, &mut s.masks, &mut s.cells, &mut s.journal, &mut s.count, black_box(&m))
}

fn made_by_plain(state: &mut State, m: Move) -> Result<Numbers, u32> {
    plain::make_move(&state.table, &mut state.masks, &mut state.cells, black_box(&m))
}

/// Makes a move and its opposite with both and compares; says how many cells the move touches and changes.
fn compared(a: &mut State, p: &mut State, m: Move) -> (usize, u32) {
    let touched = plain::touched(&p.table, &p.masks, &p.cells, &m).expect("the move is legal");
    let answer = made_by_archive(a, m);
    assert_eq!(answer, made_by_plain(p, m));
    a.same(p);
    assert_eq!(made_by_archive(a, opposite(m)), made_by_plain(p, opposite(m)));
    a.same(p);
    (touched, answer.expect("the move is legal").changed)
}

/// A move and its opposite in turn; the time is that of one of them.
fn moving(state: &State, m: Move, kind: &str) -> Line {
    let (mut a, mut p, mut rows, recursion) = (state.clone(), state.clone(), Recompute::of(state), Recompute::of(state));
    let (touched, changed) = compared(&mut a, &mut p, m);
    let both = [m, opposite(m)];
    let mut archive = |times| timed(times, || both.iter().for_each(|m| keep(made_by_archive(&mut a, *m)))) / 2;
    let mut plain = |times| timed(times, || both.iter().for_each(|m| keep(made_by_plain(&mut p, *m)))) / 2;
    let (mut by_rows, mut by_recursion) = (|times| rows.by_rows(times), |times| recursion.by_recursion(times));
    let [archive, plain, by_rows, by_recursion] = medians([&mut archive, &mut plain, &mut by_rows, &mut by_recursion]);
    a.same(&p);
    Line { by_rows, by_recursion, touched, changed, ..line(format!("move {kind}"), [archive, plain]) }
}

/// Undo of a move and of its opposite in turn, beside the plain engine that makes the same moves; the time is that of one of them.
fn undoing(state: &State, m: Move, kind: &str) -> Line {
    let (mut a, mut p) = (state.clone(), state.clone());
    let back = opposite(m);
    let filled = |s: &mut State| s.fill_journal(archive::record(&m), archive::record(&back));
    filled(&mut a);
    let undone_by_archive = |a: &mut State| {
        if a.count == 0 {
            filled(a);
        }
        archive::undo(&a.table, &mut a.masks, &mut a.cells, &a.journal, &mut a.count)
    };
    let (touched, changed) = compared(&mut state.clone(), &mut p, m);
    // The newest record is the opposite, so that the move itself is made first.
    let both = [m, back];
    for m in both {
        assert_eq!(undone_by_archive(&mut a), made_by_plain(&mut p, m));
        a.same(&p);
    }
    let mut archive = |times| timed(times, || both.iter().for_each(|_| keep(undone_by_archive(&mut a)))) / 2;
    let mut plain = |times| timed(times, || both.iter().for_each(|m| keep(made_by_plain(&mut p, *m)))) / 2;
    let times = medians([&mut archive, &mut plain]);
    a.same(&p);
    Line { touched, changed, ..line(format!("undo {kind}"), times) }
}

fn tested_by_archive(s: &mut State, call: Test, port: u32) -> Result<Numbers, u32> {
    archive::test(&s.table, &mut s.masks, &mut s.cells, call, black_box(port))
}

fn tested_by_plain(s: &mut State, call: Test, port: u32) -> Result<Numbers, u32> {
    plain::test(&s.table, &mut s.masks, &mut s.cells, call, black_box(port))
}

/// A port put in test and taken out in turn; the time is that of one of both.
fn testing(state: &State, port: u32) -> Line {
    let (mut a, mut p, mut rows, recursion) = (state.clone(), state.clone(), Recompute::of(state), Recompute::of(state));
    let touched = plain::touched_by_test(&p.table, &p.masks, &p.cells, Test::Begin, port).expect("no port is in test");
    let both = [Test::Begin, Test::End];
    let [begun, _] = both.map(|call| {
        let answer = tested_by_archive(&mut a, call, port);
        assert_eq!(answer, tested_by_plain(&mut p, call, port));
        a.same(&p);
        answer.expect("the port's condition is the other one")
    });
    let mut archive = |times| timed(times, || both.iter().for_each(|call| keep(tested_by_archive(&mut a, *call, port)))) / 2;
    let mut plain = |times| timed(times, || both.iter().for_each(|call| keep(tested_by_plain(&mut p, *call, port)))) / 2;
    let (mut by_rows, mut by_recursion) = (|times| rows.by_rows(times), |times| recursion.by_recursion(times));
    let [archive, plain, by_rows, by_recursion] = medians([&mut archive, &mut plain, &mut by_rows, &mut by_recursion]);
    a.same(&p);
    Line { by_rows, by_recursion, touched, changed: begun.changed, ..line("test begin, end", [archive, plain]) }
}

fn trying(state: &State, m: Move, kind: &str) -> Line {
    let (mut a, mut p, mut rows, recursion) = (state.clone(), state.clone(), Recompute::of(state), Recompute::of(state));
    let (touched, changed) = compared(&mut a, &mut p, m);
    let mut by_archive = || archive::trial(&a.table, &a.masks, &a.cells, &mut a.scratch, black_box(&m));
    let by_plain = || plain::trial(&p.table, &p.masks, &p.cells, &p.scratch, black_box(&m));
    assert_eq!(by_archive(), by_plain());
    let mut archive = |times| timed(times, || keep(by_archive()));
    let mut plain = |times| timed(times, || keep(by_plain()));
    let (mut by_rows, mut by_recursion) = (|times| rows.by_rows(times), |times| recursion.by_recursion(times));
    let [archive, plain, by_rows, by_recursion] = medians([&mut archive, &mut plain, &mut by_rows, &mut by_recursion]);
    Line { by_rows, by_recursion, touched, changed, ..line(format!("trial {kind}"), [archive, plain]) }
}

/// A move beside a refused one, sampled in turn.
pub struct Parts {
    pub touched: usize,
    pub archive: f64,
    pub refused: f64,
    pub plain: f64,
    pub plain_refused: f64,
}

pub fn parts(state: &State, m: Move) -> Parts {
    let (mut a, mut p) = (state.clone(), state.clone());
    let (touched, _) = compared(&mut a, &mut p, m);
    let (mut idle_a, mut idle_p) = (state.clone(), state.clone());
    let both = [m, opposite(m)];
    let mut archive = |times| timed(times, || both.iter().for_each(|m| keep(made_by_archive(&mut a, *m)))) / 2;
    let mut refused = |times| timed(times, || keep(made_by_archive(&mut idle_a, UNKNOWN)));
    let mut plain = |times| timed(times, || both.iter().for_each(|m| keep(made_by_plain(&mut p, *m)))) / 2;
    let mut plain_refused = |times| timed(times, || keep(made_by_plain(&mut idle_p, UNKNOWN)));
    let [archive, refused, plain, plain_refused] = medians([&mut archive, &mut refused, &mut plain, &mut plain_refused]);
    Parts { touched, archive, refused, plain, plain_refused }
}

/// Only the improve is timed; the move that it made is then taken back.
pub fn improved(state: &mut State, times: usize, improve: &mut dyn FnMut(&mut State) -> Result<Improved, u32>) -> Duration {
    let mut total = Duration::ZERO;
    for _ in 0..times {
        let start = now();
        let answer = black_box(improve(state));
        total += now() - start;
        if let Ok(Improved::Made(m, _)) = answer {
            made_by_plain(state, opposite(m)).expect("the move is legal");
        }
    }
    total
}

fn improving(state: &State, kinds: u32, name: &str) -> Line {
    let (mut a, mut p) = (state.clone(), state.clone());
    let mut by_archive = |s: &mut State| {
        s.make_room();
        archive::improve(&s.table, &mut s.masks, &mut s.cells, &mut s.scratch, &mut s.journal, &mut s.count, kinds)
    };
    let mut by_plain = |s: &mut State| plain::improve(&s.table, &mut s.masks, &mut s.cells, &s.scratch, kinds);
    let answer = by_archive(&mut a);
    assert_eq!(answer, by_plain(&mut p));
    a.same(&p);
    (a, p) = (state.clone(), state.clone());
    let mut archive = |times| improved(&mut a, times, &mut by_archive);
    let mut plain = |times| improved(&mut p, times, &mut by_plain);
    let times = medians([&mut archive, &mut plain]);
    let changed = if let Ok(Improved::Made(_, numbers)) = answer { numbers.changed } else { 0 };
    Line { changed, ..line(format!("improve {name}"), times) }
}

/// The plain engine's improve: each candidate walked, work shared among them, and as it chooses between the two.
pub struct Ways {
    pub kinds: &'static str,
    pub candidates: usize,
    pub walks: f64,
    pub shared: f64,
    pub chosen: f64,
}

pub fn improve_ways(state: &State) -> Vec<Ways> {
    let kinds = KINDS.into_iter().enumerate().map(|(i, name)| (1 << i, name));
    kinds.chain([(15, "all kinds")]).map(|(kinds, name)| ways_of(state, kinds, name)).collect()
}

fn ways_of(state: &State, kinds: u32, name: &'static str) -> Ways {
    let in_way = |way: Way| move |s: &mut State| plain::improve_in(way, &s.table, &mut s.masks, &mut s.cells, &s.scratch, kinds);
    let (mut by_walks, mut by_differences) = (in_way(Way::Walks), in_way(Way::Shared));
    let mut by_choice = |s: &mut State| plain::improve(&s.table, &mut s.masks, &mut s.cells, &s.scratch, kinds);
    let [mut a, mut b, mut c] = [state.clone(), state.clone(), state.clone()];
    assert_eq!(by_walks(&mut a), by_differences(&mut b));
    a.same(&b);
    let roots = plain::roots(Way::Shared, &state.table, &state.masks, &state.cells, kinds).expect("the tables are sound");
    [a, b] = [state.clone(), state.clone()];
    let mut walks = |times| improved(&mut a, times, &mut by_walks);
    let mut shared = |times| improved(&mut b, times, &mut by_differences);
    let mut chosen = |times| improved(&mut c, times, &mut by_choice);
    let [walks, shared, chosen] = medians([&mut walks, &mut shared, &mut chosen]);
    Ways { kinds: name, candidates: roots.len(), walks, shared, chosen }
}
