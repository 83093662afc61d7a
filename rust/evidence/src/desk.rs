//! The tables of a list of calls, and what is asked of them: moves, scratch, damage done to them.
use crate::calls::{Journal, Move};
use crate::clauses::clauses;
use crate::forest::damage_plan;
use crate::journals;
use crate::random::{damage_table, masks as random_masks, put_outside, spare, text, too_few_masks, twin, Random};
use crate::second::moves::{legal_moves, own_masks};
use crate::second::penalty::cells as cells_of;
use crate::second::plan::Plan;
use crate::second::table::{decode, encode};
use crate::second::text::read as second_read;

/// The tables of one list. `foreign`: the cells began as any numbers; `over` says in the counts which tables were lent.
#[derive(Clone)]
pub struct Desk {
    pub text: String,
    pub plan: Plan,
    pub table: Vec<u8>,
    pub masks: Vec<u64>,
    pub cells: Vec<u32>,
    pub scratch: Vec<u32>,
    pub journal: Journal,
    pub foreign: bool,
    pub over: &'static str,
}

/// The most cells of a plan, and of the large plans of some short lists, in which improve and the list of best moves take no part:
/// the second evaluator would try their many moves for too long.
pub const MOST_CELLS: usize = 600;
pub const MOST_LARGE: usize = 20_000;

/// How many of a hundred plans are clauses over few sets, in which the parts of a transfer or a swap touch the same cells.
const CLAUSES: usize = 25;

/// How many of a hundred plans have two sets that occur alike.
const TWINS: usize = 40;

impl Desk {
    pub fn large(&self) -> bool {
        self.plan.cells() > MOST_CELLS
    }
}

/// A plan of any depth with so many cells, its tables as a load leaves them, or with cells that hold anything; some words behind. The
/// journal is empty. In some plans two sets occur alike and begin with the same ports, so that moves are equally good; in some of
/// these a further set occurs in no literal, so that moves of different kinds are.
pub fn desk(r: &mut Random, sizes: std::ops::RangeInclusive<usize>) -> Desk {
    let least = r.below(5).saturating_sub(1);
    loop {
        let mut made = if r.chance(CLAUSES) { clauses(r) } else { text(r) };
        let twins = if r.chance(TWINS) { twin(&mut made, r) } else { None };
        if twins.is_some() && r.chance(50) {
            spare(&mut made);
        }
        let bytes = made.bytes(r);
        let Ok(accepted) = second_read(made.u, &bytes, usize::MAX) else { continue };
        let plan = accepted.plan;
        if !sizes.contains(&accepted.cells) || plan.deepest() < least {
            continue;
        }
        let mut masks = random_masks(r, plan.u, plan.n);
        if let Some((one, other)) = twins {
            masks[other] = masks[one];
        }
        let mut cells = cells_of(&plan, &masks);
        let foreign = r.chance(30);
        if foreign {
            scatter(&mut cells, r);
        }
        masks.extend((0..r.below(3)).map(|_| r.word()));
        cells.extend((0..r.below(4)).map(|_| r.word() as u32));
        let text = format!("u {}, {}", plan.u, String::from_utf8_lossy(&bytes));
        let (table, scratch, journal) = (encode(&plan), Vec::new(), journals::empty(r));
        return Desk { text, table, plan, masks, cells, scratch, journal, foreign, over: "" };
    }
}

/// A legal move, of any kind that has one.
pub fn legal_move(plan: &Plan, masks: &[u64], r: &mut Random) -> Option<Move> {
    let legal = legal_moves(plan, masks, 15);
    let kind = 1 + r.below(4) as u32;
    let of_kind: Vec<&Move> = legal.iter().filter(|m| m.kind == kind).collect();
    match (legal.len(), of_kind.len()) {
        (0, _) => None,
        (all, 0) => Some(legal[r.below(all)]),
        (_, some) => Some(*of_kind[r.below(some)]),
    }
}

/// A move with any fields: mostly legal, at times illegal or unknown, with large values too.
pub fn any_move(plan: &Plan, masks: &[u64], r: &mut Random) -> Move {
    if r.chance(60) {
        if let Some(m) = legal_move(plan, masks, r) {
            return m;
        }
    }
    let past = usize::from(r.chance(50));
    let field = |r: &mut Random, most: usize| if r.chance(3) { r.word() as u32 } else { r.below(most + past) as u32 };
    let kind = field(r, 5);
    let t = if kind == 3 || r.chance(5) { field(r, plan.n) } else { 0 };
    let q = if kind == 4 || r.chance(5) { field(r, plan.u) } else { 0 };
    Move { kind, s: field(r, plan.n), t, p: field(r, plan.u), q }
}

/// Scratch is another table at every call, holds anything, and is at times too short.
pub fn lend_scratch(d: &mut Desk, r: &mut Random) {
    // Damage may leave a table of very many cells: scratch is then too short.
    let total = d.plan.cells().min(MOST_LARGE);
    let length = if r.chance(10) { r.below(total) } else { total + r.below(3) };
    d.scratch = (0..length).map(|_| r.word() as u32).collect();
}

/// Where a list's cells are foreign, half of them hold any number again at times: else a literal does so only until it is first
/// touched, and what a call touches shows nowhere else.
pub fn lend_foreign(d: &mut Desk, r: &mut Random) {
    if d.foreign && r.chance(30) {
        scatter(&mut d.cells, r);
    }
}

fn scatter(cells: &mut [u32], r: &mut Random) {
    cells.iter_mut().for_each(|c| *c = if r.chance(50) { r.word() as u32 } else { *c });
}

/// The tables of a list with damage done: too short, a port of u or more in a set or in test, or a plan table with any change, which may leave it sound.
/// Half of them come with a journal that no list has made.
pub fn damaged(d: &Desk, r: &mut Random) -> Desk {
    let mut b = Desk { foreign: true, over: " over damaged tables", ..d.clone() };
    match r.below(7) {
        0 => b.table.truncate(r.below(b.table.len())),
        1 => b.masks.truncate(too_few_masks(r, d.plan.n)),
        2 => b.cells.truncate(r.below(d.plan.cells())),
        3 | 4 if d.plan.u < 64 => put_outside(r, &mut b.masks, d.plan.u, d.plan.n),
        5 => b.table = encode(&damage_plan(&d.plan, r)),
        _ => damage_table(&mut b.table, r),
    }
    if let Some(plan) = decode(&b.table) {
        // Half of the plans that came of it get the masks and cells that they ask for.
        if r.chance(50) && plan.cells() <= 2 * MOST_CELLS {
            b.masks.resize(b.masks.len().max(own_masks(&plan)), 0);
            b.cells.resize(b.cells.len().max(plan.cells()), 7);
        }
        b.plan = plan;
    }
    if r.chance(50) {
        b.journal = journals::foreign(&d.plan, &d.masks, r);
    }
    b
}

/// The tables of a list with a journal that no list has made.
pub fn with_foreign_journal(d: &Desk, r: &mut Random) -> Desk {
    Desk { journal: journals::foreign(&d.plan, &d.masks, r), foreign: true, over: " with a foreign journal", ..d.clone() }
}
