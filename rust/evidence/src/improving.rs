//! Improve and the list of best moves of the plain engine, whose candidates share work, beside the archive's and the second evaluator's.
//!
//! Over plans of `clauses` and any others, from a load or from cells that hold anything, with ports in test: the answers, masks and cells
//! of improve in both ways; every best move; and for every candidate the root that trial answers, since improve shows the least alone.
use vuyekhang::MOST_TABLE;

use crate::archive::{load, read, Archive};
use crate::calls::{Calls, Improved, Journal, Move};
use crate::clauses::{cases, clauses, CASES};
use crate::counts::Counts;
use crate::lent::{same, same_table, Compared};
use crate::plain::{self, Way};
use crate::random::{masks as random_masks, text, Random};
use crate::second::moves::{best_moves, improved, Tried};
use crate::second::plan::Plan;
use crate::second::table::decode;

/// The most cells of a plan, and the most cells times candidates for which the second evaluator is asked.
const MOST_CELLS: usize = 1_500;
const MOST_WORK: usize = 20_000;

/// How many improves are made over one plan.
const IMPROVES: usize = 3;

struct Given {
    text: String,
    plan: Plan,
    table: Vec<u8>,
    masks: Vec<u64>,
    cells: Vec<u32>,
    from: &'static str,
}

/// A plan with its tables; none where the text is refused or has too many cells.
fn given(r: &mut Random) -> Option<Given> {
    let made = if r.chance(80) { clauses(r) } else { text(r) };
    let bytes = made.bytes(r);
    let mut table = vec![0; MOST_TABLE];
    let answer = read(made.u, &bytes, &mut table).ok().filter(|answer| answer.cells <= MOST_CELLS)?;
    table.truncate(9 + 8 * answer.nodes);
    let plan = decode(&table).expect("what is read is sound");
    let masks = random_masks(r, plan.u, plan.n);
    let mut cells = vec![0; answer.cells];
    load(&table, &masks, &mut cells).expect("the tables are sound");
    let from = if r.chance(40) {
        let often = r.one_of(&[10, 50, 100]);
        let shift = r.below(32);
        cells.iter_mut().for_each(|c| *c = if r.chance(often) { r.word() as u32 >> shift } else { *c });
        "from foreign cells"
    } else {
        "from a load"
    };
    let text = format!("u {}, {}", plan.u, String::from_utf8_lossy(&bytes));
    Some(Given { text, plan, table, masks, cells, from })
}

/// Some improves over one plan.
pub fn one_plan(r: &mut Random, counts: &mut Counts) -> Compared<()> {
    let Some(mut g) = given(r) else { return Ok(()) };
    counts.met("plans");
    let mut met = cases(&g.plan);
    met.extend([g.from, if g.masks[g.plan.n] == 0 { "no port in test" } else { "ports in test" }]);
    for _ in 0..IMPROVES {
        let kinds = if r.chance(50) { 1 << r.below(4) } else { 1 + r.below(15) as u32 };
        let tables = format!("masks {:?}, cells {:?}, table {:?}", g.masks, g.cells, g.table);
        let told = |e: String, text: &str| format!("{e}\n  {text}, kinds {kinds}, {tables}");
        let answer = one_improve(&mut g, kinds, counts).map_err(|e| told(e, &g.text))?;
        counts.met("improves");
        met.iter().for_each(|case| counts.met(format!("improves: {case}")));
        if let Improved::Made(m, _) = answer {
            counts.met(format!("improves: made {}", ["add", "drop", "transfer", "swap"][m.kind as usize - 1]));
        }
    }
    Ok(())
}

/// One improve in every way; the tables are then those after it.
fn one_improve(g: &mut Given, kinds: u32, counts: &mut Counts) -> Compared<Improved> {
    let candidates = each_root(g, kinds)?;
    let scratch = vec![0; g.cells.len()];
    let best = (candidates * g.cells.len() <= MOST_WORK).then(|| {
        counts.met("improves beside the second evaluator");
        best_moves(&g.table, &g.masks, &g.cells, scratch.len(), kinds).expect("sound tables")
    });
    listed(g, kinds, candidates, best.as_deref())?;
    let expected = best.map(|best| improved(&best, g.cells[0]));
    let mut journal = Journal { records: vec![Move::default(); 1], count: 0 };
    let (mut masks, mut cells) = (g.masks.clone(), g.cells.clone());
    let answer = Archive.improve(&g.table, &mut masks, &mut cells, &mut scratch.clone(), &mut journal, kinds).expect("sound tables");
    same("the archive's improve", &answer, &expected.unwrap_or(answer))?;
    for way in [None, Some(Way::Walks), Some(Way::Shared)] {
        let (mut ms, mut cs) = (g.masks.clone(), g.cells.clone());
        let own = match way {
            None => plain::improve(&g.table, &mut ms, &mut cs, &scratch, kinds),
            Some(way) => plain::improve_in(way, &g.table, &mut ms, &mut cs, &scratch, kinds),
        };
        same(&format!("improve {way:?}"), &own, &Ok(answer))?;
        same_table("masks after it", &ms, &masks)?;
        same_table("cells after it", &cs, &cells)?;
    }
    (g.masks, g.cells) = (masks, cells);
    Ok(answer)
}

/// Every candidate's root is trial's; answers how many there are.
fn each_root(g: &Given, kinds: u32) -> Compared<usize> {
    let mut scratch = vec![0; g.cells.len()];
    let roots = |way| plain::roots(way, &g.table, &g.masks, &g.cells, kinds).expect("sound tables");
    let (walked, shared) = (roots(Way::Walks), roots(Way::Shared));
    same_table("roots with shared work, beside those by walks", &shared, &walked)?;
    for (m, left) in &shared {
        let tried = Archive.trial(&g.table, &g.masks, &g.cells, &mut scratch, m).map(|numbers| numbers.after);
        same(&format!("root after {m:?}"), &Ok(*left), &tried)?;
    }
    Ok(shared.len())
}

/// The list of best moves is the archive's and, where it was asked, the second evaluator's; a list with one place too few is refused.
fn listed(g: &Given, kinds: u32, room: usize, expected: Option<&[Tried]>) -> Compared<()> {
    let mut scratch = vec![0; g.cells.len()];
    let [mut own, mut list] = [vec![Move::default(); room], vec![Move::default(); room]];
    let count = Archive.best_moves(&g.table, &g.masks, &g.cells, &mut scratch, kinds, &mut list);
    let mut ours = |length: usize| plain::best_moves(&g.table, &g.masks, &g.cells, &scratch, kinds, &mut own[..length]);
    same("count of best moves", &ours(room), &count)?;
    let count = count.expect("there is room for all");
    if count > 0 {
        same("a list too short", &ours(count - 1), &Err(16))?;
    }
    same_table("best moves", &own, &list)?;
    let second = expected.map(|best| best.iter().map(|(m, _)| *m).collect());
    same_table("best moves of the second evaluator", &list[..count], &second.unwrap_or(list[..count].to_vec()))
}

/// What a run must meet beside the cases of plans.
const OTHERS: [&str; 8] =
    ["ports in test", "no port in test", "from a load", "from foreign cells", "made add", "made drop", "made transfer", "made swap"];

/// The cases that not one in a hundred improves has met.
pub fn missed(counts: &Counts) -> Vec<String> {
    let seldom = |case: &&&str| counts.of(&format!("improves: {case}")) * 100 <= counts.of("improves");
    CASES.iter().chain(&OTHERS).filter(seldom).map(|case| case.to_string()).collect()
}
