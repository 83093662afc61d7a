//! Compares the engine with the second evaluator on random texts, tables and cells: every answer, every byte and cell, and what
//! stands past a plan's own.
use vuyekhang::raw::{self, Part};

use crate::archive::{load, load_fields, Archive};
use crate::best::{compare_best, wanted_ties, Given};
use crate::calls::{Calls, Loaded};
use crate::counts::Counts;
use crate::damage::{Damage, Target};
use crate::forest::{any_plan, damage_plan};
use crate::in_test::{self, any_call, any_test, compare_test, edge_ports, wanted_tests, Asked};
use crate::lent::{same, Compared, Lent};
use crate::random::{any_bytes, any_kinds, damage_table, masks, put_outside, too_few_masks, Random};
use crate::reading::{compare_read, one_text, wanted_deep};
use crate::second::formula::RELATIONS;
use crate::second::moves::{legal_moves, tables};
use crate::second::penalty::{cells as cells_of, text_true};
use crate::second::plan::Plan;
use crate::second::table::{decode, encode, judge, RULES};
use crate::second::text::Accepted;
use crate::writing::{compare_write, wanted_writings};

/// The tables of one load: a plan table, masks and a cell table that holds anything.
struct Tables {
    table: Vec<u8>,
    masks: Vec<u64>,
    cells: Vec<u32>,
}

/// Masks and cells for a plan, at times too short or with a port of u or more; words past the plan's own hold anything.
fn tables_for(plan: &Plan, table: Vec<u8>, r: &mut Random) -> Tables {
    let mut own = masks(r, plan.u, plan.n);
    if plan.u < 64 && r.chance(8) {
        put_outside(r, &mut own, plan.u, plan.n);
    }
    // Past the plan's own masks even a port of u or more plays no part.
    own.extend((0..r.below(3)).map(|_| r.word()));
    if r.chance(4) {
        own.truncate(too_few_masks(r, plan.n));
    }
    let total = plan.cells();
    let length = if r.chance(4) { r.below(total) } else { total + r.below(4) };
    Tables { table, masks: own, cells: (0..length).map(|_| r.word() as u32).collect() }
}

/// Loads with both and compares the answer and every cell; then the cells of some nodes.
fn one_load(t: &Tables, r: &mut Random, counts: &mut Counts, damage: &mut Damage) -> Compared<()> {
    let mut cells = Lent::of(&t.cells, r.word() as u32);
    let (mut table, mut masks) = (Lent::of(&t.table, 0xA5), Lent::of(&t.masks, u64::MAX));
    let fields = raw::load(&t.table, &t.masks, &mut t.cells.clone());
    let answer = load(table.part(), masks.part(), cells.part());
    damage.cells(cells.part(), r);
    let expected = tables(&t.table, &t.masks, &[t.cells.len()]).map(|plan| cells_of(&plan, &t.masks));
    let numbers = expected.as_ref().map(|own| Loaded { root: own[0], cells: own.len() }).map_err(|number| *number);
    same("load's answer", &answer, &numbers)?;
    same("load's fields", &fields, &load_fields(numbers))?;
    let own = expected.as_deref().unwrap_or(&[]);
    cells.holds("cells", own)?;
    table.holds("plan table after a load", &[])?;
    masks.holds("masks after a load", &[])?;
    counts.met("loads");
    if own.len() > OFTEN {
        counts.met("loads of many cells");
    }
    counts.met(expected.as_ref().map_or_else(|n| format!("load {n}"), |_| "load accepted".to_string()));
    (0..3).try_for_each(|_| one_part(&t.table, cells.part(), r, counts))?;
    tests(t, r, counts, damage)?;
    one_best(t, r, counts)
}

/// Puts ports in test or takes them out, over the tables as they were before the load: the cells hold anything. A call of a port at the
/// edge, and one of any port, where there is a plan to choose it for.
fn tests(t: &Tables, r: &mut Random, counts: &mut Counts, damage: &mut Damage) -> Compared<()> {
    let plan = decode(&t.table);
    if plan.as_ref().is_some_and(|plan| plan.cells() > OFTEN) {
        return Ok(());
    }
    let at_edge = (any_call(r), edge_ports(plan.as_ref().map_or(64, |plan| plan.u))[r.below(7)]);
    let any = plan.map(|plan| any_test(&plan, &t.masks, r));
    any.into_iter().chain([at_edge]).try_for_each(|asked| one_test(t, asked, r, counts, damage))
}

fn one_test(t: &Tables, asked: Asked, r: &mut Random, counts: &mut Counts, damage: &mut Damage) -> Compared<()> {
    let (mut masks, mut cells) = (t.masks.clone(), t.cells.clone());
    let mut given = in_test::Given { table: &t.table, masks: &mut masks, cells: &mut cells, over: " over any cells" };
    let by = |g: &mut in_test::Given, (call, port): Asked| {
        let answer = Archive.test(g.table, g.masks, g.cells, call, port);
        damage.test(g, port, answer, r)
    };
    compare_test(&mut given, asked, by, counts)
}

/// The most cells, over all moves that it tries, which the second evaluator works out for a list of best moves.
const MOST_TRIED: usize = 3_000;

/// Asks both for the best moves over the tables as they were before the load: the cells hold anything.
fn one_best(t: &Tables, r: &mut Random, counts: &mut Counts) -> Compared<()> {
    let (kinds, total) = (any_kinds(r), t.cells.len());
    let length = if r.chance(10) { r.below(total + 1) } else { total + r.below(3) };
    let scratch: Vec<u32> = (0..length).map(|_| r.word() as u32).collect();
    let tried = |plan: Plan| legal_moves(&plan, &t.masks, kinds).len() * plan.cells();
    if tables(&t.table, &t.masks, &[total, length]).is_ok_and(|plan| tried(plan) > MOST_TRIED) {
        return Ok(());
    }
    let (table, masks, cells, scratch) = (&t.table[..], &t.masks[..], &t.cells[..], &scratch[..]);
    compare_best(&Archive, &Given { table, masks, cells, scratch, kinds, over: " over any cells" }, r, counts)
}

/// Asks both for a node's part of a cell table, here with whatever the table holds.
fn one_part(table: &[u8], cells: &[u32], r: &mut Random, counts: &mut Counts) -> Compared<()> {
    let plan = decode(table);
    let count = plan.as_ref().map_or(8, |p| p.nodes.len());
    let node = if r.chance(5) { r.word() as usize } else { r.below(count + 2) };
    let length = if r.chance(10) { r.below(cells.len() + 1) } else { cells.len() };
    let cells = &cells[..length];
    let answer = raw::node_cells(table, cells, node);
    let (class, expected) = match &plan {
        None => ("broken table", Part { first: 0, count: 0 }),
        Some(p) if length < p.cells() => ("short cells", Part { first: 0, count: 0 }),
        Some(p) if node >= p.nodes.len() => ("no such node", Part { first: 0, count: 0 }),
        Some(p) => ("a part", Part { first: p.firsts()[node], count: p.width(node) }),
    };
    same("node's part", &answer, &expected)?;
    let lent = vuyekhang::node_cells(table, cells, node);
    let part = &cells[expected.first..expected.first + expected.count];
    same("where a node's cells stand", &lent.as_ptr_range(), &part.as_ptr_range())?;
    counts.met(format!("node cells: {class}"));
    Ok(())
}

/// The largest plan whose cells are all recomputed at every load; larger ones only now and then.
const OFTEN: usize = 3_000;
const SOMETIMES: usize = 100_000;

/// One text with the plan that it is read into, and one plan that is made as a table.
pub fn one_round(r: &mut Random, counts: &mut Counts, damage: &mut Damage) -> Compared<()> {
    if let Some(accepted) = one_text(r, counts, damage)? {
        one_read_plan(&accepted, r, counts, damage)?;
    }
    one_made_plan(r, counts, damage)
}

/// A plan's table with some bytes behind it, which play no part.
fn table_of(plan: &Plan, r: &mut Random) -> Vec<u8> {
    let behind = r.below(5);
    [encode(plan), any_bytes(r, behind)].concat()
}

/// Whether a plan with so many cells is loaded.
fn loaded(cells: usize, r: &mut Random) -> bool {
    cells <= OFTEN || cells < SOMETIMES && r.chance(5)
}

/// A table of any shape is written; the same damaged is written and loaded.
fn one_made_plan(r: &mut Random, counts: &mut Counts, damage: &mut Damage) -> Compared<()> {
    let plan = any_plan(r);
    let table = table_of(&plan, r);
    assert_eq!(judge(&table).as_ref(), Ok(&plan), "what is made keeps the rules");
    counts.met("tables made");
    compare_write(&table, r, counts, damage)?;
    if loaded(plan.cells(), r) {
        one_damaged_table(&plan, r, counts, damage)?;
    }
    Ok(())
}

/// Writes the plan of an accepted text, and loads it: its own table, the same damaged, and truth beside the root.
fn one_read_plan(accepted: &Accepted, r: &mut Random, counts: &mut Counts, damage: &mut Damage) -> Compared<()> {
    let plan = &accepted.plan;
    let bytes = table_of(plan, r);
    compare_write(&bytes, r, counts, damage)?;
    if !loaded(accepted.cells, r) {
        return Ok(());
    }
    let t = tables_for(plan, bytes.clone(), r);
    let told = |e: String| format!("{e}\n  masks {:?}, table {bytes:?}", t.masks);
    one_load(&t, r, counts, damage).map_err(told)?;
    if tables(&t.table, &t.masks, &[t.cells.len()]).is_ok() {
        one_truth(accepted, &t.masks, counts)?;
    }
    (0..2).try_for_each(|_| one_damaged_table(plan, r, counts, damage))
}

/// The engine's root is 0 exactly when the text's own tree, arrows and negations included, is true.
fn one_truth(accepted: &Accepted, masks: &[u64], counts: &mut Counts) -> Compared<()> {
    let plan = &accepted.plan;
    let mut cells = vec![0; accepted.cells];
    let root = load(&encode(plan), masks, &mut cells).map_err(|number| format!("a sound plan is refused by {number}"))?.root;
    let holds = text_true(&accepted.tree, plan.u, &accepted.sets, masks, &mut Vec::new());
    same("whether the root is 0", &(root == 0), &holds)?;
    counts.met(if holds { "true" } else { "false" });
    Ok(())
}

/// Half of the damage is to bytes, half to the plan's tree: the first finds what holds the table together, the second the rules
/// behind that.
fn damaged(plan: &Plan, r: &mut Random) -> Vec<u8> {
    if r.chance(50) {
        return encode(&damage_plan(plan, r));
    }
    let mut bytes = encode(plan);
    for _ in 0..1 + r.below(2) {
        damage_table(&mut bytes, r);
    }
    bytes
}

fn one_damaged_table(plan: &Plan, r: &mut Random, counts: &mut Counts, damage: &mut Damage) -> Compared<()> {
    let bytes = damaged(plan, r);
    counts.met("damaged tables");
    // Damage may leave a sound table of many more cells; its own masks and cells are then made for it.
    let now = judge(&bytes);
    counts.met(now.as_ref().map_or_else(|rule| format!("broken: {rule}"), |_| "damaged and sound".to_string()));
    compare_write(&bytes, r, counts, damage)?;
    let fits = now.as_ref().unwrap_or(plan);
    if fits.cells() > SOMETIMES {
        return Ok(());
    }
    let t = tables_for(fits, bytes, r);
    one_load(&t, r, counts, damage).map_err(|e| format!("{e}\n  masks {:?}, cells {}, damaged table {:?}", t.masks, t.cells.len(), t.table))
}

/// Tokens of every kind, and parts of tokens, for texts that are tried one and all.
const TOKENS: [&str; 22] =
    ["@", "?", "~", "(", ")", "&", "|", "->", "<-", "<->", ":", "/", "#", "<", "!=", "-", "x", "y", "S", "T", "0", "65"];

/// What stands before them: the beginnings of a text from which every part of the grammar is a few tokens away.
const BEGINNINGS: [&str; 14] =
    ["", "[", "[S", "[S]", "[S]~", "[S]#S", "[S]#S<0", "[S]#S<0->", "[S]@x", "[S]@x x", "[S]@x x:S", "[S]@x x:S&", "[S]@x@y", "[S]@x(x:S|"];

/// Reads every beginning and so many tokens behind it with both, with no blanks or one between two tokens.
pub fn short_texts(tokens: usize, counts: &mut Counts) -> Compared<()> {
    let most = TOKENS.len().pow(tokens as u32);
    (0..most).try_for_each(|which| {
        let chosen: Vec<&str> = (0..tokens).map(|i| TOKENS[which / TOKENS.len().pow(i as u32) % TOKENS.len()]).collect();
        let behind = ["", " "].map(|blank| chosen.join(blank));
        BEGINNINGS.iter().try_for_each(|start| behind.iter().try_for_each(|end| short_text(&format!("{start}{end}"), counts)))
    })
}

/// Reads a text with both, and writes the plan where it is accepted.
fn short_text(text: &str, counts: &mut Counts) -> Compared<()> {
    let (mut r, mut damage) = (Random::new(0), Damage::to(Target::Nothing));
    let answer = compare_read(2, text.as_bytes(), 64, &mut r, &mut damage)?;
    counts.met(answer.as_ref().map_or_else(|n| format!("read {n:02}"), |_| "read accepted".to_string()));
    answer.map_or(Ok(()), |accepted| compare_write(&encode(&accepted.plan), &mut r, counts, &mut damage))
}

/// Classes of the calls that exist today and how often each must be met.
pub fn missed(counts: &Counts) -> Vec<String> {
    let mut wanted: Vec<(String, u64)> = vec![("read accepted".into(), counts.of("texts") * 30 / 100)];
    wanted.extend((1..=10).chain([12]).map(|n| (format!("read {n:02}"), 100)));
    wanted.extend((11..=13).map(|n| (format!("load {n}"), 100)));
    wanted.extend(RULES.map(|rule| (format!("broken: {rule}"), 20)));
    wanted.extend((0..=3).map(|d| (format!("depth {d}"), 100)));
    wanted.extend((1..=16).map(|n| (format!("sets {n:02}"), 20)));
    wanted.extend((1..=64).map(|u| (format!("ports {u:02}"), 10)));
    wanted.extend(RELATIONS.iter().flat_map(|r| [format!("size {r}"), format!("ports compared by {r}")]).map(|c| (c, 100)));
    wanted.extend(["load accepted", "true", "false", "damaged and sound"].map(|c| (c.to_string(), 100)));
    wanted.push(("loads of many cells".to_string(), 20));
    wanted.extend((11..=14).chain([16]).map(|n| (format!("best moves over any cells: refused {n}"), 100)));
    wanted.push(("best moves over any cells: listed".to_string(), 100));
    wanted.extend(wanted_tests(" over any cells", &[11, 12, 13, 14, 20]));
    wanted.extend(wanted_deep());
    wanted.extend(wanted_ties());
    wanted.extend(wanted_writings());
    wanted.extend(["broken table", "short cells", "no such node", "a part"].map(|c| (format!("node cells: {c}"), 100)));
    wanted
        .into_iter()
        .filter(|(class, least)| counts.of(class) < *least)
        .map(|(class, least)| format!("{class}: met {} times, not {least}", counts.of(&class)))
        .collect()
}
