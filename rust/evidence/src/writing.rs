//! The text of a plan table (request 2026-02), compared with the second evaluator at every length of the lent text table that matters,
//! and read again.
use std::collections::BTreeSet;

use vuyekhang::raw;

use crate::archive::{count_fields, write};
use crate::counts::Counts;
use crate::damage::Damage;
use crate::lent::{lengths, same, same_table, Compared, Lent};
use crate::random::{any_bytes, Random};
use crate::reading::compare_read;
use crate::second::plan::{Plan, ALL, AND, COMPARE, IN, NOT_IN, OR, ROOT, SIZE, SOME};
use crate::second::table::{decode, encode};
use crate::second::text::{Accepted, LONGEST_TEXT, MOST_AROUND};
use crate::second::write::{text_of, write as second_write, written};

/// A room that would do for the text of most tables, for those that have none.
const ROOM: usize = 200;

/// Has both write a plan table, once for each length of the text table; then reads the text.
pub fn compare_write(table: &[u8], r: &mut Random, counts: &mut Counts, damage: &mut Damage) -> Compared<()> {
    let plan = decode(table);
    let text = plan.as_ref().map(text_of);
    let told = |e: String| format!("{e}\n  text {:?}, table {table:?}", text.as_deref().map(String::from_utf8_lossy));
    let expected = second_write(table);
    let mut all = lengths(text.as_ref().map_or(ROOM, Vec::len), r);
    // Damage ends the round after one call: let it be any of them.
    let first = r.below(all.len());
    all.rotate_left(first);
    all.into_iter().try_for_each(|length| one_length(table, &expected, length, r, counts, damage)).map_err(told)?;
    match (&plan, &text) {
        (Some(plan), Some(text)) => read_again(plan, text, table, r, counts, damage).map_err(told),
        _ => Ok(()),
    }
}

/// The answer by the binding, every field of the raw one, every byte of the text table, and the plan table, which is only read.
fn one_length(
    table: &[u8],
    text: &Result<Vec<u8>, u32>,
    length: usize,
    r: &mut Random,
    counts: &mut Counts,
    damage: &mut Damage,
) -> Compared<()> {
    let before = any_bytes(r, length);
    let (mut lent, mut own) = (Lent::of(&before, r.word() as u8), Lent::of(table, 0xA5));
    let answer = write(own.part(), lent.part());
    damage.text(lent.part(), r);
    let fields = raw::write(table, &mut before.clone());
    let expected = text.as_ref().map_err(|number| *number).and_then(|text| written(text, length));
    let told = |e: String| format!("{e}\n  a text table of {length}");
    same("write's answer", &answer, &expected).map_err(told)?;
    same("write's fields", &fields, &count_fields(expected)).map_err(told)?;
    let bytes = text.as_ref().map_or(&[][..], |text| &text[..expected.unwrap_or(0)]);
    lent.holds("text table", bytes).map_err(told)?;
    own.holds("plan table after a writing", &[]).map_err(told)?;
    counts.met(expected.map_or_else(|n| format!("write {n}"), |_| "write accepted".to_string()));
    Ok(())
}

/// "Reading its text with the same u gives the table's own bytes"; the text of a table that meets 17 meets 1 or 4.
fn read_again(plan: &Plan, text: &[u8], table: &[u8], r: &mut Random, counts: &mut Counts, damage: &mut Damage) -> Compared<()> {
    let room = plan.bytes() + r.below(3);
    match compare_read(plan.u as u64, text, room, r, damage)? {
        Ok(accepted) => {
            same_table("table that a written text is read into", &encode(&accepted.plan), &table[..plan.bytes()])?;
            count_written(&accepted, text, counts);
        }
        Err(number @ (1 | 4)) => counts.met(format!("not written: read {number:02}")),
        Err(number) => return Err(format!("a written text is refused by {number}")),
    }
    Ok(())
}

/// Kinds by the number that the plan table stores.
const KINDS: [&str; 9] = ["root", "for all", "exists", "and", "or", "in", "not in", "port comparison", "size"];

fn below(kind: u8, above: u8) -> String {
    format!("written: {} below {}", KINDS[usize::from(kind)], KINDS[usize::from(above)])
}

fn count_written(accepted: &Accepted, text: &[u8], counts: &mut Counts) {
    counts.met("written and read again");
    let plan = &accepted.plan;
    let kind = |node: usize| plan.nodes[node].kind;
    let above = |node: usize| kind(usize::from(plan.nodes[node].parent));
    let pairs: BTreeSet<(u8, u8)> = (1..plan.nodes.len()).map(|node| (kind(node), above(node))).collect();
    pairs.into_iter().for_each(|(kind, above)| counts.met(below(kind, above)));
    if text.len() == LONGEST_TEXT {
        counts.met("written: the longest text");
    }
    if accepted.around == MOST_AROUND {
        counts.met("written: the deepest text");
    }
}

/// What a run says at its end about texts that were written.
pub fn told_writings(counts: &Counts) -> String {
    let [accepted, broken, short, unwritable] = ["accepted", "11", "12", "17"].map(|class| counts.of(&format!("write {class}")));
    let again = counts.of("written and read again");
    format!("{accepted} texts written; refused: {broken} by 11, {unwritable} by 17, {short} by 12; {again} read again")
}

/// Classes of tables and texts that a run must meet, and how often: every answer, both halves of 17 with their neighbours, and every
/// kind below every other that the rules of a plan allow there.
pub fn wanted_writings() -> Vec<(String, u64)> {
    let often = ["write accepted", "write 11", "write 12", "write 17", "written and read again", "tables made"].map(|class| (class, 100));
    let limits = ["not written: read 01", "not written: read 04", "written: the longest text", "written: the deepest text"];
    let seldom = limits.map(|class| (class, 20));
    let pairs = [ROOT, ALL, SOME, AND, OR].into_iter().flat_map(|above| (ALL..=SIZE).map(move |kind| (kind, above)));
    let allowed = pairs.filter(|(kind, above)| match *above {
        ROOT => !matches!(*kind, IN | NOT_IN | COMPARE),
        AND | OR => kind != above,
        _ => true,
    });
    let shapes = allowed.map(|(kind, above)| (below(kind, above), 20));
    often.into_iter().chain(seldom).map(|(class, least)| (class.to_string(), least)).chain(shapes).collect()
}
