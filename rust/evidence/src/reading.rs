//! A text read by the engine and by the second evaluator.
use vuyekhang::raw;

use crate::archive::{read, read_fields};
use crate::calls::Read;
use crate::counts::Counts;
use crate::damage::Damage;
use crate::lent::{same, Compared, Lent};
use crate::random::{any_bytes, any_text, Random};
use crate::second::formula::RELATIONS;
use crate::second::plan::{COMPARE, SIZE};
use crate::second::table::encode;
use crate::second::text::{deepest, read as second_read, Accepted, MOST_AROUND};

/// Reads a random text with both; hands back what is accepted.
pub fn one_text(r: &mut Random, counts: &mut Counts, damage: &mut Damage) -> Compared<Option<Accepted>> {
    let (u, text) = any_text(r);
    let roomy = second_read(u, &text, usize::MAX);
    let need = roomy.as_ref().map_or(64, |a| a.plan.bytes());
    let room = match r.below(10) {
        0 => r.below(need),
        1 => need,
        _ => need + r.below(40),
    };
    let answer = compare_read(u, &text, room, r, damage)?;
    counts.met("texts");
    count_deep(&text, answer.as_ref().map_or_else(|number| *number, |_| 0), counts);
    match answer {
        Ok(accepted) => {
            count_accepted(&accepted, counts);
            Ok(Some(accepted))
        }
        Err(number) => {
            counts.met(format!("read {number:02}"));
            Ok(None)
        }
    }
}

/// Reads a text with both into so many bytes and compares the answer by the binding, every field of the raw one, and every byte of the
/// table. Hands back the second evaluator's answer.
pub fn compare_read(u: u64, text: &[u8], room: usize, r: &mut Random, damage: &mut Damage) -> Compared<Result<Accepted, u32>> {
    let before = any_bytes(r, room);
    let mut table = Lent::of(&before, r.word() as u8);
    let fields = raw::read(u, text, &mut before.clone());
    let answer = read(u, text, table.part());
    damage.table(table.part(), r);
    let expected = second_read(u, text, room);
    let told = |e: String| format!("{e}\n  u {u}, room {room}, text {:?}", String::from_utf8_lossy(text));
    same_reading(answer, fields, &expected, &table).map_err(told)?;
    Ok(expected)
}

fn same_reading(answer: Result<Read, u32>, fields: raw::ReadAnswer, expected: &Result<Accepted, u32>, table: &Lent<u8>) -> Compared<()> {
    let numbers = expected.as_ref().map(|a| Read { nodes: a.plan.nodes.len(), cells: a.cells }).map_err(|number| *number);
    same("read's answer", &answer, &numbers)?;
    same("read's fields", &fields, &read_fields(numbers))?;
    let own = expected.as_ref().map_or(Vec::new(), |a| encode(&a.plan));
    table.holds("plan table", &own)
}

/// From so many levels on a text counts as deep, and as much deeper.
const DEEP: usize = 60;
const MUCH_DEEPER: usize = 200;

const BEHIND: &str = "read 03 behind the 65th level";
const CLASSES: [&str; 4] = ["accepted", "read 04", BEHIND, "read 03"];

/// A text that nests deep, by its answer; 0 is accepted. Where it leaves the grammar, it counts whether that is behind the 65th level:
/// a reader that looks no further than the limit would answer 4.
fn count_deep(text: &[u8], number: u32, counts: &mut Counts) {
    let deepest = deepest(text);
    let class = match number {
        0 => "accepted".to_string(),
        3 if deepest > MOST_AROUND => BEHIND.to_string(),
        number => format!("read {number:02}"),
    };
    for (least, name) in [(DEEP, "deep"), (MUCH_DEEPER, "much deeper")] {
        if deepest >= least {
            counts.met(format!("{name}: {class}"));
        }
    }
}

/// What a run says at its end about texts that nest deep.
pub fn told_deep(counts: &Counts) -> String {
    let [accepted, limit, behind, before] = CLASSES.map(|class| counts.of(&format!("deep: {class}")));
    let [_, far_limit, far, _] = CLASSES.map(|class| counts.of(&format!("much deeper: {class}")));
    let refused = format!("{limit} by 4, {behind} by 3 behind the 65th level, {before} by 3 before it");
    format!(
        "texts of {DEEP} levels or more: {accepted} accepted, refused {refused}; of {MUCH_DEEPER} or more: {far_limit} by 4, {far} by 3"
    )
}

/// Classes of texts that nest deep, and how often a run must meet them.
pub fn wanted_deep() -> Vec<(String, u64)> {
    let often = CLASSES.map(|class| (format!("deep: {class}"), 100));
    let seldom = ["read 05", "read 07"].map(|class| (format!("deep: {class}"), 20));
    let far = ["read 04", BEHIND].map(|class| (format!("much deeper: {class}"), 20));
    often.into_iter().chain(seldom).chain(far).collect()
}

fn count_accepted(accepted: &Accepted, counts: &mut Counts) {
    let plan = &accepted.plan;
    counts.met("read accepted");
    counts.met(format!("depth {}", plan.deepest()));
    counts.met(format!("sets {:02}", plan.n));
    counts.met(format!("ports {:02}", plan.u));
    for node in &plan.nodes {
        if node.kind >= COMPARE {
            let what = if node.kind == SIZE { "size" } else { "ports compared by" };
            counts.met(format!("{what} {}", RELATIONS[usize::from(node.relation)]));
        }
    }
}
