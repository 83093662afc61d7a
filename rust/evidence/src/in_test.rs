//! The calls that put a port in test and take it out (request 2026-05 of paper 02), compared with the second evaluator.
use crate::calls::{Numbers, Test};
use crate::counts::Counts;
use crate::lent::{same, same_table, Compared};
use crate::random::Random;
use crate::second::in_test::test;
use crate::second::penalty::in_set;
use crate::second::plan::{Plan, SIZE};
use crate::second::table::decode;

/// What is asked: which call, and its port.
pub type Asked = (Test, u32);

/// Ports at the edge of what is known, and some that would be known if they were cut to fewer bits.
pub fn edge_ports(u: usize) -> [u32; 7] {
    let last = u as u32 - 1;
    [last, last + 1, 63, 64, 64 + last, 256 + last, u32::MAX]
}

/// Half of the ports are such as a set holds.
fn any_port(plan: &Plan, masks: &[u64], r: &mut Random) -> u32 {
    let held = masks.iter().take(plan.n).fold(0, |all, mask| all | mask);
    match r.below(20) {
        0 | 1 => edge_ports(plan.u)[r.below(7)],
        2 => r.word() as u32,
        3..=12 if held != 0 => port_of(held, r),
        _ => r.below(plan.u) as u32,
    }
}

fn port_of(mask: u64, r: &mut Random) -> u32 {
    let ports: Vec<u32> = (0..64).filter(|port| mask >> port & 1 == 1).collect();
    ports[r.below(ports.len())]
}

/// Either call.
pub fn any_call(r: &mut Random) -> Test {
    [Test::Begin, Test::End][r.below(2)]
}

/// A call that mostly changes the port's condition, where that is known; at times it finds the port so, which is 20.
pub fn any_test(plan: &Plan, masks: &[u64], r: &mut Random) -> Asked {
    let port = any_port(plan, masks, r);
    let in_test = masks.get(plan.n).filter(|_| port < 64 && r.chance(80)).map(|mask| mask >> port & 1 == 1);
    let call = in_test.map_or_else(|| any_call(r), |so| if so { Test::End } else { Test::Begin });
    (call, port)
}

/// What a call is lent. `over` says in the counts which tables these are.
pub struct Given<'a> {
    pub table: &'a [u8],
    pub masks: &'a mut [u64],
    pub cells: &'a mut [u32],
    pub over: &'a str,
}

/// Compares the answer of `by`, every mask and every cell with the second evaluator's.
pub fn compare_test(
    g: &mut Given,
    asked: Asked,
    by: impl FnOnce(&mut Given, Asked) -> Result<Numbers, u32>,
    counts: &mut Counts,
) -> Compared<()> {
    let (call, port) = asked;
    let (mut masks, mut cells) = (g.masks.to_vec(), g.cells.to_vec());
    let expected = test(g.table, &mut masks, &mut cells, call, port);
    count(g, asked, &expected, counts);
    let answer = by(g, asked);
    same(&format!("answer of {call:?} of port {port}"), &answer, &expected)?;
    let told = |e: String| format!("{e}\n  after {call:?} of port {port}");
    same_table("masks", g.masks, &masks).and_then(|()| same_table("cells", g.cells, &cells)).map_err(told)
}

/// The answer, and what of the plan and its masks brought it about.
fn count(g: &Given, (call, port): Asked, expected: &Result<Numbers, u32>, counts: &mut Counts) {
    let outcome = expected.map_or_else(|n| format!("refused {n}"), |_| "accepted".to_string());
    counts.met(format!("{call:?}{}: {outcome}", g.over));
    let Some(plan) = decode(g.table) else { return };
    let classes: Vec<(bool, &str)> = match expected {
        Ok(numbers) => accepted_classes(&plan, g.masks, (call, port as usize), numbers),
        Err(12) => vec![(g.masks.len() == plan.n, "refused 12: no mask in test")],
        Err(13) => vec![(g.masks[..plan.n].iter().all(|mask| within(&plan, *mask)), "refused 13: the mask in test alone")],
        Err(14) => vec![
            (port as usize == plan.u, "refused 14: port u"),
            (port == 63, "refused 14: port 63"),
            (port == 64, "refused 14: port 64"),
            (port == u32::MAX, "refused 14: the last number"),
        ],
        _ => Vec::new(),
    };
    classes.iter().filter(|(holds, _)| *holds).for_each(|(_, class)| counts.met(format!("test {class}")));
}

fn within(plan: &Plan, mask: u64) -> bool {
    (plan.u..64).all(|port| mask >> port & 1 == 0)
}

fn accepted_classes(plan: &Plan, masks: &[u64], (call, port): (Test, usize), numbers: &Numbers) -> Vec<(bool, &'static str)> {
    let sets = (0..plan.n).filter(|set| in_set(masks, *set, port)).count();
    let sized: Vec<(usize, bool)> = (0..plan.nodes.len())
        .filter(|node| plan.nodes[*node].kind == SIZE)
        .map(|node| (plan.depth(node), in_set(masks, usize::from(plan.nodes[node].a), port)))
        .collect();
    let others = (0..plan.u).filter(|other| *other != port && in_set(masks, plan.n, *other)).count();
    vec![
        (sets == 0, "of a port of no set"),
        (sets > 1, "of a port of several sets"),
        (sized.iter().any(|(depth, held)| *held && *depth > 0), "of a size under a quantifier"),
        (sized.iter().any(|(depth, held)| *held && *depth > 1), "of a size under two quantifiers"),
        (sized.iter().any(|(_, held)| *held) && sized.iter().any(|(_, held)| !held), "of some sizes and not of others"),
        (numbers.changed == 0, "that changes no cell"),
        (numbers.before != numbers.after, "that changes the root"),
        (call == Test::Begin && others + 1 == plan.u, "that leaves every port in test"),
        (call == Test::End && others == 0, "that leaves none in test"),
    ]
}

/// Classes of these calls that a run must meet, with these grounds, and how often.
pub fn wanted_tests(over: &str, grounds: &[u32]) -> Vec<(String, u64)> {
    let answers = || grounds.iter().map(|n| format!("refused {n}")).chain(["accepted".to_string()]);
    let calls = [Test::Begin, Test::End].into_iter().flat_map(|call| answers().map(move |answer| format!("{call:?}{over}: {answer}")));
    let often = [
        "of a port of no set",
        "of a port of several sets",
        "of a size under a quantifier",
        "of a size under two quantifiers",
        "of some sizes and not of others",
        "that changes no cell",
        "that changes the root",
        "that leaves every port in test",
        "that leaves none in test",
        "refused 13: the mask in test alone",
    ];
    let seldom = ["12: no mask in test", "14: port u", "14: port 63", "14: port 64", "14: the last number"];
    let seldom = seldom.map(|ground| (format!("test refused {ground}"), 20));
    calls.chain(often.map(|class| format!("test {class}"))).map(|class| (class, 100)).chain(seldom).collect()
}
