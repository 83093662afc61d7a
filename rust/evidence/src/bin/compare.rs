//! `compare [ROUNDS [SEED]]`: compares the proved engine with the second evaluator over random texts, tables and cells.
//! `compare --damage [ROUNDS [SEED]]`: changes one word after every call, and fails unless each change is reported.
//! `compare --short [TOKENS]`: reads some beginnings of texts, each with every choice of at most so many tokens behind it, with both.
//! `compare --lists [CALLS [SEED]]`: compares lists of calls, every answer, mask, cell, record and listed move after every call.
//! `compare --lists-damage [LISTS [SEED]]`: changes one bit after one call of each list, and fails unless each change is reported.
//! `compare --improve [PLANS [SEED]]`: compares improve and the list of best moves of the plain engine with both, over random plans.
use std::process::ExitCode;

use evidence::archive::Archive;
use evidence::best::told_ties;
use evidence::compare::{missed, one_round, short_texts};
use evidence::counts::Counts;
use evidence::damage::{Damage, Target};
use evidence::improving;
use evidence::list_damage::{damaged_list, HITS};
use evidence::lists;
use evidence::random::Random;
use evidence::reading::told_deep;
use evidence::with_stack;
use evidence::writing::told_writings;

const QUICK_ROUNDS: u64 = 20_000;
const QUICK_TOKENS: u64 = 3;
const QUICK_CALLS: u64 = 30_000;
const QUICK_LISTS: u64 = 150;
const QUICK_DAMAGES: u64 = 1_000;
const QUICK_PLANS: u64 = 3_000;

fn main() -> ExitCode {
    let words: Vec<String> = std::env::args().skip(1).collect();
    let mode = words.first().filter(|w| w.starts_with("--")).cloned().unwrap_or_default();
    let numbers: Vec<u64> = words.iter().skip(usize::from(!mode.is_empty())).map(|w| w.parse().expect("a number")).collect();
    let (run, quick): (fn(u64, u64) -> bool, u64) = match mode.as_str() {
        "" => (rounds_fail, QUICK_ROUNDS),
        "--damage" => (damage_unseen, QUICK_DAMAGES),
        "--short" => (short_fail, QUICK_TOKENS),
        "--improve" => (improves_fail, QUICK_PLANS),
        "--lists" => (lists_fail, QUICK_CALLS),
        "--lists-damage" => (list_damage_unseen, QUICK_LISTS),
        _ => panic!("unknown mode {mode}"),
    };
    let amount = numbers.first().copied().unwrap_or(quick);
    let seed = numbers.get(1).copied().unwrap_or(1);
    println!("seed {seed}");
    let failed = with_stack(move || run(amount, seed));
    ExitCode::from(u8::from(failed))
}

fn print(counts: &Counts) {
    for (class, count) in &counts.0 {
        println!("{class:44} {count:9}");
    }
}

/// Each round has its own seed, so that one difference can be looked at alone: `compare 1 SEED`.
fn rounds_fail(rounds: u64, seed: u64) -> bool {
    let mut counts = Counts::default();
    for round in 0..rounds {
        let own = seed.wrapping_add(round);
        if let Err(difference) = one_round(&mut Random::new(own), &mut counts, &mut Damage::to(Target::Nothing)) {
            println!("difference in round {round}, seed {own}: {difference}");
            return true;
        }
    }
    print(&counts);
    println!("{}", told_deep(&counts));
    println!("{}", told_ties(&counts));
    println!("{}", told_writings(&counts));
    println!("{rounds} rounds, {} texts, {} loads: no difference", counts.of("texts"), counts.of("loads"));
    too_seldom(&missed(&counts))
}

fn too_seldom(missed: &[String]) -> bool {
    missed.iter().for_each(|m| println!("too seldom: {m}"));
    !missed.is_empty()
}

/// Fails unless every round in which something was changed ends in a difference.
fn damage_unseen(rounds: u64, seed: u64) -> bool {
    let targets = [Target::Tables, Target::Texts, Target::Cells, Target::InTest, Target::OtherSizes, Target::Answers];
    targets.into_iter().any(|target| unseen(target, rounds, seed))
}

fn unseen(target: Target, rounds: u64, seed: u64) -> bool {
    let (mut damaged, mut reported) = (0, 0);
    for round in 0..rounds {
        let mut damage = Damage::to(target);
        let result = one_round(&mut Random::new(seed.wrapping_add(round)), &mut Counts::default(), &mut damage);
        damaged += u64::from(damage.done > 0);
        reported += u64::from(result.is_err());
    }
    println!("{target:?}: {damaged} rounds damaged, {reported} reported");
    damaged == 0 || damaged != reported
}

/// Every text, so that no seed plays a part.
fn short_fail(tokens: u64, _seed: u64) -> bool {
    let mut counts = Counts::default();
    let result = (0..=tokens as usize).try_for_each(|k| short_texts(k, &mut counts));
    print(&counts);
    match result {
        Ok(()) => println!("{}\nevery choice of at most {tokens} tokens: no difference", told_writings(&counts)),
        Err(ref difference) => println!("difference: {difference}"),
    }
    result.is_err()
}

/// Each plan has its own seed: `compare --improve 1 SEED`.
fn improves_fail(plans: u64, seed: u64) -> bool {
    let mut counts = Counts::default();
    for own in (0..plans).map(|plan| seed.wrapping_add(plan)) {
        if let Err(difference) = improving::one_plan(&mut Random::new(own), &mut counts) {
            println!("difference, seed {own}: {difference}");
            return true;
        }
    }
    print(&counts);
    println!("{} improves over {} plans: no difference", counts.of("improves"), counts.of("plans"));
    too_seldom(&improving::missed(&counts))
}

fn lists_fail(calls: u64, seed: u64) -> bool {
    let mut counts = Counts::default();
    if let Err(difference) = lists::run(&Archive, calls, seed, &mut counts) {
        println!("difference: {difference}");
        return true;
    }
    print(&counts);
    println!("{}", told_ties(&counts));
    println!("{} calls in lists: no difference", counts.of("calls from a load") + counts.of("calls from foreign cells"));
    too_seldom(&lists::missed(&counts))
}

/// Fails unless every list in which a bit was changed after a call ends in a difference, and few lists leave nothing to change.
fn list_damage_unseen(amount: u64, seed: u64) -> bool {
    HITS.into_iter().any(|hit| {
        let all: Vec<(bool, bool)> = (0..amount).map(|list| damaged_list(&Archive, hit, seed, list)).collect();
        let damaged = all.iter().filter(|(damaged, _)| *damaged).count() as u64;
        let reported = all.iter().filter(|(_, reported)| *reported).count() as u64;
        println!("{hit:?}: {damaged} of {amount} lists damaged, {reported} reported");
        all.iter().any(|(damaged, reported)| damaged != reported) || damaged * 10 < amount * 9
    })
}
