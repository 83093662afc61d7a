//! The measuring of stack: what is painted is found again, and every exported function is measured.
use std::collections::BTreeSet;
use std::hint::black_box;

use evidence::stack::calls::NAMES;
use evidence::stack::inputs;
use evidence::stack::paint::on_painted_stack;

/// Writes a table of so many words in a frame of its own.
#[inline(never)]
fn table<const WORDS: usize>() {
    let mut words = [0u64; WORDS];
    black_box(&mut words).iter_mut().for_each(|word| *word = 1);
    black_box(&words);
}

/// So many calls deep.
#[inline(never)]
fn deep(levels: usize) -> usize {
    black_box(if levels == 0 { 0 } else { 1 + deep(levels - 1) })
}

#[test]
fn frames_are_measured() {
    let [none, small, large, deep_call] = on_painted_stack(|stack| {
        let measured = |call: &dyn Fn()| stack.used(1 << 20, call);
        let levels = || assert_eq!(deep(1000), 1000);
        [measured(&|| ()), measured(&table::<64>), measured(&table::<65_536>), measured(&levels)]
    });
    assert!(none <= 256, "{none} for a call that does nothing");
    assert!((512..1024).contains(&small), "{small} for 64 words");
    assert!((524_288..525_312).contains(&large), "{large} for 65,536 words");
    // A level has at least a return address and a word that it keeps.
    assert!((16_000..200_000).contains(&deep_call), "{deep_call} for 1,000 levels");
}

/// Where a call follows a deeper one, its own bytes are told.
#[test]
fn the_stack_is_painted_anew() {
    let (before, after) = on_painted_stack(|stack| {
        let small = || stack.used(1 << 20, table::<64>);
        let before = small();
        stack.used(1 << 20, table::<65_536>);
        (before, small())
    });
    assert_eq!(before, after);
}

/// The functions that the header declares: a name of the archive's before a bracket, outside of comments.
fn declared() -> BTreeSet<&'static str> {
    let header = include_str!("../../../include/vuyekhang.h");
    let code = header.split("/*").map(|part| part.split_once("*/").map_or(part, |(_, code)| code));
    let words = code.flat_map(|part| part.split_inclusive('(').filter(|to| to.ends_with('(')));
    words.filter_map(|to| to.trim_end_matches('(').rsplit([' ', '*', '\n']).next()).filter(|word| word.starts_with("vk_")).collect()
}

#[test]
fn every_exported_function_is_measured() {
    assert_eq!(declared(), BTreeSet::from(NAMES));
    let made: BTreeSet<&str> = inputs().flat_map(|input| input.calls).map(|call| call.name()).collect();
    assert_eq!(made, BTreeSet::from(NAMES));
}
