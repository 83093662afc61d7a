//! Texts that nest deep or run long, each by a short name.
use std::collections::BTreeSet;

use super::calls::{Call, Tables};
use super::Input;
use crate::second::text::{read, LONGEST_TEXT, MOST_AROUND};

/// What stands before a nested part and behind it, for each way in which a text can nest.
const NESTS: [(&str, &str); 19] = [
    ("(", ")"),
    ("~", ""),
    ("?x", ""),
    ("@x", ""),
    ("~(", ")"),
    ("(~@x", ")"),
    ("(x<x&", ")"),
    ("(", "&x<x)"),
    ("(x<x|", ")"),
    ("(", "|x<x)"),
    ("(x<x&(x<x|", "))"),
    ("(x<x|(", "&x<x))"),
    ("(x<x->", ")"),
    ("(", "<-x<x)"),
    ("(x<x<->", ")"),
    ("(", "<->x<x)"),
    ("(x<x->x<x|x<x&", ")"),
    ("(", "&x<x|x<x->x<x)"),
    ("(", "&#S<1|#S<1->#S<1)"),
];

/// How a text begins, with a literal that may stand behind: x bound or not, and as many quantifiers as a plan allows.
const BEGINNINGS: [(&str, &str); 3] = [("[S]", "#S<1"), ("[S]@x", "x<x"), ("[S]@x@y@z", "x<x")];

/// Behind a whole formula: a bracket too many, and a second arrow.
const BROKEN_ENDS: [(&str, &str); 2] = [("a bracket too many", ")"), ("two arrows", "->x<x->x<x")];

const PORTS: u64 = 3;

/// Room that a text leaves for a broken end.
const END: usize = 10;

fn levels(tokens: &str) -> usize {
    tokens.chars().filter(|c| "(~@?".contains(*c)).count()
}

/// So many literals with a sign between two, in brackets.
fn siblings(literal: &str, sign: &str, count: usize) -> String {
    format!("({})", vec![literal; count].join(sign))
}

/// A part nested so many times.
fn nested(begin: &str, (open, close): (&str, &str), times: usize, part: &str) -> String {
    format!("{begin}{}{part}{}", open.repeat(times), close.repeat(times))
}

/// The greatest number whose text holds what it is asked, as every text of a smaller number does; 0 where none does.
fn most_of(text: impl Fn(usize) -> String, asked: impl Fn(&str) -> bool) -> usize {
    let (mut most, mut past) = (0, LONGEST_TEXT);
    while past - most > 1 {
        let middle = (most + past) / 2;
        *(if asked(&text(middle)) { &mut most } else { &mut past }) = middle;
    }
    most
}

/// Short enough, with room for a broken end.
fn fits(text: &str) -> bool {
    text.len() + END <= LONGEST_TEXT
}

fn accepted(text: &str) -> bool {
    read(PORTS, text.as_bytes(), usize::MAX).is_ok()
}

fn input(name: String, text: &str) -> Input {
    Input { name, tables: Tables::of_text(PORTS, text.as_bytes()), calls: vec![Call::Read] }
}

/// A whole text and the same broken at its very end: without its last byte, which closes it, and with an end too many.
fn whole_and_broken(name: &str, text: &str) -> Vec<Input> {
    let cut = input(format!("{name}, its last byte missing"), &text[..text.len() - 1]);
    let ends = BROKEN_ENDS.map(|(what, end)| input(format!("{name}, {what}"), &format!("{text}{end}")));
    [input(name.to_string(), text), cut].into_iter().chain(ends).collect()
}

/// Opened until the text is full, and never closed.
fn opened(open: &str) -> Input {
    let text = format!("[S]{}", open.repeat(LONGEST_TEXT));
    input(format!("`{open}` to 4,096 bytes"), &text[..LONGEST_TEXT])
}

/// Opened and closed as often as the text has room for it.
fn closed(nest: (&str, &str)) -> Vec<Input> {
    let text = |times: usize| nested("[S]@x", nest, times, "x<x");
    let times = most_of(text, fits);
    whole_and_broken(&format!("{times} times `{}..{}`", nest.0, nest.1), &text(times))
}

/// 64 levels or nearly so many, and inside of them literals joined by a sign: two, as many as a plan may have, and as many as the text
/// has room for.
fn at_the_limit(nest: (&str, &str), (begin, literal): (&str, &str), sign: &str) -> Vec<Input> {
    // One level more is the bracket round the literals.
    let times = (MOST_AROUND - 1 - levels(begin)) / levels(nest.0);
    let text = |count: usize| nested(begin, nest, times, &siblings(literal, sign, count));
    let name = |count: usize| format!("`{begin}`, {times} times `{}..{}`, in it {count} literals joined by `{sign}`", nest.0, nest.1);
    let few = [2, most_of(text, accepted).max(2)].map(|count| input(name(count), &text(count)));
    let most = most_of(text, fits);
    few.into_iter().chain(whole_and_broken(&name(most), &text(most))).collect()
}

/// Literals joined by a sign, and as the last part one inside of 64 levels: as many as a plan may have, and as many as the text has room
/// for.
fn behind_literals(nest: (&str, &str), sign: &str) -> Vec<Input> {
    let times = MOST_AROUND / levels(nest.0);
    let text = |count: usize| nested(&format!("[S]{}", format!("#S<1{sign}").repeat(count)), nest, times, "#S<1");
    let counts = [most_of(text, accepted), most_of(text, fits)];
    counts
        .map(|count| input(format!("{count} literals joined by `{sign}`, then {times} times `{}..{}`", nest.0, nest.1), &text(count)))
        .into()
}

/// No nesting, but as many parts as a plan may have or as fit.
fn flat((begin, literal): (&str, &str)) -> Vec<Input> {
    let mut all = Vec::new();
    for sign in ["&", "|", &format!("&{literal}|")] {
        let text = |count: usize| format!("{begin}{}", siblings(literal, sign, count));
        for count in [most_of(text, accepted), most_of(text, fits)] {
            all.extend(whole_and_broken(&format!("`{begin}`, {count} literals joined by `{sign}`"), &text(count)));
        }
    }
    all
}

/// The smallest plan, and texts that are long by their set letters, digits or blanks.
fn long() -> [Input; 5] {
    let letters: String = ('A'..='Z').cycle().take(4_000).collect();
    [
        input("the smallest plan".to_string(), "[S]#S<1"),
        input("4,000 set letters".to_string(), &format!("[{letters}]#A<1")),
        input("the same set letter 4,000 times".to_string(), &format!("[{}]#A<1", "A".repeat(4_000))),
        input("4,000 digits".to_string(), &format!("[S]#S<{}", "9".repeat(4_000))),
        input("4,000 blanks".to_string(), &format!("[S]{}#S<1", " ".repeat(4_000))),
    ]
}

fn deep(nest: (&'static str, &'static str)) -> impl Iterator<Item = Input> {
    let ways = BEGINNINGS.into_iter().flat_map(|begin| ["&", "|"].map(|sign| (begin, sign)));
    let limit = ways.flat_map(move |(begin, sign)| at_the_limit(nest, begin, sign));
    let behind = ["&", "|"].into_iter().flat_map(move |sign| behind_literals(nest, sign));
    closed(nest).into_iter().chain(limit).chain(behind)
}

pub fn texts() -> impl Iterator<Item = Input> {
    let openings: BTreeSet<&str> = NESTS.into_iter().map(|(open, _)| open).collect();
    let unclosed = openings.into_iter().map(opened);
    long().into_iter().chain(BEGINNINGS.into_iter().flat_map(flat)).chain(unclosed).chain(NESTS.into_iter().flat_map(deep))
}
