//! Plans written as text (request 2026-02): both evaluators give the text or the number written here, and read the text again into the
//! table's own bytes.
use evidence::archive::{read, write};
use evidence::forest::{long_plan, nested_plan};
use evidence::random::Random;
use evidence::second::plan::Plan;
use evidence::second::table::encode;
use evidence::second::text::{read as second_read, Accepted};
use evidence::second::write::{text_of, write as second_write};

fn accepted(text: &str) -> Accepted {
    second_read(3, text.as_bytes(), usize::MAX).unwrap_or_else(|n| panic!("{text} is refused: {n}"))
}

/// The number that a table is refused with into any room, by both, with nothing written.
fn refused(table: &[u8]) -> u32 {
    let number = second_write(table).expect_err("it is refused");
    for room in [0, 1, 4096, 6000] {
        let mut text = vec![0xA5; room];
        assert_eq!(write(table, &mut text), Err(number));
        assert!(text.iter().all(|b| *b == 0xA5), "a refused writing wrote");
    }
    number
}

/// The text of a table by both, into a table of just its length, of one byte more and of one fewer; read again by both.
fn text(table: &[u8]) -> String {
    let text = second_write(table).expect("a text can be written");
    let by_archive = |room: usize| {
        let mut lent = vec![0xA5; room];
        (write(table, &mut lent), lent)
    };
    let length = text.len();
    assert_eq!(by_archive(length), (Ok(length), text.clone()));
    assert_eq!(by_archive(length + 1), (Ok(length), [&text[..], &[0xA5]].concat()));
    assert_eq!(by_archive(length - 1), (Err(12), vec![0xA5; length - 1]));
    assert_eq!(by_archive(0), (Err(12), Vec::new()));
    let mut again = vec![0; table.len()];
    let u = u64::from(table[5]);
    assert!(read(u, &text, &mut again).is_ok());
    assert_eq!(again, table);
    assert_eq!(encode(&second_read(u, &text, table.len()).expect("it is read again").plan), table);
    String::from_utf8(text).expect("it is ASCII")
}

/// Each text is read, and its table written as the other.
fn expect(cases: &[(&str, &str)]) {
    for (given, written) in cases {
        assert_eq!(text(&encode(&accepted(given).plan)), *written, "{given}");
    }
}

/// These texts are written as they are.
fn expect_own(texts: &[&str]) {
    texts.iter().for_each(|text| expect(&[(text, text)]));
}

#[test]
fn known_plans() {
    expect(&[
        ("[STI] @x (x:I <-> x:S & x:T) & #I <= 1", "[ABC] @a ((a/C | a:A & a:B) & (a:C | a/A | a/B)) & #C <= 1"),
        ("[ST] @x (x/S | x:T) & ?x (x:T & x/S)", "[AB] @a (a/A | a:B) & ?a (a:B & a/A)"),
        ("[S] ?x x:S", "[A] ?a a:A"),
        ("[S]#S<0", "[A] #A < 0"),
    ]);
}

/// "brackets only where the grammar needs them": round an "or" in an "and", and round both below a quantifier.
#[test]
fn brackets() {
    expect_own(&[
        "[A] #A < 1 & (#A < 2 | #A < 3)",
        "[A] (#A < 1 | #A < 2) & #A < 3",
        "[A] #A < 1 & #A < 2 | #A < 3",
        "[A] #A < 1 | #A < 2 & #A < 3",
        "[A] #A < 1 & (#A < 2 | #A < 3 & (#A < 4 | #A < 5))",
        "[A] #A < 1 | #A < 2 | #A < 3",
        "[A] @a (a:A & a/A)",
        "[A] ?a (a:A | a/A)",
        "[A] @a ?b @c a < b",
        "[A] @a a:A & @a a/A | ?a a:A",
        "[A] #A < 1 & @a a:A & #A < 2",
        "[A] @a (a:A & ?b (a < b | b:A) & #A < 1)",
        "[A] @a ?b (a:A | b:A & a:A)",
    ]);
    expect(&[
        ("[S] ((#S < 1 | #S < 2) | (#S < 3))", "[A] #A < 1 | #A < 2 | #A < 3"),
        ("[S] (((#S < 1) & #S < 2)) | (@x (x:S))", "[A] #A < 1 & #A < 2 | @a a:A"),
        ("[S] ~(#S < 1 | @x ~(x:S -> x/S))", "[A] #A >= 1 & ?a (a/A | a/A)"),
    ]);
}

/// "The writer names sets from A, variables a, b, c by number": by the table's numbers, and every set is declared.
#[test]
fn names() {
    expect(&[
        ("[ZYX] #X = 0", "[ABC] #C = 0"),
        ("[PONMLKJIHGFEDCBA] #A = 0 & #P = 0", "[ABCDEFGHIJKLMNOP] #P = 0 & #A = 0"),
        ("[S] @z ?y @x (x:S & y:S & z:S)", "[A] @a ?b @c (c:A & b:A & a:A)"),
        ("[S] @x x:S & @y (y:S & @x (x:S & y < x))", "[A] @a a:A & @a (a:A & @b (b:A & a < b))"),
    ]);
}

#[test]
fn literals() {
    for relation in ["<", "<=", "=", "!=", ">=", ">"] {
        for constant in ["0", "9", "10", "64"] {
            expect_own(&[&format!("[A] #A {relation} {constant}")]);
        }
        expect_own(&[&format!("[A] @a @b b {relation} a"), &format!("[A] @a a {relation} a")]);
    }
    expect_own(&["[AB] @a a:B", "[AB] @a a/B"]);
}

/// The number is 17 where the text that is due would be refused by this one.
fn unwritable(plan: &Plan, ground: u32) {
    assert_eq!(second_read(plan.u as u64, &text_of(plan), usize::MAX).map(|_| ()), Err(ground));
    assert_eq!(refused(&encode(plan)), 17);
}

/// "17, the text would meet refusal 1": a text without its spaces is shorter, and may be read.
#[test]
fn longest_texts() {
    let sixty_four = format!("[A] {}", ["#A <= 64"; 510].join(" & "));
    let dense = accepted(&sixty_four.replace(' ', "")).plan;
    assert_eq!(String::from_utf8(text_of(&dense)), Ok(sixty_four));
    unwritable(&dense, 1);
    for seed in 0..20 {
        let plan = |bytes: usize| long_plan(&mut Random::new(seed), bytes);
        assert_eq!(text(&encode(&plan(4096))).len(), 4096);
        unwritable(&plan(4097), 1);
    }
}

/// "17, the text would meet refusal [..] 4": an "or" in an "and", so many times, is one bracket for four nodes.
#[test]
fn deepest_texts() {
    let nested = |depth: usize| format!("[A] {}#A = 3{}", "#A < 1 & (#A > 2 | ".repeat(depth), ")".repeat(depth));
    expect_own(&[&nested(63), &nested(64)]);
    // Three of the 64 are quantifiers, and one is the bracket below them.
    let quantified = |depth: usize| format!("[A] @a ?b @c (c:A | {}c:A{})", "a:A & (b:A | ".repeat(depth), ")".repeat(depth));
    expect_own(&[&quantified(60)]);
    assert_eq!(accepted(&quantified(60)).around, 64);
    for seed in 0..200 {
        let plan = |around: usize| nested_plan(&mut Random::new(seed), around);
        let written = text(&encode(&plan(64)));
        assert_eq!(second_read(1, written.as_bytes(), usize::MAX).expect("it is read").around, 64);
        unwritable(&plan(65), 4);
        // Nearly as deep as 512 nodes allow, on the stack of any thread.
        unwritable(&plan(120), 4);
    }
}

/// 11 is tried first, and 17 before 12.
#[test]
fn order_of_grounds() {
    let table = encode(&long_plan(&mut Random::new(1), 4097));
    assert_eq!(refused(&table), 17);
    assert_eq!(refused(&table[..table.len() - 1]), 11);
    assert_eq!(refused(&[]), 11);
    let plan_c = encode(&accepted("[ST] @x (x/S | x:T) & ?x (x:T & x/S)").plan);
    assert_eq!(refused(&plan_c[1..]), 11);
    // Bytes past the table play no part.
    let behind = [&plan_c[..], &[7; 9]].concat();
    assert_eq!(second_write(&behind), second_write(&plan_c));
    let mut lent = [0xA5; 100];
    assert_eq!(write(&behind, &mut lent), Ok(text(&plan_c).len()));
}
