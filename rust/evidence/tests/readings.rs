//! Texts at the edges of the grounds, as docs/DECISIONS.md reads paper 01: both evaluators give the number written here.
use evidence::archive::read;
use evidence::deep::sound_text;
use evidence::random::{Random, Text};
use evidence::second::text::{deepest, read as second_read};
use evidence::with_stack;

fn number(u: u64, text: &[u8], room: usize) -> u32 {
    let mut table = vec![0xA5; room];
    let answer = read(u, text, &mut table).map_or_else(|n| n, |_| 0);
    let second = second_read(u, text, room).map_or_else(|n| n, |_| 0);
    assert_eq!(answer, second, "{}", String::from_utf8_lossy(text));
    assert!(answer == 0 || table.iter().all(|b| *b == 0xA5), "a refused reading wrote");
    answer
}

fn expect(cases: &[(u32, &str)]) {
    for (expected, text) in cases {
        assert_eq!(number(3, text.as_bytes(), 5000), *expected, "{text}");
    }
}

#[test]
fn bytes_and_tokens() {
    expect(&[
        (2, "[S]#S<1 - $"),
        (2, "[S]\t#S<1"),
        (2, "[S]#S<1\r\n"),
        (2, "[S]2*#S<1"),
        (0, "[S]\n#S<1\n"),
        (3, "[S]#S<1 -"),
        (3, "[S]#S!1"),
        (3, "[S]#S< =1"),
        (3, "[S]#S<1 - >#S<1"),
        (3, "[S]#S<1 0"),
        (0, "[S]@x@yx<y"),
        (0, "[S]@xx:S"),
        (0, "[S T]#T<1"),
        (3, "[S]@x@y x<-y"),
        (3, "[S]#S<00"),
        (3, "[S]#S<064"),
    ]);
}

#[test]
fn grammar() {
    expect(&[
        (3, ""),
        (3, "[]#S<1"),
        (3, "[S]"),
        (3, "[s]#S<1"),
        (3, "[S]@X X:S"),
        (3, "[S]@x x:s"),
        (3, "[S]#x<1"),
        (3, "[S]#S<1->#S<2->#S<3"),
        (0, "[S]#S<1->(#S<2->#S<3)"),
        (3, "[S](#S<1"),
        (3, "[S]#S<1)"),
    ]);
}

#[test]
fn names_constants_quantifiers() {
    expect(&[
        (5, "[S]@x x:S & x:S"),
        (0, "[S]@x x:S & @x x:S"),
        (5, "[S](@x x:S) -> x:S"),
        (5, "[SS]#S<1"),
        (5, "[S]#T<1"),
        (5, "[ABCDEFGHIJKLMNOPQ]#A<1"),
        (0, "[ABCDEFGHIJKLMNOP]#A<1"),
        (0, "[S]@x x<x"),
        (6, "[S]#S<65"),
        (6, "[S]#S<18446744073709551616"),
        (6, "[S]#S<99999999999999999999999999999999999999999999"),
        (5, "[S]#T<65"),
        (7, "[S]@a @b @c @d d:S"),
        (7, "[S]@a @b @c ~?d d:S"),
        (6, "[S]@a @b @c @d (d:S & #S<65)"),
        (0, "[S]@a @b @c c:S"),
    ]);
}

/// `depth` of a sign in front of a unit.
fn nested(sign: &str, depth: usize) -> String {
    let close = if sign == "(" { ")".repeat(depth) } else { String::new() };
    format!("[S]{}#S<1{close}", sign.repeat(depth))
}

#[test]
fn sixty_four_around_a_token() {
    for sign in ["(", "~"] {
        assert_eq!(number(3, nested(sign, 64).as_bytes(), 5000), 0);
        assert_eq!(number(3, nested(sign, 65).as_bytes(), 5000), 4);
    }
    assert_eq!(number(3, format!("[S]{}x:S", "@x".repeat(65)).as_bytes(), 5000), 4);
    assert_eq!(number(3, format!("[S]{}x:S", "@x".repeat(64)).as_bytes(), 5000), 5);
    let letters: String = ('a'..='z').map(|v| format!("@{v}")).collect();
    assert_eq!(number(3, format!("[S]{letters}a:S").as_bytes(), 5000), 7);
}

/// 3 is tried over the whole text before 4, so even the deepest text is read to its end.
#[test]
fn deepest_texts() {
    with_stack(|| {
        assert_eq!(number(3, nested("(", 2044).as_bytes(), 5000), 4);
        assert_eq!(number(3, format!("[S]{}", "(".repeat(4093)).as_bytes(), 5000), 3);
        assert_eq!(number(3, format!("[S]{}", "~".repeat(4093)).as_bytes(), 5000), 3);
    });
}

/// What is wrong behind the 65th level is 3 and not 4, wherever it stands.
#[test]
fn wrong_behind_the_limit() {
    // Three quantifiers, and two levels a time.
    let deep = |times: usize, behind: &str| format!("[S]@x@y@z{}x<y{}{behind}", "(~".repeat(times), ")".repeat(times));
    for (times, sound) in [(30, 0), (31, 4), (1000, 4)] {
        for (expected, behind) in [(sound, ""), (sound, "->#S<1"), (3, ")"), (3, "->#S<1->#S<1"), (3, "&"), (3, "x")] {
            let text = deep(times, behind);
            assert_eq!(with_stack(move || number(3, text.as_bytes(), 5000)), expected, "{times} times, then {behind}");
        }
    }
}

/// Levels end with what they stand around: in another part there are 64 again.
#[test]
fn sixty_four_in_each_part() {
    let inside = |levels: [usize; 2], sign: &str| {
        let [one, other] = levels.map(|levels| nested(sign, levels).split_off(3));
        format!("[S]{one}&{one}|{other}->{one}")
    };
    for sign in ["(", "~"] {
        assert_eq!(number(3, inside([64, 64], sign).as_bytes(), 5000), 0);
        assert_eq!(number(3, inside([64, 65], sign).as_bytes(), 5000), 4);
        assert_eq!(number(3, format!("{}->#S<1", inside([64, 65], sign)).as_bytes(), 5000), 3);
    }
}

/// Every token of some deep texts removed, doubled or exchanged with the next, and a bracket or two arrows put before it.
#[test]
fn deep_texts_broken_at_every_place() {
    let broken = |tokens: &[String], at: usize| {
        let put = |by: &[&str], skip: usize| {
            let by: Vec<String> = by.iter().map(|token| token.to_string()).collect();
            [&tokens[..at], &by, &tokens[at + skip..]].concat()
        };
        let own = tokens[at].as_str();
        let next = tokens.get(at + 1).map_or(own, |next| next);
        let exchanged = put(&[next, own], 2.min(tokens.len() - at));
        [put(&[], 1), put(&[own], 0), exchanged, put(&["("], 0), put(&[")"], 0), put(&["->", "#", "S", "<", "1", "->"], 0)]
    };
    let mut met = [0; 13];
    for (seed, levels) in (0..).zip([63, 64, 65, 70]) {
        let r = &mut Random::new(seed);
        let sound = sound_text(r, levels);
        assert_eq!(deepest(&sound.bytes(r)), levels);
        for at in 0..sound.tokens.len() {
            for tokens in broken(&sound.tokens, at) {
                let text = Text { u: sound.u, tokens }.bytes(r);
                met[number(sound.u, &text, 5000) as usize] += 1;
            }
        }
    }
    assert!([0, 3, 4].iter().all(|number| met[*number] > 100), "{met:?}");
}

#[test]
fn lengths() {
    let text = b"[S]#S<1";
    let long = |length: usize| [&text[..], &vec![b' '; length - text.len()]].concat();
    assert_eq!(number(3, &long(4096), 5000), 0);
    assert_eq!(number(3, &long(4097), 5000), 1);
    assert_eq!(number(65, &long(4097), 5000), 10);
    assert_eq!(number(257, text, 5000), 10);
    assert_eq!(number((1 << 32) + 3, text, 5000), 10);
    assert_eq!(number(3, text, 25), 0);
    assert_eq!(number(3, text, 24), 12);
    assert_eq!(number(3, text, 0), 12);
}

/// The node count of a conjunction of k literals is k and 2; nested double arrows pass every number that fits a word.
#[test]
fn nodes_and_cells() {
    let conjuncts = |k: usize| format!("[S]{}", vec!["#S<1"; k].join("&"));
    assert_eq!(number(3, conjuncts(510).as_bytes(), 5000), 0);
    assert_eq!(number(3, conjuncts(511).as_bytes(), 5000), 8);
    let arrows = |k: usize| format!("[S]{}#S<1{}", "(".repeat(k), "<->#S<1)".repeat(k));
    assert_eq!(number(3, arrows(64).as_bytes(), 5000), 8);
    assert_eq!(number(3, arrows(65).as_bytes(), 5000), 4);
    assert_eq!(number(64, b"[S]@x@y@z(x:S&y:S)", 5000), 0);
    assert_eq!(number(64, b"[S]@x@y@z(x:S&y:S&z:S)", 5000), 9);
}
