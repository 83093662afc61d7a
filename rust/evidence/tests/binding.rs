//! The binding's own part: each ground by its name, moves and kinds with any fields, and answers that no version gives today.
use vuyekhang::raw::{CountAnswer, ImproveAnswer, LoadAnswer, MoveAnswer, ReadAnswer};
use vuyekhang::{best_moves, improve, load, make_move, read, test_begin, test_end, trial, undo, write};
use vuyekhang::{Improved, Kinds, Loaded, Move, Moved, Read, Refusal, MOST_RECORDS, MOST_STACK, MOST_TABLE, MOST_TEXT};

const PLAN_A: &[u8] = b"[STI] @x (x:I <-> x:S & x:T) & #I <= 1";
const CELLS: usize = 34;

fn plan_a() -> [u8; MOST_TABLE] {
    let mut table = [0; MOST_TABLE];
    let answer = read(3, PLAN_A, &mut table);
    assert_eq!(answer, Ok(Read { nodes: 14, cells: CELLS }));
    table
}

fn refused(u: u64, text: &str) -> Refusal {
    read(u, text.as_bytes(), &mut [0; MOST_TABLE]).expect_err(text)
}

#[test]
fn grounds_of_the_plans_writer() {
    let nested = format!("[S]{}#S<1{}", "(".repeat(65), ")".repeat(65));
    let grounds = [
        (Refusal::TextTooLong, " ".repeat(4097)),
        (Refusal::UnknownByte, "$".to_string()),
        (Refusal::OutsideGrammar, "[S]".to_string()),
        (Refusal::NestedTooDeep, nested),
        (Refusal::WrongName, "[S] #T < 1".to_string()),
        (Refusal::ConstantTooLarge, "[S] #S < 65".to_string()),
        (Refusal::FourthQuantifier, "[S] @a @b @c @d d:S".to_string()),
        (Refusal::TooManyNodes, format!("[S]{}", ["#S<1"; 511].join("&"))),
        (Refusal::TooManyCells, "[S] @x @y @z (x:S & y:S & z:S)".to_string()),
    ];
    for (number, (refusal, text)) in (1..).zip(grounds) {
        assert_eq!(refused(64, &text), refusal);
        assert_eq!(refusal.number(), number);
    }
}

#[test]
fn grounds_of_the_host() {
    assert_eq!(refused(65, "[S] #S < 1"), Refusal::WrongPortCount);
    assert_eq!(read(3, PLAN_A, &mut [0; 120]), Err(Refusal::TooShort));
    let table = plan_a();
    assert_eq!(load(&table[1..], &[3, 7, 1, 0], &mut [0; CELLS]), Err(Refusal::BrokenTable));
    assert_eq!(load(&table, &[3, 7, 1, 0], &mut [0; CELLS - 1]), Err(Refusal::TooShort));
    assert_eq!(load(&table, &[3, 7, 1], &mut [0; CELLS]), Err(Refusal::TooShort));
    assert_eq!(load(&table, &[3, 8, 1, 0], &mut [0; CELLS]), Err(Refusal::PortOutsidePlan));
    assert_eq!(load(&table, &[3, 7, 1, 8], &mut [0; CELLS]), Err(Refusal::PortOutsidePlan));
    assert_eq!(write(&table[1..], &mut [0; MOST_TEXT]), Err(Refusal::BrokenTable));
    assert_eq!(write(&table, &mut [0; 57]), Err(Refusal::TooShort));
    assert_eq!(write(&table, &mut [0; 58]), Ok(58));
    let host = [Refusal::WrongPortCount, Refusal::BrokenTable, Refusal::TooShort, Refusal::PortOutsidePlan];
    assert_eq!(host.map(|refusal| refusal.number()), [10, 11, 12, 13]);
}

/// A text without spaces is read, and would be over 4,096 bytes with the writer's.
#[test]
fn a_plan_without_a_text() {
    let mut table = [0; MOST_TABLE];
    let dense = format!("[S]{}", ["#S<=64"; 510].join("&"));
    assert_eq!(read(3, dense.as_bytes(), &mut table), Ok(Read { nodes: 512, cells: 512 }));
    assert_eq!(write(&table, &mut [0; MOST_TEXT]), Err(Refusal::Unwritable));
    assert_eq!(write(&table, &mut []), Err(Refusal::Unwritable));
    assert_eq!(Refusal::Unwritable.number(), 17);
}

#[test]
fn grounds_of_the_operator() {
    let (table, mut masks, mut cells, mut scratch) = (plan_a(), [3, 7, 1, 0], [0; CELLS], [0; CELLS]);
    assert_eq!(load(&table, &masks, &mut cells), Ok(Loaded { root: 1, cells: CELLS }));
    let (mut journal, mut count) = ([Move::default(); 2], 0);
    let mut made = |m: Move| make_move(&table, &mut masks, &mut cells, &mut journal, &mut count, m);
    for unknown in
        [Move::default(), Move { kind: 5, ..Move::add(0, 2) }, Move { q: 1, ..Move::add(0, 2) }, Move::add(3, 2), Move::add(0, 3)]
    {
        assert_eq!(made(unknown), Err(Refusal::UnknownMove), "{unknown:?}");
    }
    for illegal in [Move::add(0, 0), Move::drop(0, 2), Move::transfer(1, 0, 0), Move::transfer(1, 1, 0), Move::swap(0, 2, 0)] {
        assert_eq!(made(illegal), Err(Refusal::IllegalMove), "{illegal:?}");
    }
    for kinds in [Kinds(0), Kinds(16), Kinds(u32::MAX)] {
        let answer = improve(&table, &mut masks, &mut cells, &mut scratch, &mut journal, &mut count, kinds);
        assert_eq!(answer, Err(Refusal::UnknownMove));
        assert_eq!(best_moves(&table, &masks, &cells, &mut scratch, kinds, &mut []), Err(Refusal::UnknownMove));
    }
    assert_eq!(best_moves(&table, &masks, &cells, &mut scratch, Kinds::DROP, &mut []), Err(Refusal::ListTooShort));
    let operator = [Refusal::UnknownMove, Refusal::IllegalMove, Refusal::ListTooShort];
    assert_eq!(operator.map(|refusal| refusal.number()), [14, 15, 16]);
}

/// A journal of one record, full and empty by turns.
#[test]
fn grounds_of_the_journal() {
    let (table, mut masks, mut cells, mut scratch) = (plan_a(), [3, 7, 1, 0], [0; CELLS], [0; CELLS]);
    load(&table, &masks, &mut cells).expect("plan A is sound");
    let (mut journal, mut count) = ([Move::default()], 0);
    assert_eq!(undo(&table, &mut masks, &mut cells, &journal, &mut count), Err(Refusal::JournalEmpty));
    make_move(&table, &mut masks, &mut cells, &mut journal, &mut count, Move::add(2, 2)).expect("there is room");
    assert_eq!(make_move(&table, &mut masks, &mut cells, &mut journal, &mut count, Move::drop(1, 1)), Err(Refusal::JournalFull));
    let answer = improve(&table, &mut masks, &mut cells, &mut scratch, &mut journal, &mut count, Kinds::DROP);
    assert_eq!(answer, Err(Refusal::JournalFull));
    assert_eq!((masks, journal, count), ([3, 7, 5, 0], [Move::add(2, 2)], 1));
    for past in [2, MOST_RECORDS + 1, usize::MAX] {
        count = past;
        assert_eq!(make_move(&table, &mut masks, &mut cells, &mut journal, &mut count, Move::drop(1, 1)), Err(Refusal::TooShort));
        assert_eq!(undo(&table, &mut masks, &mut cells, &journal, &mut count), Err(Refusal::TooShort));
        assert_eq!(count, past);
    }
    count = 1;
    assert!(undo(&table, &mut masks, &mut cells, &journal, &mut count).is_ok());
    assert_eq!((masks, journal, count), ([3, 7, 1, 0], [Move::add(2, 2)], 0));
    assert_eq!([Refusal::JournalFull, Refusal::JournalEmpty].map(|refusal| refusal.number()), [18, 19]);
}

/// A port goes into test and out of it, with each ground in between.
#[test]
fn grounds_of_a_test() {
    let (table, mut masks, mut cells) = (plan_a(), [3, 7, 3, 0], [0; CELLS]);
    assert_eq!(load(&table, &masks, &mut cells), Ok(Loaded { root: 1, cells: CELLS }));
    assert_eq!(test_end(&table, &mut masks, &mut cells, 1), Err(Refusal::AlreadyInCondition));
    assert_eq!(test_begin(&table, &mut masks, &mut cells, 1), Ok(Moved { before: 1, after: 0, changed: 3 }));
    assert_eq!(masks, [3, 7, 3, 2]);
    assert_eq!(test_begin(&table, &mut masks, &mut cells, 1), Err(Refusal::AlreadyInCondition));
    assert_eq!(test_begin(&table[1..], &mut masks, &mut cells, 1), Err(Refusal::BrokenTable));
    assert_eq!(test_begin(&table, &mut masks[..3], &mut cells, 1), Err(Refusal::TooShort));
    assert_eq!(test_begin(&table, &mut [3, 7, 3, 10], &mut cells, 1), Err(Refusal::PortOutsidePlan));
    for unknown in [3, 64, u32::MAX] {
        assert_eq!(test_begin(&table, &mut masks, &mut cells, unknown), Err(Refusal::UnknownMove));
        assert_eq!(test_end(&table, &mut masks, &mut cells, unknown), Err(Refusal::UnknownMove));
    }
    assert_eq!(test_end(&table, &mut masks, &mut cells, 1), Ok(Moved { before: 0, after: 1, changed: 3 }));
    assert_eq!(masks, [3, 7, 3, 0]);
    assert_eq!(Refusal::AlreadyInCondition.number(), 20);
}

#[test]
fn a_move_of_each_kind() {
    let (table, mut scratch) = (plan_a(), [0; CELLS]);
    for (m, after) in [
        (Move::add(2, 2), [3, 7, 5, 0]),
        (Move::drop(1, 1), [3, 5, 1, 0]),
        (Move::transfer(1, 2, 1), [3, 5, 3, 0]),
        (Move::swap(0, 1, 2), [5, 7, 1, 0]),
    ] {
        let (mut masks, mut cells) = ([3, 7, 1, 0], [0; CELLS]);
        load(&table, &masks, &mut cells).expect("plan A is sound");
        let tried = trial(&table, &masks, &cells, &mut scratch, m);
        let (mut journal, mut count) = ([Move::default(); 1], 0);
        assert_eq!(make_move(&table, &mut masks, &mut cells, &mut journal, &mut count, m), tried);
        let moved = tried.expect("the move is legal");
        let made = cells;
        let loaded = load(&table, &masks, &mut cells).expect("plan A is sound");
        assert_eq!((masks, moved.before, moved.after, made), (after, 1, loaded.root, cells), "{m:?}");
        let undone = undo(&table, &mut masks, &mut cells, &journal, &mut count);
        assert_eq!(undone, Ok(Moved { before: moved.after, after: 1, changed: moved.changed }));
        assert_eq!((masks, journal, count), ([3, 7, 1, 0], [m], 0));
    }
}

#[test]
fn sums_of_kinds() {
    let table = plan_a();
    let improved = |kinds: Kinds| {
        let (mut masks, mut cells, mut scratch) = ([3, 7, 1, 0], [0; CELLS], [0; CELLS]);
        load(&table, &masks, &mut cells).expect("plan A is sound");
        let (mut journal, mut count) = ([Move::default(); 1], 0);
        improve(&table, &mut masks, &mut cells, &mut scratch, &mut journal, &mut count, kinds).expect("the kinds are known")
    };
    for kinds in [Kinds::DROP, Kinds::ADD | Kinds::DROP, Kinds::ALL] {
        let made = Improved::Made { chosen: Move::drop(0, 1), moved: Moved { before: 1, after: 0, changed: 8 } };
        assert_eq!(improved(kinds), made, "{kinds:?}");
    }
    assert_eq!(improved(Kinds::ADD), Improved::NoBetter { root: 1 });
    assert_eq!(Kinds::ADD | Kinds::DROP | Kinds::TRANSFER | Kinds::SWAP, Kinds::ALL);
}

/// The order of moves is that of the list.
#[test]
fn best_moves_in_order() {
    let (table, masks, mut cells, mut scratch) = (plan_a(), [1, 7, 1, 0], [0; CELLS], [0; CELLS]);
    load(&table, &masks, &mut cells).expect("plan A is sound");
    let mut list = [Move::default(); 8];
    let count = best_moves(&table, &masks, &cells, &mut scratch, Kinds::ALL, &mut list).expect("8 are enough");
    assert_eq!(list[..count], [Move::drop(1, 1), Move::drop(1, 2), Move::transfer(1, 0, 1), Move::transfer(1, 0, 2)]);
    assert!(list[..count].is_sorted());
    assert_eq!(list[count..], [Move::default(); 4]);
}

/// Each number says its own meaning, and one that is not known today is handed on as it is.
#[test]
fn numbers_and_meanings() {
    let refusal = |number: u32| ReadAnswer { number, nodes: 0, cells: 0 }.typed().expect_err("a number other than 0");
    let meanings: std::collections::BTreeSet<String> = (1..=20).map(|n| refusal(n).to_string()).collect();
    assert_eq!(meanings.len(), 20);
    for number in (1..40).chain([u32::MAX]) {
        assert_eq!(refusal(number).number(), number);
        assert!(refusal(number).to_string().starts_with(&format!("refused ({number}): ")));
        assert_eq!(matches!(refusal(number), Refusal::Other { .. }), number > 20);
    }
    assert_eq!(refusal(21).to_string(), "refused (21): a ground that this version does not name");
    assert_eq!(LoadAnswer { number: 21, root: 0, cells: 0 }.typed(), Err(refusal(21)));
    assert_eq!(MoveAnswer { number: 21, before: 0, after: 0, changed: 0 }.typed(), Err(refusal(21)));
    let chosen = Move::default();
    assert_eq!(ImproveAnswer { number: 21, found: 0, chosen, before: 0, after: 0, changed: 0 }.typed(), Err(refusal(21)));
    assert_eq!(CountAnswer { number: 21, count: 0 }.typed(), Err(refusal(21)));
    assert_eq!(CountAnswer { number: 0, count: 21_504 }.typed(), Ok(21_504));
}

#[test]
fn a_table_may_be_cut_to_its_length() {
    let mut table = [0; MOST_TABLE];
    let plan = read(3, PLAN_A, &mut table).expect("plan A is read");
    assert_eq!(plan.table_len(), 121);
    assert!(load(&table[..121], &[3, 7, 1, 0], &mut [0; CELLS]).is_ok());
    assert_eq!(load(&table[..120], &[3, 7, 1, 0], &mut [0; CELLS]), Err(Refusal::BrokenTable));
}

/// The deepest texts of each sign, on a thread that has little more stack than a call may take.
#[test]
fn stack_for_any_text() {
    let closed = |open: &str, n: usize, close: &str| format!("[S]{}#S<1{}", open.repeat(n), close.repeat(n));
    let open = |sign: &str| format!("[S]{}", sign.repeat(4093 / sign.len()));
    let texts = [closed("(", 2044, ")"), closed("~", 4089, ""), closed("@x", 2044, ""), open("("), open("~"), open("@x"), open("~(")];
    let reading = move || texts.map(|text| refused(3, &text));
    let thread = std::thread::Builder::new().stack_size(MOST_STACK + (64 << 10)).spawn(reading).expect("a thread can be started");
    let answers = thread.join().expect("the stack is enough");
    assert_eq!(answers[..3], [Refusal::NestedTooDeep; 3]);
    assert_eq!(answers[3..], [Refusal::OutsideGrammar; 4]);
}
