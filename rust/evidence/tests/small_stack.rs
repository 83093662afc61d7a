//! Every call on a thread of 512 KiB, over the texts and tables that take the most stack: where that is not enough, the program is
//! aborted.
use evidence::stack::tables::tables;
use evidence::stack::texts::texts;
use evidence::stack::Input;
use evidence::with_stack;

const SMALL: usize = 512 << 10;

/// Makes the calls of each input on a thread of its own, and says how many were accepted. The inputs themselves are made where there is
/// stack enough for what makes them.
fn accepted(inputs: impl Iterator<Item = Input>) -> usize {
    let on_small_stack = |input: Input| {
        let Input { name, mut tables, calls } = input;
        let made = move || calls.into_iter().filter(|call| tables.make(*call) == 0).count();
        let thread = std::thread::Builder::new().stack_size(SMALL).spawn(made).expect("a thread can be started");
        thread.join().unwrap_or_else(|_| panic!("the calls of {name} panic"))
    };
    inputs.map(on_small_stack).sum()
}

#[test]
fn deep_texts() {
    assert!(with_stack(|| accepted(texts())) > 100);
}

#[test]
fn deep_tables() {
    assert!(with_stack(|| accepted(tables())) > 1000);
}
