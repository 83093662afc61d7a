//! What the proved archive is held against: a second evaluator, and a plain engine for times.
//!
//! `second` and `plain` do not use the binding and share no code; `calls` has the records in which all three answer. `compare` and
//! `lists` compare the archive with `second`, call by call and in lists of calls; `reading` and `writing` are texts in the first,
//! `best` is the list of best moves in both, and `in_test` a port put in test. `improving` compares improve of all three. `random`,
//! `deep`, `forest` and `clauses` make what they are given, `desk` and `journals` what a list is.
//! `damage` and `list_damage` see to it that a wrong bit is reported. `bench` measures the archive beside `plain`, and `stack` how much
//! stack each call takes.
pub mod archive;
pub mod bench;
pub mod best;
pub mod calls;
pub mod clauses;
pub mod compare;
pub mod counts;
pub mod damage;
pub mod deep;
pub mod desk;
pub mod forest;
pub mod improving;
pub mod in_test;
pub mod journals;
pub mod lent;
pub mod list_damage;
pub mod lists;
pub mod plain;
pub mod random;
pub mod reading;
pub mod second;
pub mod stack;
pub mod writing;

/// Runs on a thread with stack enough for the deepest text, by any of the evaluators, and hands back what it answers.
pub fn with_stack<T: Send + 'static>(run: impl FnOnce() -> T + Send + 'static) -> T {
    let thread = std::thread::Builder::new().stack_size(256 << 20).spawn(run).expect("a thread can be started");
    match thread.join() {
        Ok(answer) => answer,
        Err(panic) => std::panic::resume_unwind(panic),
    }
}
