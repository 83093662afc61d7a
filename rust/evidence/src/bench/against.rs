//! Improve of two archives, each linked into a shared object, in one run and sampled in turn: what a change of the engine brings.
use std::ffi::{c_char, c_int, c_void, CStr, CString};
use std::hint::black_box;

use vuyekhang::raw::{ImproveAnswer, LoadAnswer};
use vuyekhang::Move as Record;

use super::calls::improved;
use super::clock::medians;
use super::plans::KINDS;
use super::state::State;
use crate::calls::{Improved, Move, Numbers};

extern "C" {
    fn dlopen(name: *const c_char, flags: c_int) -> *mut c_void;
    fn dlsym(object: *mut c_void, name: *const c_char) -> *mut c_void;
}

/// Every symbol is found at once, and none is handed to what is opened later: both objects have the same names.
const NOW_AND_LOCAL: c_int = 2;

type Load = unsafe extern "C" fn(*const u8, usize, *const u64, usize, *mut u32, usize) -> LoadAnswer;
type Improve = unsafe extern "C" fn(
    *const u8,
    usize,
    *mut u64,
    usize,
    *mut u32,
    usize,
    *mut u32,
    usize,
    *mut Record,
    usize,
    *mut usize,
    u32,
) -> ImproveAnswer;

/// The calls of an archive that is opened as a shared object, which is never closed.
#[derive(Clone, Copy)]
pub struct Opened {
    load: Load,
    improve: Improve,
}

fn symbol(object: *mut c_void, name: &CStr) -> *mut c_void {
    // SAFETY: the object is open, and the name ends with 0.
    let found = unsafe { dlsym(object, name.as_ptr()) };
    assert!(!found.is_null(), "the archive has {name:?}");
    found
}

impl Opened {
    pub fn of(path: &str) -> Self {
        let name = CString::new(path).expect("a path has no 0");
        // SAFETY: the name ends with 0; an archive runs nothing when it is opened.
        let object = unsafe { dlopen(name.as_ptr(), NOW_AND_LOCAL) };
        assert!(!object.is_null(), "{path} can be opened");
        let [load, improve] = [c"vk_load", c"vk_improve"].map(|name| symbol(object, name));
        // SAFETY: include/vuyekhang.h of both archives declares these functions so.
        unsafe {
            Opened { load: std::mem::transmute::<*mut c_void, Load>(load), improve: std::mem::transmute::<*mut c_void, Improve>(improve) }
        }
    }

    fn load(&self, s: &mut State) -> LoadAnswer {
        let (t, ms, cs) = (s.table.as_ptr(), s.masks.as_ptr(), s.cells.as_mut_ptr());
        // SAFETY: each pointer comes from a table of the length beside it, and the cells, which are written, are no part of another.
        unsafe { (self.load)(t, s.table.len(), ms, s.masks.len(), cs, s.cells.len()) }
    }

    fn improve(&self, s: &mut State, kinds: u32) -> ImproveAnswer {
        s.make_room();
        let (t, ms, cs) = (s.table.as_ptr(), s.masks.as_mut_ptr(), s.cells.as_mut_ptr());
        let (sc, j, count) = (s.scratch.as_mut_ptr(), s.journal.as_mut_ptr(), &mut s.count);
        let [table, masks, cells] = [s.table.len(), s.masks.len(), s.cells.len()];
        // SAFETY: each pointer comes from a table of the length beside it, that of the count from a reference, and those that are
        // written are no part of another.
        unsafe { (self.improve)(t, table, ms, masks, cs, cells, sc, s.scratch.len(), j, s.journal.len(), count, black_box(kinds)) }
    }
}

/// Improve of some kinds by two archives, in nanoseconds.
pub struct Pair {
    pub kinds: &'static str,
    pub before: f64,
    pub now: f64,
}

/// Improve of each kind and of all, each handed out as soon as it is measured.
pub fn measure(before: Opened, now: Opened, state: &State, each: &mut dyn FnMut(Pair)) {
    let [mut b, mut n] = [state.clone(), state.clone()];
    assert_eq!(before.load(&mut b), now.load(&mut n), "what load answers");
    b.same(&n);
    let kinds = KINDS.into_iter().enumerate().map(|(i, name)| (1 << i, name));
    kinds.chain([(15, "all kinds")]).for_each(|(kinds, name)| each(pair(before, now, state, kinds, name)));
}

fn pair(before: Opened, now: Opened, state: &State, kinds: u32, name: &'static str) -> Pair {
    let [mut b, mut n] = [state.clone(), state.clone()];
    assert_eq!(before.improve(&mut b, kinds), now.improve(&mut n, kinds), "what improve answers");
    b.same(&n);
    assert!((b.journal, b.count) == (n.journal, n.count), "journals differ");
    let [mut b, mut n] = [state.clone(), state.clone()];
    let mut by_before = |times| improved(&mut b, times, &mut |s| answer(before.improve(s, kinds)));
    let mut by_now = |times| improved(&mut n, times, &mut |s| answer(now.improve(s, kinds)));
    let [before, now] = medians([&mut by_before, &mut by_now]);
    Pair { kinds: name, before, now }
}

/// What a raw answer says.
fn answer(a: ImproveAnswer) -> Result<Improved, u32> {
    let Record { kind, s, t, p, q } = a.chosen;
    match (a.number, a.found) {
        (0, 0) => Ok(Improved::NoBetter(a.before)),
        (0, _) => Ok(Improved::Made(Move { kind, s, t, p, q }, Numbers { before: a.before, after: a.after, changed: a.changed })),
        (number, _) => Err(number),
    }
}
