//! How many bytes of stack a call takes, by painting the stack below it. All unsafe code of the measuring stands here.
use std::arch::asm;
use std::marker::PhantomData;

use crate::with_stack;

/// A word that no frame holds by chance.
const PAINT: u64 = 0xC3A5_9E1D_7B42_F06D;

/// The most that is painted; the thread has a multiple of it.
pub const MOST: usize = 16 << 20;

/// A thread whose stack may be painted. It stays on its thread.
pub struct Stack(PhantomData<*const ()>);

/// Runs on a thread with stack enough to be painted.
pub fn on_painted_stack<T: Send + 'static>(run: impl FnOnce(&Stack) -> T + Send + 'static) -> T {
    with_stack(|| run(&Stack(PhantomData)))
}

impl Stack {
    /// Runs a call and says how many bytes of stack it took: how far below this function's own frame the paint is gone, from the return
    /// address on. The frame itself, where arguments past the sixth stand, is not counted. A call may go no deeper than `room`.
    ///
    /// The call is inlined here, so that nothing else stands between this frame and it.
    #[inline(never)]
    pub fn used(&self, room: usize, call: impl FnOnce()) -> usize {
        assert!(room <= MOST && room.is_multiple_of(8));
        let top: usize;
        // SAFETY: nothing lives below the stack pointer while no call is running: a block without `nostack` keeps the compiler from
        // a red zone there. `room` bytes below it belong to this thread, since a `Stack` is only made on one that has many times
        // `MOST`. One instruction writes the words, upwards, and uses no stack itself.
        unsafe {
            asm!(
                "mov {top}, rsp",
                "mov rdi, rsp",
                "sub rdi, {room}",
                "rep stosq",
                top = out(reg) top,
                room = in(reg) room,
                inout("rcx") room / 8 => _,
                in("rax") PAINT,
                out("rdi") _,
            );
        }
        call();
        // SAFETY: the words that were painted above: mapped, aligned (the stack pointer is a multiple of 8), and read as they are.
        let painted = |at: &usize| unsafe { (*at as *const u64).read_volatile() } == PAINT;
        let deepest = (top - room..top).step_by(8).find(|at| !painted(at)).unwrap_or(top);
        assert!(deepest > top - room, "a call takes more than the {room} bytes that are painted");
        top - deepest
    }
}
