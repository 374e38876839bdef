//! The stack of calls: makes calls on a thread that has exactly the stated stack, and measures how
//! much stack a call takes.

use record_engine::STACK;
use std::ptr::with_exposed_provenance_mut;
use std::thread;

/// Makes calls on a thread that has exactly the stated stack, and gives their result.
pub fn on_stated_stack<T: Send>(calls: impl FnOnce() -> T + Send) -> T {
    on_stack(STACK, calls)
}

fn on_stack<T: Send>(bytes: usize, calls: impl FnOnce() -> T + Send) -> T {
    thread::scope(|scope| {
        let thread = thread::Builder::new()
            .stack_size(bytes)
            .spawn_scoped(scope, calls);
        thread.expect("a thread").join().expect("no panic")
    })
}

/// The number of bytes of stack that are painted. No call takes more.
const PAINTED: usize = 2 * STACK;

/// The number of bytes below a frame that are not painted. The function that paints uses them.
const MARGIN: usize = 1024;

const PAINT: u8 = 0xA5;

/// How many bytes of stack a call takes below its caller, but at least `MARGIN`. The stack is
/// painted before the call. After the call, the lowest byte with another value shows how far the
/// call went.
pub fn stack_taken(call: impl FnOnce() + Send) -> usize {
    on_stack(2 * PAINTED, || painted(call))
}

#[inline(never)]
fn painted(call: impl FnOnce()) -> usize {
    let frame = 0_u8;
    let here = (&raw const frame).expose_provenance();
    let below = |depth: usize| with_exposed_provenance_mut::<u8>(here - depth);
    for depth in MARGIN..PAINTED {
        // SAFETY: the stack of this thread, which has twice as many bytes, goes on below the
        // frame, and no frame is there now.
        unsafe { below(depth).write_volatile(PAINT) };
    }
    call();
    // SAFETY: as before; the bytes hold the paint, or what the call left there.
    let is_taken = |&depth: &usize| unsafe { below(depth).read_volatile() } != PAINT;
    (MARGIN..PAINTED).rev().find(is_taken).unwrap_or(MARGIN)
}
