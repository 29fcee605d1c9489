//! How much stack a call needs: a thread's unused stack is filled with a mark, the call is made, and the lowest byte that lost
//! its mark tells how deep it went.
use std::hint::black_box;
use std::ptr::with_exposed_provenance_mut;
use std::thread;

const STACK: usize = 8 << 20;
const MARKED: usize = 4 << 20;
/// Left unmarked, for the frames of the marking itself: no need below it can be told.
pub const MARGIN: usize = 1024;
const MARK: u64 = 0x5ac3_71d2_96e8_b40f;

/// Bytes of stack below the caller's frame that the call used, rounded up to eight.
pub fn need(call: impl FnOnce() + Send) -> usize {
    thread::scope(|scope| {
        let builder = thread::Builder::new().stack_size(STACK);
        let thread = builder.spawn_scoped(scope, || measure(call)).expect("a thread with a stack");
        thread.join().expect("the call returns")
    })
}

#[inline(never)]
fn measure(call: impl FnOnce()) -> usize {
    let here = 0u64;
    let top = black_box(&here) as *const u64 as usize & !7;
    mark(top);
    run(call);
    top - lowest_touched(top)
}

/// A frame of its own, so that the call's frames lie below the marking function's caller.
#[inline(never)]
fn run(call: impl FnOnce()) {
    call();
    black_box(());
}

fn words(top: usize) -> impl Iterator<Item = *mut u64> {
    (top - MARKED..top - MARGIN).step_by(8).map(with_exposed_provenance_mut)
}

#[inline(never)]
fn mark(top: usize) {
    for word in words(top) {
        // SAFETY: the thread's stack is mapped for STACK bytes, and nothing lives below the running frame.
        unsafe { word.write_volatile(MARK) };
    }
}

#[inline(never)]
fn lowest_touched(top: usize) -> usize {
    // SAFETY: as above; these words were written by `mark` or by the call.
    let touched = words(top).find(|word| unsafe { word.read_volatile() } != MARK);
    touched.map_or(top - MARGIN, |word| word as usize)
}
