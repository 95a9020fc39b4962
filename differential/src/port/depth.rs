//! How much of the stack a call needs: what lies below it is painted before, and looked at afterwards.

use std::hint::black_box;
use std::{ptr, slice};

/// So many bytes below a frame are painted. A call that writes to the last of them needs more.
const DEPTH: usize = 1 << 20;
/// Painting and looking need some of the stack themselves: what lies nearer is not told apart.
pub const NEAREST: usize = 128;
/// What no call writes.
const PAINT: u64 = 0xC3A9_5E1D_7B24_F086;
const WORD: usize = size_of::<u64>();

/// The call's answer, and how far below this frame it wrote, in bytes: `NEAREST` at least.
#[inline(never)]
pub fn measured<T>(call: impl FnOnce() -> T) -> (T, usize) {
    let frame = frame();
    paint(frame);
    let answer = call();
    (answer, touched(frame))
}

/// Where the caller's frame ends.
#[inline(never)]
fn frame() -> usize {
    let here = 0_u64;
    black_box(&raw const here).addr()
}

/// What is painted.
fn below(frame: usize) -> &'static mut [u64] {
    let at = ptr::with_exposed_provenance_mut(frame - DEPTH);
    // SAFETY: the thread's stack goes on beyond `DEPTH`, and when this is used no other frame lies there.
    unsafe { slice::from_raw_parts_mut(at, (DEPTH - NEAREST) / WORD) }
}

#[inline(never)]
fn paint(frame: usize) {
    below(frame).fill(PAINT);
}

#[inline(never)]
fn touched(frame: usize) -> usize {
    let untouched = below(frame).iter().position(|word| *word != PAINT);
    match untouched {
        Some(0) => panic!("a call that needs {DEPTH} bytes or more"),
        Some(words) => DEPTH - words * WORD,
        None => NEAREST,
    }
}
