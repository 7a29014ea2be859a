//! Memory that runs out: one line and status 2, where Rust would end with a signal.
//!
//! The lists of a picture are asked for with `try_reserve`, and a file that is too large is told by its name. What is
//! left is small, texts and buffers of the tool's own; where not even that is to be had nothing more can be done.

#![allow(unsafe_code)]

use std::alloc::{GlobalAlloc, Layout, System};
use std::ffi::c_int;

/// Nothing of the tool's own is as large.
const LARGE: usize = 1 << 20;

const LINE: &[u8] = b"tinladle: not enough memory\n";
const STANDARD_ERROR: c_int = 2;

unsafe extern "C" {
    fn write(descriptor: c_int, bytes: *const u8, count: usize) -> isize;
    fn _exit(status: c_int) -> !;
}

/// The block, unless it was denied and is small.
fn or_end(block: *mut u8, size: usize) -> *mut u8 {
    if block.is_null() && size < LARGE {
        // SAFETY: the C library's functions, declared as it declares them; the line has as many bytes. Neither needs
        // memory, and no lock is waited for that this thread may hold.
        unsafe {
            write(STANDARD_ERROR, LINE.as_ptr(), LINE.len());
            _exit(c_int::from(super::streams::BAD))
        }
    }
    block
}

/// The system's allocator.
struct OrEnd;

// SAFETY: every call is handed on as it is, and its answer too, so what holds of the system's allocator holds of this
// one.
unsafe impl GlobalAlloc for OrEnd {
    unsafe fn alloc(&self, layout: Layout) -> *mut u8 {
        or_end(unsafe { System.alloc(layout) }, layout.size())
    }

    unsafe fn alloc_zeroed(&self, layout: Layout) -> *mut u8 {
        or_end(unsafe { System.alloc_zeroed(layout) }, layout.size())
    }

    unsafe fn realloc(&self, block: *mut u8, layout: Layout, size: usize) -> *mut u8 {
        or_end(unsafe { System.realloc(block, layout, size) }, size)
    }

    unsafe fn dealloc(&self, block: *mut u8, layout: Layout) {
        unsafe { System.dealloc(block, layout) }
    }
}

#[global_allocator]
static ALLOCATOR: OrEnd = OrEnd;
