//! Whether standard output was closed when the program was started.
//!
//! Rust's runtime opens /dev/null in place of a closed standard stream, so that what is printed would be lost and the
//! status still 0. Inside `main` that is not to be told from an output that somebody sent to /dev/null. So the
//! descriptor is looked at before the runtime begins, by a function that the system calls when it has loaded the
//! program.

#![allow(unsafe_code)]

use std::ffi::c_int;
use std::sync::atomic::{AtomicBool, Ordering};

static CLOSED: AtomicBool = AtomicBool::new(false);

const STANDARD_OUTPUT: c_int = 1;
/// The command that asks for a descriptor's flags; 1 on every Unix.
const F_GETFD: c_int = 1;

unsafe extern "C" {
    fn fcntl(descriptor: c_int, command: c_int, ...) -> c_int;
}

extern "C" fn look() {
    // SAFETY: the C library's function, declared as it declares it. This command takes no third argument and changes
    // nothing; of a descriptor that is not open it answers -1.
    let flags = unsafe { fcntl(STANDARD_OUTPUT, F_GETFD) };
    CLOSED.store(flags == -1, Ordering::Relaxed);
}

// SAFETY: the section is a list of pointers to C functions, which are called one after the other before `main`. The C
// library is ready by then; Rust's runtime is not, and `look` needs nothing of it.
#[used]
#[cfg_attr(target_vendor = "apple", unsafe(link_section = "__DATA,__mod_init_func"))]
#[cfg_attr(not(target_vendor = "apple"), unsafe(link_section = ".init_array"))]
static LOOK_BEFORE_MAIN: extern "C" fn() = look;

/// Whether it was.
pub fn at_start() -> bool {
    CLOSED.load(Ordering::Relaxed)
}
