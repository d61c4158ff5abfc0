//! Whether a stream was closed when the program began.

#![allow(unsafe_code, reason = "C is called, and before `main`")]

use std::ffi::c_int;
use std::sync::atomic::{AtomicBool, Ordering};

/// Asks `fcntl` for the flags of a descriptor, which only an open one has.
const F_GETFD: c_int = 1;

extern "C" {
    fn fcntl(descriptor: c_int, command: c_int, ...) -> c_int;
}

static CLOSED: AtomicBool = AtomicBool::new(false);

/// Before `main` Rust opens /dev/null in the place of a closed stream, and what is printed would be
/// lost without an error. What this section lists is called earlier still.
#[used]
#[link_section = ".init_array"]
static BEFORE_RUST_BEGINS: extern "C" fn() = look;

extern "C" fn look() {
    // SAFETY: any number may be asked about, and no memory is handed over.
    let is_closed = |descriptor| unsafe { fcntl(descriptor, F_GETFD) } == -1;
    CLOSED.store(is_closed(1) || is_closed(2), Ordering::Relaxed);
}

/// Whether standard output or the error stream was closed.
pub fn were_closed() -> bool {
    CLOSED.load(Ordering::Relaxed)
}
