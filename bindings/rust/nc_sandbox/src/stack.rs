//! The stack on which a thread handles signals.

use std::cell::Cell;
use std::ffi::{c_int, c_void};
use std::ptr;

/// `stack_t` of Linux on x86-64.
#[repr(C)]
struct Stack {
    start: *mut c_void,
    flags: c_int,
    len: usize,
}

const SS_DISABLE: c_int = 2;

extern "C" {
    fn sigaltstack(new: *const Stack, old: *mut Stack) -> c_int;
}

thread_local! {
    static IS_PREPARED: Cell<bool> = const { Cell::new(false) };
}

/// Whether this thread may call a box, as far as its alternate stack goes. The library gives it one at its first call, and relies on it
/// from then on. Rust takes it away as the thread ends, before the destructors of thread-local values run: a signal would then be handled
/// on the stack of the untrusted code. The look takes a system call.
pub(crate) fn is_there() -> bool {
    if !IS_PREPARED.replace(true) {
        return true;
    }
    let mut stack = Stack { start: ptr::null_mut(), flags: SS_DISABLE, len: 0 };
    // SAFETY: the first pointer is null, so nothing changes, and the second one leads to a `stack_t`.
    let told = unsafe { sigaltstack(ptr::null(), &mut stack) };
    told == 0 && stack.flags & SS_DISABLE == 0
}
