//! How a thread keeps the handlers of others away while it is inside a box.
//!
//! The frame of a handler without `SA_ONSTACK` would be written below the untrusted stack pointer. So the library blocks all signals but
//! its own while a thread is inside, and they come in when it is outside, or within 10 ms of its processor time. A host promises nothing
//! for that. By the functions of this module a thread chooses another way.

use crate::{ffi, Refusal};
use std::cell::Cell;
use std::marker::PhantomData;

thread_local! {
    /// The scopes of this thread, without those that were refused.
    static SCOPES: Cell<usize> = const { Cell::new(0) };
}

/// `NCS_SIGNALS_HELD`: runs a function, such as one with many calls, in which all signals but the library's own stay blocked in this
/// thread, also in call-backs.
///
/// It may be called within itself. The end of the outermost call is [`block`], also after a promise. If it is refused, the function isn't
/// run, and nothing has changed.
///
/// ```
/// # use nc_sandbox::{signals, Access, At, Refusal, Sandbox, Untrusted};
/// fn draw_all(sandbox: &mut Sandbox, draw: At, pictures: &[At]) -> Result<usize, Refusal> {
///     signals::held(|| {
///         let mut drawn = |picture: &At| sandbox.call::<Untrusted<bool>>(draw, (*picture,)).is_ok_and(|done| done.is(true));
///         pictures.iter().filter(|picture| drawn(picture)).count()
///     })
/// }
/// ```
pub fn held<R>(function: impl FnOnce() -> R) -> Result<R, Refusal> {
    let _scope = Scope::new()?;
    Ok(function())
}

/// `NCS_SIGNALS_BLOCKED`: blocks them only while this thread is inside, as each thread begins. It takes a promise back.
pub fn block() -> Result<(), Refusal> {
    choose(ffi::NCS_SIGNALS_BLOCKED)
}

/// `NCS_SIGNALS_PROMISED`: blocks nothing in this thread. The promise is refused while a handler has no `SA_ONSTACK`.
///
/// # Safety
///
/// Until this thread chooses another way or ends,
///
/// - each handler of the process has `SA_ONSTACK` at any time, whoever installs it, be it another crate or a library in C,
/// - none of them follows the registers in its context, which may be those of the untrusted code, or makes a call of this crate, and
/// - this thread keeps its alternate stack.
///
/// Otherwise the kernel writes the frame of a handler to where the untrusted code's stack pointer points, and that code can take over the
/// process.
pub unsafe fn promise_flags() -> Result<(), Refusal> {
    choose(ffi::NCS_SIGNALS_PROMISED)
}

fn choose(how: u32) -> Result<(), Refusal> {
    // SAFETY: the pointer leads to a refusal. Of the three ways only a promise asks for something, and `promise_flags` asks its caller.
    Refusal::unless_made(|why| unsafe { ffi::ncs_signals(how, why) })
}

/// It ends in the thread in which it began, also by a panic.
struct Scope {
    one_thread: PhantomData<*mut ()>,
}

impl Scope {
    fn new() -> Result<Scope, Refusal> {
        if SCOPES.get() == 0 {
            choose(ffi::NCS_SIGNALS_HELD)?;
        }
        SCOPES.set(SCOPES.get() + 1);
        Ok(Scope { one_thread: PhantomData })
    }
}

impl Drop for Scope {
    fn drop(&mut self) {
        SCOPES.set(SCOPES.get() - 1);
        if SCOPES.get() == 0 {
            let _ = block(); // if this is refused, they stay blocked
        }
    }
}
