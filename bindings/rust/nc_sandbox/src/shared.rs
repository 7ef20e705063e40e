//! What a box has behind it, for its owner, its call-backs and its killers.

use crate::ffi::{self, NcsBox};
use std::any::Any;
use std::ptr::NonNull;
use std::sync::{Mutex, MutexGuard, PoisonError};

/// What a call-back panicked with.
pub(crate) type Payload = Box<dyn Any + Send>;

/// A box of the library. It is freed when the last of its owner and of killers that are just at work lets go of it.
///
/// The rules of nc_sandbox.h that the SAFETY comments of this crate cite, and why they are kept:
/// - "One thread": one thread at a time is in a call of a box. [`Sandbox`](crate::Sandbox) and [`Caller`](crate::Caller) are the only ways
///   to it, and neither is `Sync`. A `Caller` isn't `Send`, so it stays with the thread whose call is under way, and the `Sandbox` is
///   borrowed by that call.
/// - "Freed once": a box is freed once, and isn't used after that. Whoever uses it holds an `Arc` of this type or borrows from one.
/// - "Outside": nobody is in a box that has [`Own`](crate::Own) memory, so that its memory stays as it is, while somebody has a `&mut` of its
///   `Sandbox` and makes no call, or a `&mut` of a `Caller`, whose thread is in a call-back. The same holds of `&`. Nobody else writes
///   there, since a box is only made beside one that has [`Common`](crate::Common) memory, and has such memory too.
/// - "Copied": nobody has a reference to a byte of common memory, which changes at any moment. The library copies such bytes, and this crate
///   looks only at the copies.
pub struct Shared {
    raw: NonNull<NcsBox>,
    panic: Mutex<Option<Payload>>,
}

// SAFETY: nc_sandbox.h, "Threads": any thread may call, and free. What may not be done at once is kept by "One thread".
unsafe impl Send for Shared {}
// SAFETY: another thread than the one of "One thread" has only a killer, whose ncs_kill any thread may call at any time.
unsafe impl Sync for Shared {}

impl Shared {
    /// A value that owns the box.
    pub(crate) fn of(raw: NonNull<NcsBox>) -> Shared {
        Shared { raw, panic: Mutex::new(None) }
    }

    pub(crate) fn raw(&self) -> *mut NcsBox {
        self.raw.as_ptr()
    }

    /// The panic that has to be resumed when the call has come out, if there is one.
    pub(crate) fn panic(&self) -> MutexGuard<'_, Option<Payload>> {
        locked(&self.panic)
    }
}

impl Drop for Shared {
    fn drop(&mut self) {
        // SAFETY: "Freed once". No call is under way, since it would borrow the `Sandbox`, which is gone. A forked child frees nothing.
        let _ = unsafe { ffi::ncs_free(self.raw()) };
    }
}

/// Nobody panics while holding a lock of this crate, so none is ever poisoned.
pub(crate) fn locked<T>(mutex: &Mutex<T>) -> MutexGuard<'_, T> {
    mutex.lock().unwrap_or_else(PoisonError::into_inner)
}
