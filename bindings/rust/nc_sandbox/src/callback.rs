//! Call-backs.

use crate::access::sealed::Inside;
use crate::ffi::{self, NcsBox};
use crate::shared::{locked, Shared};
use crate::{Access, Memory, Own, Untrusted};
use std::ffi::c_void;
use std::fmt;
use std::marker::PhantomData;
use std::panic::{catch_unwind, AssertUnwindSafe};
use std::slice;
use std::sync::{Arc, Mutex};

/// A call-back, whose result goes to EDX and EAX.
type Function<M> = Box<dyn FnMut(&mut Caller<'_, M>, &[Untrusted<u32>]) -> u64 + Send>;

/// The box whose code has called back, for as long as the call-back lasts. By [`Access`], the call-back may call it and read and write its
/// memory.
///
/// It stays with its thread:
///
/// ```compile_fail,E0277
/// fn is_send<T: Send>() {}
/// is_send::<nc_sandbox::Caller<'_>>();
/// ```
pub struct Caller<'a, M = Own> {
    shared: &'a Shared,
    one_thread: PhantomData<*mut M>,
}

impl<M: Memory> Caller<'_, M> {
    /// `ncs_deny`: the call that called back ends with [`End::Denied`](crate::End::Denied), once the call-back has returned.
    pub fn deny(&mut self) {
        // SAFETY: "One thread", and this is within a call-back of the box.
        unsafe { ffi::ncs_deny(self.shared.raw()) }
    }
}

impl<M: Memory> Inside for Caller<'_, M> {
    fn shared(&self) -> &Shared {
        self.shared
    }
}

impl<M: Memory> Access for Caller<'_, M> {
    type Memory = M;
}

impl<M> fmt::Debug for Caller<'_, M> {
    fn fmt(&self, f: &mut fmt::Formatter<'_>) -> fmt::Result {
        f.debug_struct("Caller").finish_non_exhaustive()
    }
}

/// A call-back as the library knows it, by its address.
pub(crate) struct Slot<M> {
    shared: Arc<Shared>,
    args: usize,
    /// `None` while it is under way.
    function: Mutex<Option<Function<M>>>,
}

impl<M: Memory> Slot<M> {
    pub(crate) fn new(shared: Arc<Shared>, args: usize, function: Function<M>) -> Arc<Slot<M>> {
        Arc::new(Slot { shared, args, function: Mutex::new(Some(function)) })
    }

    /// Calls the function. While it is under way it is denied instead, since the code may call back as it likes and there is only one
    /// `&mut`. A panic is kept for the call that has called back, and ends that call.
    fn answer(&self, args: &[Untrusted<u32>]) -> u64 {
        let mut caller = Caller { shared: &self.shared, one_thread: PhantomData };
        let taken = locked(&self.function).take();
        let Some(mut function) = taken else {
            caller.deny();
            return 0;
        };
        let answer = catch_unwind(AssertUnwindSafe(|| function(&mut caller, args)));
        *locked(&self.function) = Some(function);
        answer.unwrap_or_else(|payload| {
            *self.shared.panic() = Some(payload);
            caller.deny();
            0
        })
    }
}

/// An `NcsCallback`. No panic leaves it, since the function runs within `catch_unwind`.
///
/// # Safety
///
/// `user` is the address of a [`Slot<M>`](Slot) that outlives this call, and `args` leads to as many words as the slot says.
pub(crate) unsafe extern "C" fn serve<M: Memory>(_box: *mut NcsBox, user: *mut c_void, args: *const u32) -> u64 {
    // SAFETY: as above. A slot is only ever borrowed by `&`, also by calls within calls.
    let slot = unsafe { &*user.cast_const().cast::<Slot<M>>() };
    // SAFETY: as above. The library has copied the arguments to where nobody changes them during this call. An `Untrusted` is transparent.
    let args = unsafe { slice::from_raw_parts(args.cast::<Untrusted<u32>>(), slot.args) };
    slot.answer(args)
}
