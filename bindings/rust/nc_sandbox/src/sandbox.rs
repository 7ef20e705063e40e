//! Boxes, and killers.

use crate::access::sealed::Inside;
use crate::callback::{serve, Slot};
use crate::ffi::{self, NcsBox, NcsLimits};
use crate::shared::Shared;
use crate::{stack, Access, At, Caller, CodeSpan, Common, Memory, Module, Own, Refusal, Untrusted, Word};
use std::cell::Cell;
use std::fmt;
use std::marker::PhantomData;
use std::ptr::NonNull;
use std::sync::{Arc, Weak};

/// What a box may use.
#[derive(Clone, Copy, Debug, PartialEq, Eq, Hash)]
pub struct Limits {
    /// Bytes of memory. Data, heap and stack are below this address. A multiple of 4096, at most 1 GiB.
    pub memory: u32,
    /// Calls that one thread may have under way at once, and those of other boxes count. 1 to 64.
    pub depth: u32,
    /// Milliseconds of processor time of the calling thread, for a call with its call-backs. 1 or more.
    pub milliseconds: u32,
}

/// A box: an instance of a module, with data, heap and stack of its own. By [`Access`] its functions are called, and its memory is read and
/// written. Dropping it is `ncs_free`. Boxes that have [`Common`] memory have everything but call-backs, limits and stack in common with
/// those [beside](Access::beside) them.
///
/// It may go to another thread, but no two threads may use it at once, not even to look. It can't be copied, and a range of its memory
/// can't outlive it:
///
/// ```compile_fail,E0277
/// fn is_sync<T: Sync>() {}
/// is_sync::<nc_sandbox::Sandbox>();
/// ```
///
/// ```compile_fail,E0277
/// fn copy(sandbox: &nc_sandbox::Sandbox) -> nc_sandbox::Sandbox {
///     nc_sandbox::Sandbox::clone(sandbox)
/// }
/// ```
///
/// ```compile_fail,E0505
/// # use nc_sandbox::{Access, At, Sandbox};
/// fn outlive(sandbox: Sandbox, at: At) -> Option<u8> {
///     let range = sandbox.bytes(at, 4).ok()?;
///     drop(sandbox);
///     Some(range[0])
/// }
/// ```
pub struct Sandbox<M = Own> {
    /// What the library has the addresses of, until the box is freed or can't be called any more.
    slots: Vec<Arc<Slot<M>>>,
    shared: Arc<Shared>,
    one_thread: PhantomData<Cell<M>>,
}

impl Sandbox<Own> {
    /// `ncs_box_new`: a box with its data as the file has it, and all other memory 0.
    pub fn new(module: &Module, limits: Limits) -> Result<Sandbox<Own>, Refusal> {
        made(module, limits)
    }
}

impl Sandbox<Common> {
    /// `ncs_box_new`: a box as [`Sandbox::new`] makes it, with memory in which other boxes can be too, by [`Access::beside`].
    pub fn common(module: &Module, limits: Limits) -> Result<Sandbox<Common>, Refusal> {
        made(module, limits)
    }
}

/// A new box, on memory in which nobody else is so far.
fn made<M: Memory>(module: &Module, limits: Limits) -> Result<Sandbox<M>, Refusal> {
    let Limits { memory, depth, milliseconds } = limits;
    let limits = NcsLimits { memory, depth, milliseconds };
    // SAFETY: the module is there, and the pointers lead to limits and a refusal. The library keeps the module as long as the box.
    let made = Refusal::or(|why| unsafe { ffi::ncs_box_new(module.handle.as_ptr(), &limits, why) })?;
    Ok(Sandbox::of(made))
}

impl<M: Memory> Sandbox<M> {
    /// A value that owns the box.
    pub(crate) fn of(made: NonNull<NcsBox>) -> Sandbox<M> {
        Sandbox { slots: Vec::new(), shared: Arc::new(Shared::of(made)), one_thread: PhantomData }
    }

    /// `ncs_callback`: gives the box a call-back with so many 32-bit arguments, at most 12, and returns its address. The box keeps it until
    /// it is dropped, also over a reset. Its arguments are whatever the code passes. Its result, a [`Word`], goes to EDX and EAX.
    ///
    /// If it panics, the call of the code that has called back ends with [`End::Denied`](crate::End::Denied), and the panic is resumed from
    /// [`Access::call`]. It is denied a second call while it is under way, which the code of the box may try when the call-back calls it.
    ///
    /// ```
    /// # use nc_sandbox::{Access, At, Refusal, Sandbox};
    /// fn gives(sandbox: &mut Sandbox) -> Result<At, Refusal> {
    ///     let mut seen = Vec::new();
    ///     sandbox.callback(2, move |caller, args| {
    ///         seen.extend(caller.text(At::from(args[0]), args[1].at_most(80).unwrap_or(0)));
    ///         seen.len() as u64
    ///     })
    /// }
    /// ```
    ///
    /// It goes where the box goes, so it is `Send`, and it borrows nothing:
    ///
    /// ```compile_fail,E0277
    /// # use nc_sandbox::Sandbox;
    /// fn gives(sandbox: &mut Sandbox) {
    ///     let seen = std::rc::Rc::new(5);
    ///     let _ = sandbox.callback(0, move |_, _| *seen);
    /// }
    /// ```
    pub fn callback<F, R>(&mut self, args: usize, mut function: F) -> Result<At, Refusal>
    where
        F: FnMut(&mut Caller<'_, M>, &[Untrusted<u32>]) -> R + Send + 'static,
        R: Word,
    {
        let count = u32::try_from(args).map_err(|_| Refusal::NoCallback)?;
        let function =
            Box::new(move |caller: &mut Caller<'_, M>, args: &[Untrusted<u32>]| function(caller, args).bits());
        let slot = Slot::new(Arc::clone(&self.shared), args, function);
        let user = Arc::as_ptr(&slot).cast_mut().cast();
        self.slots.push(slot);
        // SAFETY: "One thread". What `serve` asks for is kept: the slot stays in `slots` as long as the box can be called, which needs this
        // value or a call of it, and the library gives each call-back as many arguments as are named here.
        let given = unsafe { ffi::ncs_callback(self.shared.raw(), serve::<M>, user, count) };
        if given.at == 0 {
            self.slots.pop();
            return Err(Refusal::NoCallback);
        }
        Ok(At::new(given.at))
    }

    /// `ncs_code_calls`: lets the code of the box change code of its module within an area of the module's [room](Module::room), by the
    /// box's next four call-backs: hole, create, patch and delete. Returns the address of the first. Areas of different boxes are apart, and
    /// the host makes no chunk there. Boxes beside one another have one area.
    pub fn code_calls(&mut self, area: CodeSpan) -> Result<At, Refusal> {
        // SAFETY: "One thread". The call-backs are the library's own, and copy the bytes that they get.
        let given = unsafe { ffi::ncs_code_calls(self.shared.raw(), area.raw()) };
        match given.at {
            0 => Err(Refusal::NoArea),
            at => Ok(At::new(at)),
        }
    }

    /// `ncs_reset`: gives the box its first memory again, deletes the code that it has made, and revives it. Its call-backs stay. The reset
    /// takes back a kill that hasn't ended a call. Boxes beside it are reset too, unless one of them is in a call.
    pub fn reset(&mut self) -> Result<(), Refusal> {
        // SAFETY: "One thread". Nobody has a range of its memory, by "Outside" or "Copied".
        let made = unsafe { ffi::ncs_reset(self.shared.raw()) };
        if made == 0 {
            return Err(Refusal::NotReset);
        }
        Ok(())
    }

    /// A [`Killer`], which ends the calls of this box from any thread.
    pub fn killer(&self) -> Killer {
        Killer { shared: Arc::downgrade(&self.shared) }
    }
}

impl<M: Memory> Inside for Sandbox<M> {
    fn shared(&self) -> &Shared {
        &self.shared
    }

    fn may_enter(&self) -> bool {
        stack::is_there()
    }
}

impl<M: Memory> Access for Sandbox<M> {
    type Memory = M;
}

impl<M> fmt::Debug for Sandbox<M> {
    fn fmt(&self, f: &mut fmt::Formatter<'_>) -> fmt::Result {
        f.debug_struct("Sandbox").field("callbacks", &self.slots.len()).finish_non_exhaustive()
    }
}

/// A right to end the calls of a box, from any thread. It may outlive the box.
#[derive(Clone)]
pub struct Killer {
    shared: Weak<Shared>,
}

impl Killer {
    /// `ncs_kill`: ends the call that is under way, or else the next one, with [`End::Killed`](crate::End::Killed). It doesn't wait.
    /// Returns whether the box was still there.
    pub fn kill(&self) -> bool {
        let Some(shared) = self.shared.upgrade() else { return false };
        // SAFETY: "Freed once"; any thread may ask for this at any time.
        unsafe { ffi::ncs_kill(shared.raw()) };
        true
    }
}

impl fmt::Debug for Killer {
    fn fmt(&self, f: &mut fmt::Formatter<'_>) -> fmt::Result {
        f.debug_struct("Killer").finish_non_exhaustive()
    }
}
