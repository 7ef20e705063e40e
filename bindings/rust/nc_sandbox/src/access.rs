//! Calls and memory.

use crate::ffi;
use crate::shared::Shared;
use crate::words::Words;
use crate::{Args, At, Common, End, Memory, Own, Refusal, Returned, Sandbox};
use std::panic::resume_unwind;
use std::slice;

pub(crate) mod sealed {
    /// A box into which its owner can call. Nobody outside the crate implements it.
    pub trait Inside {
        #[doc(hidden)]
        fn shared(&self) -> &super::Shared;

        /// Whether the thread may enter. One that is in a call-back has entered already.
        #[doc(hidden)]
        fn may_enter(&self) -> bool {
            true
        }
    }
}

/// What can be done with a box by its owner, a [`Sandbox`](crate::Sandbox), and by its call-backs, which have a [`Caller`](crate::Caller).
///
/// While somebody looks at a range of its memory, the box can't be called:
///
/// ```compile_fail,E0502
/// # use nc_sandbox::{Access, At, Sandbox};
/// fn overlap(sandbox: &mut Sandbox, at: At) -> Option<u8> {
///     let range = sandbox.bytes(at, 4).ok()?;
///     let called: Result<(), _> = sandbox.call(at, ());
///     called.ok()?;
///     Some(range[0])
/// }
/// ```
///
/// Nobody looks at a range of common memory, in which other threads may be:
///
/// ```compile_fail,E0271
/// # use nc_sandbox::{Access, At, Common, Sandbox};
/// fn look(sandbox: &Sandbox<Common>, at: At) -> Option<u8> {
///     let range = sandbox.bytes(at, 4).ok()?;
///     Some(range[0])
/// }
/// ```
pub trait Access: sealed::Inside {
    /// Whose memory it is: [`Own`] or [`Common`].
    type Memory: Memory;

    /// `ncs_call`: calls a function of the box with a tuple of arguments, such as `(at, 5u32)`, or with words. It returns a number as an
    /// [`Untrusted`](crate::Untrusted), an address as an [`At`], or nothing.
    ///
    /// If a call-back of this call panics, the call ends, and the panic is resumed here.
    fn call<R: Returned>(&mut self, function: At, args: impl Args) -> Result<R, End> {
        let (shared, words) = (self.shared(), Words::of(args));
        let words = words.all().filter(|_| self.may_enter()).ok_or(End::Host)?;
        // SAFETY: "One thread", and this one has its alternate stack. The pointer leads to as many words as are named.
        // Call-backs come back to `serve`, which keeps its own rules.
        let end = unsafe { ffi::ncs_call(shared.raw(), function.raw(), words.len() as u32, words.as_ptr()) };
        let panic = shared.panic().take();
        if let Some(payload) = panic {
            resume_unwind(payload);
        }
        End::check(&end)?;
        Ok(R::of(end.result, end.high))
    }

    /// `ncs_at`: a range of the box's memory, to be read where it is. The bytes are whatever the code has written.
    fn bytes(&self, at: At, len: usize) -> Result<&[u8], Refusal>
    where
        Self: Access<Memory = Own>,
    {
        let data = range(self.shared(), at, len)?;
        // SAFETY: "Outside", as long as `self` is borrowed. All of the range is memory that can be read, and stays until the box is freed.
        Ok(unsafe { slice::from_raw_parts(data, len) })
    }

    /// `ncs_at`: a range of the box's memory, to be changed where it is.
    fn bytes_mut(&mut self, at: At, len: usize) -> Result<&mut [u8], Refusal>
    where
        Self: Access<Memory = Own>,
    {
        let data = range(self.shared(), at, len)?;
        // SAFETY: as above, and the range can be written. Nobody has another range, since `self` is borrowed by `&mut`.
        Ok(unsafe { slice::from_raw_parts_mut(data, len) })
    }

    /// `ncs_get`: copies out of the box, until `to` is full.
    fn get(&self, to: &mut [u8], at: At) -> Result<(), Refusal> {
        let len = u32::try_from(to.len()).map_err(|_| Refusal::NotInBox { at })?;
        // SAFETY: "Outside" or "Copied", and `to` has room for as many bytes as are named.
        let copied = unsafe { ffi::ncs_get(self.shared().raw(), to.as_mut_ptr().cast(), at.raw(), len) };
        if copied == 0 {
            return Err(Refusal::NotInBox { at });
        }
        Ok(())
    }

    /// Reads an integer or an address of the box's memory, as `call` returns it. It makes the call `ncs_get`.
    fn read<R: Returned>(&self, at: At) -> Result<R, Refusal> {
        let mut word = [0; 8];
        self.get(&mut word[..size_of::<R>()], at)?;
        let bits = u64::from_le_bytes(word);
        Ok(R::of(bits as u32, (bits >> 32) as u32))
    }

    /// `ncs_set`: copies all of `from` into the box.
    fn set(&mut self, at: At, from: &[u8]) -> Result<(), Refusal> {
        let len = u32::try_from(from.len()).map_err(|_| Refusal::NotInBox { at })?;
        // SAFETY: "Outside" or "Copied", and nobody has a range of it, since `self` is borrowed by `&mut`. `from` has as many bytes as are
        // named.
        let copied = unsafe { ffi::ncs_set(self.shared().raw(), at.raw(), from.as_ptr().cast(), len) };
        if copied == 0 {
            return Err(Refusal::NotInBox { at });
        }
        Ok(())
    }

    /// `ncs_text`: copies a text up to its 0, which isn't copied, and cuts it to `most` bytes.
    fn text(&self, at: At, most: usize) -> Result<Vec<u8>, Refusal> {
        let mut to = vec![0; most.min(ffi::NCS_MEMORY_MAX as usize) + 1];
        // SAFETY: "Outside" or "Copied", and `to` has room for as many bytes as are named.
        let len = unsafe { ffi::ncs_text(self.shared().raw(), to.as_mut_ptr().cast(), to.len(), at.raw()) };
        to.truncate(usize::try_from(len).map_err(|_| Refusal::NotInBox { at })?);
        Ok(to)
    }

    /// `ncs_take`: takes so many bytes from the heap, at a multiple of 16. Only a reset gives them back.
    fn take(&mut self, len: usize) -> Result<At, Refusal> {
        let len = u32::try_from(len).map_err(|_| Refusal::NoRoom)?;
        // SAFETY: "One thread".
        let taken = unsafe { ffi::ncs_take(self.shared().raw(), len) };
        match taken.at {
            0 => Err(Refusal::NoRoom),
            at => Ok(At::new(at)),
        }
    }

    /// Takes room for these bytes, and copies them there, as `ncs_put` does. It makes the calls `ncs_take` and `ncs_set`.
    fn put(&mut self, from: &[u8]) -> Result<At, Refusal> {
        let at = self.take(from.len())?;
        self.set(at, from)?;
        Ok(at)
    }

    /// `ncs_box_beside`: a box beside this one, whose memory both use. Another thread may be in it at the same time. Its stack grows down
    /// from `stack`, a multiple of 16 in that memory. It may have `depth` calls under way, and a call gets so many milliseconds.
    ///
    /// ```
    /// # use nc_sandbox::{Access, At, Common, End, Refusal, Sandbox};
    /// # use std::thread;
    /// fn both(sandbox: &mut Sandbox<Common>, function: At) -> Result<[Result<(), End>; 2], Refusal> {
    ///     const STACK: u32 = 0x10000;
    ///     let top = sandbox.take(STACK as usize)?.offset(STACK);
    ///     let mut other = sandbox.beside(top, 4, 1000)?;
    ///     Ok(thread::scope(|scope| {
    ///         let works = scope.spawn(move || other.call(function, (1,)));
    ///         [sandbox.call(function, (0,)), works.join().expect("it doesn't panic")]
    ///     }))
    /// }
    /// ```
    fn beside(&self, stack: At, depth: u32, milliseconds: u32) -> Result<Sandbox<Common>, Refusal>
    where
        Self: Access<Memory = Common>,
    {
        let of = self.shared().raw();
        // SAFETY: "Freed once". The pointer leads to a refusal. The library keeps the memory as long as the last box on it.
        let made = Refusal::or(|why| unsafe { ffi::ncs_box_beside(of, stack.raw(), depth, milliseconds, why) })?;
        Ok(Sandbox::of(made))
    }
}

/// A pointer to `len` bytes, all of which are the box's. It isn't null, not even for a length of 0.
fn range(shared: &Shared, at: At, len: usize) -> Result<*mut u8, Refusal> {
    let known = u32::try_from(len).map_err(|_| Refusal::NotInBox { at })?;
    // SAFETY: "Freed once". The call judges the range, and reads and writes nothing.
    let data = unsafe { ffi::ncs_at(shared.raw(), at.raw(), known) };
    if data.is_null() {
        return Err(Refusal::NotInBox { at });
    }
    Ok(data.cast())
}
