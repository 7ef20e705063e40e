//! Live code.

use crate::ffi::{self, NcsSpan};
use crate::{At, Module, Refusal};

/// Bytes of the address space of code, in whole bundles of 32 bytes.
#[derive(Clone, Copy, Debug, PartialEq, Eq, Hash)]
pub struct CodeSpan {
    /// Where they begin.
    pub from: At,
    /// How many they are.
    pub len: u32,
}

impl CodeSpan {
    /// The address behind them.
    pub const fn end(self) -> At {
        self.from.offset(self.len)
    }

    pub(crate) fn raw(self) -> NcsSpan {
        NcsSpan { from: self.from.raw(), len: self.len }
    }
}

/// What [`Module::hole`] finds.
#[derive(Clone, Copy, Debug, PartialEq, Eq, Hash)]
pub struct Hole {
    /// Where the hole begins. If `len` is 0, where to ask on, or else the end.
    pub at: At,
    /// The bytes in which no chunk is.
    pub len: u32,
    /// The bytes of deleted chunks below it, from the address that was asked for, which threads still hold back.
    pub held: u32,
}

/// Code that is created, patched and deleted while boxes run it. Any threads may make changes at once, also in call-backs. A change that is
/// refused changes nothing.
impl Module {
    /// `ncs_module_live`: a module with room for so many bundles of 32 bytes, from 00010000 on, and no code yet. At most `calls` calls of its
    /// boxes may be under way at once, 1 to 255.
    pub fn live(bundles: u32, calls: u32) -> Result<Module, Refusal> {
        // SAFETY: the pointer leads to a refusal.
        let made = Refusal::or(|why| unsafe { ffi::ncs_module_live(bundles, calls, why) })?;
        Ok(Module { handle: made })
    }

    /// `ncs_module_live_elf`: a module that begins as a file that [`Module::elf`] would take. The room for so many bundles begins on the page
    /// behind the file's code.
    pub fn live_elf(file: &[u8], bundles: u32, calls: u32) -> Result<Module, Refusal> {
        let (bytes, len) = (file.as_ptr().cast(), file.len());
        // SAFETY: the pointers lead to as many bytes as the slice has, which are copied, and to a refusal.
        let made = Refusal::or(|why| unsafe { ffi::ncs_module_live_elf(bytes, len, bundles, calls, why) })?;
        Ok(Module { handle: made })
    }

    /// `ncs_room`: where code can be created. Its length is 0 if the code never changes.
    pub fn room(&self) -> CodeSpan {
        // SAFETY: the module is there as long as this value.
        let room = unsafe { ffi::ncs_room(self.handle.as_ptr()) };
        CodeSpan { from: At::new(room.from.at), len: room.len }
    }

    /// `ncs_hole`: the first hole of the room at or above `from`, up to `to`. It is a hint, since another thread may take it.
    pub fn hole(&self, from: At, to: At) -> Hole {
        // SAFETY: nc_sandbox.h, "Threads": any thread may call. The module is there as long as this value.
        let hole = unsafe { ffi::ncs_hole(self.handle.as_ptr(), from.raw(), to.raw()) };
        Hole { at: At::new(hole.at.at), len: hole.len, held: hole.held }
    }

    /// `ncs_create`: puts a chunk of whole bundles at a multiple of 32, where no chunk is.
    pub fn create(&self, base: At, code: &[u8]) -> Result<(), Refusal> {
        let (module, from) = (self.handle.as_ptr(), code.as_ptr().cast());
        // SAFETY: nc_sandbox.h, "The changes": any thread may make them. The pointer leads to as many bytes as the slice has.
        Refusal::unless_made(|why| unsafe { ffi::ncs_create(module, base.raw(), from, code.len(), why) })
    }

    /// `ncs_patch`: replaces whole instructions of a chunk, within a bundle, with others of the same lengths.
    pub fn patch(&self, at: At, code: &[u8]) -> Result<(), Refusal> {
        let (module, from) = (self.handle.as_ptr(), code.as_ptr().cast());
        // SAFETY: as above.
        Refusal::unless_made(|why| unsafe { ffi::ncs_patch(module, at.raw(), from, code.len(), why) })
    }

    /// `ncs_delete`: removes the chunk that begins at `base`. A thread in it stops at its next instruction. Its span isn't free yet.
    pub fn delete(&self, base: At) -> Result<(), Refusal> {
        // SAFETY: as above.
        Refusal::unless_made(|why| unsafe { ffi::ncs_delete(self.handle.as_ptr(), base.raw(), why) })
    }

    /// `ncs_reclaim`: frees the spans of deleted chunks in which no thread can be any more, and returns their number. It waits for nobody.
    pub fn reclaim(&self) -> u32 {
        // SAFETY: as above.
        unsafe { ffi::ncs_reclaim(self.handle.as_ptr()) }
    }
}
