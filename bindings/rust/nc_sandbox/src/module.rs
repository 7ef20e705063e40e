//! Modules.

use crate::ffi::{self, NcsAt, NcsModule};
use crate::{At, Refusal};
use std::ffi::{c_char, c_void, CStr, CString};
use std::fmt;
use std::ptr::NonNull;

/// Code that was accepted, with its data. Boxes of it are made by [`Sandbox::new`](crate::Sandbox::new), by any number of threads. Its code
/// stays until the last of its boxes is gone, so a module may be dropped before them.
pub struct Module {
    pub(crate) handle: NonNull<NcsModule>,
}

// SAFETY: nc_sandbox.h, "Threads": any thread may call. A module is freed once, by the owner of this value.
unsafe impl Send for Module {}
// SAFETY: as above. A `&Module` makes boxes and looks up symbols, and any threads may do that at once.
unsafe impl Sync for Module {}

impl Module {
    /// `ncs_module_elf`: a module from an ELF file, as `nc-cc` makes it.
    pub fn elf(file: &[u8]) -> Result<Module, Refusal> {
        // SAFETY: the pointer leads to as many bytes as the slice has, which are copied, and `why` to a refusal.
        let made = Refusal::or(|why| unsafe { ffi::ncs_module_elf(file.as_ptr().cast(), file.len(), why) })?;
        Ok(Module { handle: made })
    }

    /// `ncs_module_code`: a module from bytes of code, which begins at 00010000.
    pub fn code(code: &[u8]) -> Result<Module, Refusal> {
        // SAFETY: the pointer leads to as many bytes as the slice has, which are copied, and `why` to a refusal.
        let made = Refusal::or(|why| unsafe { ffi::ncs_module_code(code.as_ptr().cast(), code.len(), why) })?;
        Ok(Module { handle: made })
    }

    /// `ncs_symbol`: the address of a global symbol of the file. A file may name any number.
    pub fn symbol(&self, name: &str) -> Option<At> {
        let name = CString::new(name).ok()?;
        // SAFETY: the module is there as long as this value, and the name ends with a 0.
        let found = unsafe { ffi::ncs_symbol(self.handle.as_ptr(), name.as_ptr()) };
        (found.at != 0).then_some(At::new(found.at))
    }

    /// `ncs_entry`: the file's entry, or 00010000 for code alone. A file may name any number.
    pub fn entry(&self) -> At {
        // SAFETY: the module is there as long as this value.
        At::new(unsafe { ffi::ncs_entry(self.handle.as_ptr()) }.at)
    }

    /// `ncs_function_at`: the function of the file in which an address of the code lies, and its distance in bytes from the beginning.
    pub fn function_at(&self, at: At) -> Option<(&str, u32)> {
        let mut offset = 0;
        // SAFETY: the module is there as long as this value, and the pointer leads to a number.
        let name = unsafe { ffi::ncs_function_at(self.handle.as_ptr(), at.raw(), &mut offset) };
        // SAFETY: nc_sandbox.h: the name is valid until the module is freed.
        Some((unsafe { text(name) }?, offset))
    }

    /// `ncs_functions`: the names that [`Module::function_at`] may return, each with its address, in the order of the file.
    pub fn functions(&self) -> Vec<(At, &str)> {
        let mut found: Vec<(At, &str)> = Vec::new();
        // SAFETY: the module is there as long as this value, and `note` gets what it asks for: the vector is there until the call returns.
        unsafe { ffi::ncs_functions(self.handle.as_ptr(), note, (&raw mut found).cast()) };
        found
    }

    /// `ncs_function_in`: as [`Module::function_at`], for a file whose code was refused.
    pub fn function_in(file: &[u8], at: At) -> Option<(&str, u32)> {
        let mut offset = 0;
        // SAFETY: the pointers lead to as many bytes as the slice has, and to a number.
        let name = unsafe { ffi::ncs_function_in(file.as_ptr().cast(), file.len(), at.raw(), &mut offset) };
        // SAFETY: nc_sandbox.h: the name is in the file.
        Some((unsafe { text(name) }?, offset))
    }
}

/// Takes a name that the library tells.
///
/// # Safety
///
/// `user` leads to a vector that nobody else uses, and the name is valid as long as its lifetime says.
unsafe extern "C" fn note(user: *mut c_void, at: NcsAt, name: *const c_char) {
    // SAFETY: as above.
    let (found, name) = unsafe { (&mut *user.cast::<Vec<(At, &str)>>(), text(name)) };
    found.extend(name.map(|name| (At::new(at.at), name)));
}

/// A name of the library's, or `None` for a null pointer.
///
/// # Safety
///
/// It ends with a 0, and stays as long as the lifetime says.
unsafe fn text<'a>(name: *const c_char) -> Option<&'a str> {
    if name.is_null() {
        return None;
    }
    // SAFETY: as above.
    unsafe { CStr::from_ptr(name) }.to_str().ok()
}

impl Drop for Module {
    fn drop(&mut self) {
        // SAFETY: nc_sandbox.h, "Threads": a module is freed once, and isn't used after that. Its boxes keep what they need.
        unsafe { ffi::ncs_module_free(self.handle.as_ptr()) }
    }
}

impl fmt::Debug for Module {
    fn fmt(&self, f: &mut fmt::Formatter<'_>) -> fmt::Result {
        f.debug_struct("Module").finish_non_exhaustive()
    }
}
