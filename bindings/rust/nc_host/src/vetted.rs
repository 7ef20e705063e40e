//! Vetted chunks.

use crate::ffi::{self, NcVetted};
use crate::Fault;
use std::error::Error;
use std::fmt;
use std::ptr;

/// A chunk that was vetted without a region. [`Region::load`](crate::Region::load) creates it in one; dropping it is `nc_vetted_free`.
pub struct Vetted {
    pub(crate) handle: NcVetted,
}

// SAFETY: nc_host.h, "Locks": a handle may go to another thread if this is ordered, as safe Rust orders whatever it
// sends.
unsafe impl Send for Vetted {}

impl Vetted {
    /// `nc_vetted_new`: vets a chunk for a region with this limit ([`limit`](crate::limit)) and keeps a copy of it. No lock is needed.
    pub fn new(base: u32, limit: u32, code: &[u8]) -> Result<Vetted, Fault> {
        let mut vetted = Vetted { handle: NcVetted { at: ptr::null_mut() } };
        // SAFETY: nc_host.h, "Arguments": the pointer leads to as many bytes as the slice has, and nobody changes them meanwhile; the handle
        // is empty, since all zeros are.
        let verdict = unsafe { ffi::nc_vetted_new(base, limit, code.as_ptr(), code.len(), &mut vetted.handle) };
        Fault::check(verdict.fault, verdict.at, 0)?;
        Ok(vetted)
    }
}

impl Drop for Vetted {
    fn drop(&mut self) {
        // SAFETY: nc_host.h, nc_vetted_free: it frees a chunk that isn't loaded, and does nothing to an empty handle.
        unsafe { ffi::nc_vetted_free(&mut self.handle) }
    }
}

impl fmt::Debug for Vetted {
    fn fmt(&self, f: &mut fmt::Formatter<'_>) -> fmt::Result {
        f.debug_struct("Vetted").finish_non_exhaustive()
    }
}

/// A chunk that a region has refused, and why. `?` turns it into its [`Fault`].
#[derive(Debug)]
pub struct NotLoaded {
    /// The fault with which the region refused the chunk.
    pub fault: Fault,
    /// The chunk, as it was.
    pub vetted: Vetted,
}

impl From<NotLoaded> for Fault {
    fn from(refused: NotLoaded) -> Fault {
        refused.fault
    }
}

impl fmt::Display for NotLoaded {
    fn fmt(&self, f: &mut fmt::Formatter<'_>) -> fmt::Result {
        self.fault.fmt(f)
    }
}

impl Error for NotLoaded {}
