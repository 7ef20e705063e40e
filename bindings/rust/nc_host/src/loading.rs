//! Code that is loaded once, before any thread can enter.

use crate::{ffi, Fault};

/// A loaded segment of an ELF file, as its program header describes it.
pub use crate::ffi::NcSegment as Segment;

/// `nc_host_elf`: judges an ELF file, and writes its loaded segments, of code and of data, into the buffer. Returns the part of it that was
/// written. [`Fault::NoRoom`] says how many segments there are.
pub fn loaded_segments<'a>(file: &[u8], buffer: &'a mut [Segment]) -> Result<&'a [Segment], Fault> {
    // SAFETY: nc_host.h, "Arguments": each pointer leads to as many bytes or elements as its slice has, and nobody changes them meanwhile.
    let found = unsafe { ffi::nc_host_elf(file.as_ptr(), file.len(), buffer.as_mut_ptr(), buffer.len()) };
    Fault::check(found.fault, found.header, found.count)?;
    Ok(&buffer[..found.count])
}

/// `nc_host_image`: vets a chunk, and fills the text of a region with it, and with stops everywhere else. The region's limit is
/// [`START`](crate::START) plus the text's length. No thread may be inside.
pub fn fill_image(base: u32, code: &[u8], image: &mut [u8]) -> Result<(), Fault> {
    // SAFETY: nc_host.h, "Arguments": each pointer leads to as many bytes as its slice has, and nobody changes them meanwhile.
    let verdict = unsafe { ffi::nc_host_image(base, code.as_ptr(), code.len(), image.as_mut_ptr(), image.len()) };
    Fault::check(verdict.fault, verdict.at, 0)
}
