//! A safe interface of the C library `nc_host`: regions of proved Native Client code, the seats of their threads, and vetted chunks.
//!
//! Each method makes the call of the library that its documentation names, and `include/nc_host.h` says what that call promises. Nothing is
//! proved of this crate. Of the calls on code alone [`fill_image`] and [`loaded_segments`] are functions here, for a host that loads code
//! once. The others, such as `nc_host_vet`, are declared in [`ffi`] only.
//!
//! Types keep the header's rules for handles. [`Region`], [`Seat`] and [`Vetted`] own theirs, and are never empty. They free or leave when
//! they are dropped. `&mut` keeps calls on one of them apart. A [`Region`] isn't `Sync`. A host with threads puts it behind a lock of its own,
//! such as a `Mutex`, together with the memory in which it makes the acts.
//!
//! No type can keep the other duties of the host. It owns the memory that is executed, and makes the acts there in their order, each put as
//! one atomic store of one byte. It makes the segments and the ways in and out, and decides when a thread checks in. `docs/EMBEDDING.md`
//! lists all duties. No call of this crate may be made from a signal handler, or in the forked child of a process with threads. A thread that
//! makes calls needs 64 KiB of stack.
//!
//! ```
//! use nc_host::{Act, Fault, RawAct, Region, BUNDLE, START};
//!
//! fn main() -> Result<(), Fault> {
//!     let mut region = Region::new(4, 1)?;
//!     let mut buffer = [RawAct::default(); BUNDLE + 2];
//!     let acts = region.create(START, &[0x90; BUNDLE], &mut buffer)?;
//!     assert_eq!(acts.iter().filter(|act| matches!(act, Act::Put { .. })).count(), BUNDLE);
//!     Ok(())
//! }
//! ```

#![warn(missing_docs)]

mod act;
mod fault;
#[allow(missing_docs)]
pub mod ffi;
mod loading;
mod look;
mod region;
mod seat;
mod vetted;

pub use act::{Act, Acts, RawAct, WrittenOut};
pub use fault::Fault;
pub use loading::{fill_image, loaded_segments, Segment};
pub use look::{Chunk, End, Mark, Place, Walk};
pub use region::{Deletion, Region};
pub use seat::Seat;
pub use vetted::{NotLoaded, Vetted};

/// Bytes in a bundle.
pub const BUNDLE: usize = ffi::NC_BUNDLE as usize;
/// The address of a region's first byte.
pub const START: u32 = ffi::NC_START;
/// The byte of `hlt`, at which a thread traps.
pub const STOP: u8 = ffi::NC_STOP;

/// The limit of a region with this many bundles: the address after its last byte. `None` for a number that no region has.
pub const fn limit(bundles: u32) -> Option<u32> {
    if bundles < ffi::NC_MIN_BUNDLES || bundles > ffi::NC_MAX_BUNDLES {
        return None;
    }
    Some(START + ffi::NC_BUNDLE * bundles)
}

/// `nc_host_version`: the version of the library that is linked, to be compared with [`ffi::NC_VERSION`].
pub fn version() -> u32 {
    // SAFETY: the call has no argument, so nc_host.h asks nothing of its caller.
    unsafe { ffi::nc_host_version() }
}
