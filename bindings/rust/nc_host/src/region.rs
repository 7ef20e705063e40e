//! Regions, and deletions in two steps.

use crate::ffi::{self, NcRegion, NcSeat};
use crate::{Acts, Chunk, End, Fault, NotLoaded, Place, RawAct, Seat, Vetted, Walk};
use std::cell::UnsafeCell;
use std::fmt;
use std::ptr;

/// A region, with its chunks, bytes, marks, stamps and check-ins. Dropping it is `nc_region_free`.
///
/// Each call that changes the region writes the acts of the change into a buffer, and returns the written part. The host makes these acts in
/// its memory before the next change. Acts that were cut short it makes again, all of them and from the first. A buffer that is too short
/// is [`Fault::NoRoom`], and nothing has changed. An empty buffer means what a length of 0 does in `nc_host.h`: a creation or a deletion is
/// made, and its acts aren't reported, and a patch is refused.
///
/// A region may go to another thread, but no two threads may use it at once, not even to look:
///
/// ```compile_fail,E0277
/// fn is_sync<T: Sync>() {}
/// is_sync::<nc_host::Region>();
/// ```
pub struct Region {
    /// The library writes it in each call, those that only look included.
    handle: UnsafeCell<NcRegion>,
}

// SAFETY: nc_host.h, "Locks": a handle may go to another thread if this is ordered, as safe Rust orders whatever it
// sends.
unsafe impl Send for Region {}

// The rules of nc_host.h that the SAFETY comments of this file cite, and why they are kept:
// - "Locks": calls on one region must be made one at a time. `&mut self` ensures it, and `&self` too, since a Region isn't Sync and no call
//   calls back.
// - "Arguments": a pointer with a length leads to that many elements, as a slice's does, and a slice is shorter than 2^63 bytes. For a length
//   of 0 the pointer may be any address. No buffer that is written overlaps another argument, since it is borrowed by `&mut`, and nobody
//   changes lent memory meanwhile, since it is borrowed.
// - "A handle": all zeros are an empty one, it isn't copied, and only the library reads or writes its pointer.
impl Region {
    /// `nc_region_new`: a region of this many bundles, all stops, with no chunk and this many seats.
    pub fn new(bundles: u32, seats: u32) -> Result<Region, Fault> {
        let mut region = Region { handle: UnsafeCell::new(NcRegion { at: ptr::null_mut() }) };
        // SAFETY: "A handle": it is empty.
        let fault = unsafe { ffi::nc_region_new(bundles, seats, region.handle.get_mut()) };
        Fault::check(fault, 0, 0)?;
        Ok(region)
    }

    /// `nc_region_seat`: gives one of the seats that weren't given yet, even while a deletion is under way.
    pub fn seat(&mut self) -> Result<Seat, Fault> {
        let mut handle = NcSeat { at: ptr::null_mut() };
        // SAFETY: "Locks"; and "A handle": the seat's is empty.
        let fault = unsafe { ffi::nc_region_seat(self.handle.get_mut(), &mut handle) };
        Fault::check(fault, 0, 0)?;
        Ok(Seat::of(handle))
    }

    /// `nc_region_create`: vets a chunk and creates it. A buffer of two acts more than the code has bytes is enough.
    pub fn create<'a>(&mut self, base: u32, code: &[u8], buffer: &'a mut [RawAct]) -> Result<Acts<'a>, Fault> {
        let (acts, room) = (buffer.as_mut_ptr(), buffer.len());
        // SAFETY: "Locks" and "Arguments".
        let change =
            unsafe { ffi::nc_region_create(self.handle.get_mut(), base, code.as_ptr(), code.len(), acts, room) };
        Acts::written(change, buffer)
    }

    /// `nc_region_load`: creates a vetted chunk. A refusal gives it back.
    pub fn load<'a>(&mut self, mut vetted: Vetted, buffer: &'a mut [RawAct]) -> Result<Acts<'a>, NotLoaded> {
        let (acts, room) = (buffer.as_mut_ptr(), buffer.len());
        // SAFETY: "Locks" and "Arguments"; the chunk was moved here, so no other call uses its handle.
        let change = unsafe { ffi::nc_region_load(self.handle.get_mut(), &mut vetted.handle, acts, room) };
        Acts::written(change, buffer).map_err(|fault| NotLoaded { fault, vetted })
    }

    /// `nc_region_patch`: replaces whole instructions with others of the same lengths. A buffer of three acts for each byte is enough.
    pub fn patch<'a>(&mut self, at: u32, bytes: &[u8], buffer: &'a mut [RawAct]) -> Result<Acts<'a>, Fault> {
        let (acts, room) = (buffer.as_mut_ptr(), buffer.len());
        // SAFETY: "Locks" and "Arguments".
        let change =
            unsafe { ffi::nc_region_patch(self.handle.get_mut(), at, bytes.as_ptr(), bytes.len(), acts, room) };
        Acts::written(change, buffer)
    }

    /// `nc_region_begin_delete`: the first call of a deletion. [`Deletion::finish`] is the last.
    pub fn begin_delete<'a>(&'a mut self, base: u32, buffer: &'a mut [RawAct]) -> Result<Deletion<'a>, Fault> {
        let (acts, room) = (buffer.as_mut_ptr(), buffer.len());
        // SAFETY: "Locks" and "Arguments".
        let change = unsafe { ffi::nc_region_begin_delete(self.handle.get_mut(), base, acts, room) };
        let acts = Acts::written(change, buffer)?;
        Ok(Deletion { region: self, acts })
    }

    /// Takes up a deletion whose guard was dropped or forgotten. It has no acts: [`Deletion::runs`] writes them, and the host makes all of
    /// them, since those that it made before are stops already. [`Fault::NotBegun`] if no deletion is under way.
    pub fn resume_delete(&mut self) -> Result<Deletion<'_>, Fault> {
        match runs(self, &mut []).map(Acts::len) {
            Err(Fault::NoRoom { .. }) => Ok(Deletion { region: self, acts: Acts::NONE }),
            Err(fault) => Err(fault),
            Ok(_) => unreachable!("no deletion has runs for which an empty buffer is enough"),
        }
    }

    /// `nc_region_creation_runs`: the acts of the creation of the live chunk at this base, as runs. It changes nothing.
    pub fn creation_runs<'a>(&self, base: u32, buffer: &'a mut [RawAct]) -> Result<Acts<'a>, Fault> {
        let (acts, room) = (buffer.as_mut_ptr(), buffer.len());
        // SAFETY: "Locks" and "Arguments".
        let change = unsafe { ffi::nc_region_creation_runs(self.handle.get(), base, acts, room) };
        Acts::written(change, buffer)
    }

    /// `nc_region_reclaim`: removes the retired chunks that no seat holds back, and returns their number.
    pub fn reclaim(&mut self) -> Result<u32, Fault> {
        // SAFETY: "Locks".
        let freed = unsafe { ffi::nc_region_reclaim(self.handle.get_mut()) };
        Fault::check(freed.fault, 0, 0)?;
        Ok(freed.count)
    }

    /// `nc_region_chunk`: the chunk at an index of the list, which is in ascending order of base.
    pub fn chunk(&self, index: usize) -> Option<Chunk> {
        // SAFETY: "Locks".
        let chunk = unsafe { ffi::nc_region_chunk(self.handle.get(), index) };
        (chunk.fault == ffi::NC_OK).then(|| Chunk::of(chunk))
    }

    /// `nc_region_chunk` for one index after the other.
    pub fn chunks(&self) -> impl Iterator<Item = Chunk> + '_ {
        (0..).map_while(|index| self.chunk(index))
    }

    /// `nc_region_chunk_at`: the chunk that has an address, or else the first one above it. `None` if each chunk ends at or below it.
    pub fn chunk_at(&self, at: u32) -> Option<Chunk> {
        // SAFETY: "Locks".
        let chunk = unsafe { ffi::nc_region_chunk_at(self.handle.get(), at) };
        (chunk.fault == ffi::NC_OK).then(|| Chunk::of(chunk))
    }

    /// `nc_region_place`: the byte and the mark at an address; `None` if the address is outside the region.
    pub fn place(&self, at: u32) -> Option<Place> {
        // SAFETY: "Locks".
        let place = unsafe { ffi::nc_region_place(self.handle.get(), at) };
        (place.fault == ffi::NC_OK).then(|| Place::of(place))
    }

    /// `nc_region_walk`: walks from a bundle start by choices, without executing anything. A buffer of one place more than there are choices
    /// is enough.
    pub fn walk<'a>(&self, start: u32, choices: &[u32], places: &'a mut [u32]) -> Result<Walk<'a>, Fault> {
        let (to, room) = (places.as_mut_ptr(), places.len());
        // SAFETY: "Locks" and "Arguments".
        let walk = unsafe { ffi::nc_region_walk(self.handle.get(), start, choices.as_ptr(), choices.len(), to, room) };
        Fault::check(walk.fault, 0, walk.count)?;
        Ok(Walk { places: &places[..walk.count], end: End::of(walk.end) })
    }

    /// `nc_region_generation`: the last stamp that was drawn, or 0.
    pub fn generation(&self) -> u64 {
        // SAFETY: "Locks".
        unsafe { ffi::nc_region_generation(self.handle.get()) }.stamp
    }
}

impl Drop for Region {
    fn drop(&mut self) {
        // SAFETY: "Locks"; nc_region_free may be called for any handle, and this one isn't used again.
        unsafe { ffi::nc_region_free(self.handle.get_mut()) }
    }
}

impl fmt::Debug for Region {
    fn fmt(&self, f: &mut fmt::Formatter<'_>) -> fmt::Result {
        f.debug_struct("Region").finish_non_exhaustive()
    }
}

fn runs<'b>(region: &Region, buffer: &'b mut [RawAct]) -> Result<Acts<'b>, Fault> {
    let (acts, room) = (buffer.as_mut_ptr(), buffer.len());
    // SAFETY: "Locks" and "Arguments".
    let change = unsafe { ffi::nc_region_deletion_runs(region.handle.get(), acts, room) };
    Acts::written(change, buffer)
}

/// A deletion between its two steps. The host makes its acts, and then calls [`finish`](Deletion::finish).
///
/// Meanwhile the region is borrowed. A guard that is dropped or forgotten draws no stamp, since a stamp that was drawn before the stops are in
/// the host's memory would free the span while a thread is in it. The region then refuses changes with [`Fault::UnderWay`], until
/// [`Region::resume_delete`] takes the deletion up again. The last call can't be made twice:
///
/// ```compile_fail,E0382
/// fn end_twice(deletion: nc_host::Deletion<'_>) {
///     deletion.finish();
///     deletion.finish();
/// }
/// ```
#[must_use = "the region refuses changes until `finish` has drawn the stamp"]
#[derive(Debug)]
pub struct Deletion<'a> {
    region: &'a mut Region,
    acts: Acts<'a>,
}

impl<'a> Deletion<'a> {
    /// The acts that the first call wrote; none if its buffer was empty.
    pub fn acts(&self) -> Acts<'a> {
        self.acts
    }

    /// `nc_region_deletion_runs`: the acts as runs. It changes nothing.
    pub fn runs<'b>(&self, buffer: &'b mut [RawAct]) -> Result<Acts<'b>, Fault> {
        runs(self.region, buffer)
    }

    /// `nc_region_end_delete`: the last call, which draws the stamp and returns it. The host must have made all acts except [`Act::Bump`],
    /// which is this one.
    ///
    /// [`Act::Bump`]: crate::Act::Bump
    pub fn finish(self) -> u64 {
        // SAFETY: "Locks": the guard borrows the region by `&mut`.
        let drawn = unsafe { ffi::nc_region_end_delete(self.region.handle.get_mut()) };
        debug_assert_eq!(drawn.fault, ffi::NC_OK, "a deletion is under way while there is a guard");
        drawn.stamp
    }
}
