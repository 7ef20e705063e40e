//! Acts, and the buffers in which they are written.

use crate::ffi::{self, NcChange};
use crate::{Fault, STOP};
use std::slice;

/// An act as the library writes it. A buffer is a slice of these, such as `[RawAct::default(); 34]`.
pub use crate::ffi::NcAct as RawAct;

/// One step of a change, which the host makes in its memory.
#[derive(Clone, Copy, Debug, PartialEq, Eq, Hash)]
pub enum Act {
    /// Put this byte at this address, by one atomic store.
    Put {
        /// The address.
        at: u32,
        /// The byte.
        byte: u8,
    },
    /// Give the addresses from `at` on the chunk's marks. A host that keeps no marks does nothing.
    Mark {
        /// The first of the addresses.
        at: u32,
        /// The number of the addresses.
        length: u32,
    },
    /// Draw the stamp of a deletion, which [`Deletion::finish`](crate::Deletion::finish) does.
    Bump,
    /// Make every processor that runs a thread of the host serialize.
    Serialize,
    /// Put the chunk's byte at `at` + k for each bit k of `places`, in ascending order.
    PutRun {
        /// The address at which the bundle begins.
        at: u32,
        /// A bit for each of its 32 addresses.
        places: u32,
    },
    /// Put a stop at `at` + k for each bit k of `places`, in ascending order.
    StopRun {
        /// The address at which the bundle begins.
        at: u32,
        /// A bit for each of its 32 addresses.
        places: u32,
    },
}

impl Act {
    fn of(RawAct { kind, at, value }: RawAct) -> Act {
        match kind {
            ffi::NC_PUT => Act::Put { at, byte: value as u8 },
            ffi::NC_MARK => Act::Mark { at, length: value },
            ffi::NC_BUMP => Act::Bump,
            ffi::NC_SERIALIZE => Act::Serialize,
            ffi::NC_PUT_RUN => Act::PutRun { at, places: value },
            ffi::NC_STOP_RUN => Act::StopRun { at, places: value },
            other => panic!("the library wrote an act of the kind {other}, which nc_host.h doesn't have"),
        }
    }
}

/// The acts that a call has written, in the order in which they are to be made. Iterating panics at an act of a kind that `nc_host.h` doesn't
/// have, which the library never writes.
#[derive(Clone, Copy, Debug)]
pub struct Acts<'a> {
    raw: &'a [RawAct],
}

impl<'a> Acts<'a> {
    pub(crate) const NONE: Acts<'static> = Acts { raw: &[] };

    /// What a call has written into its buffer, or its fault.
    pub(crate) fn written(change: NcChange, buffer: &'a mut [RawAct]) -> Result<Acts<'a>, Fault> {
        Fault::check(change.fault, change.at, change.count)?;
        Ok(Acts { raw: &buffer[..change.count] })
    }

    /// The number of acts. A run counts as one.
    pub fn len(self) -> usize {
        self.raw.len()
    }

    /// Whether there are no acts.
    pub fn is_empty(self) -> bool {
        self.raw.is_empty()
    }

    /// The written part of the buffer.
    pub fn as_raw(self) -> &'a [RawAct] {
        self.raw
    }

    /// The acts as they were written, each run as one act.
    pub fn iter(self) -> impl ExactSizeIterator<Item = Act> + 'a {
        self.into_iter()
    }

    /// The acts with each run written out as the [`Act::Put`]s for which it stands. `code` is the code of the chunk at `base`, from which the
    /// bytes of an [`Act::PutRun`] come. An [`Act::PutRun`] whose bundle isn't in `code` stays as it is. Only
    /// [`Region::creation_runs`](crate::Region::creation_runs) writes such runs, so for other acts `(0, &[])` is enough.
    pub fn written_out(self, base: u32, code: &'a [u8]) -> WrittenOut<'a> {
        WrittenOut { rest: self.raw.iter(), base, code, run: Run { at: 0, places: 0, is_stops: true } }
    }
}

impl<'a> IntoIterator for Acts<'a> {
    type Item = Act;
    type IntoIter = std::iter::Map<std::iter::Copied<slice::Iter<'a, RawAct>>, fn(RawAct) -> Act>;

    fn into_iter(self) -> Self::IntoIter {
        self.raw.iter().copied().map(Act::of as fn(RawAct) -> Act)
    }
}

/// What is left of a run.
#[derive(Clone, Debug)]
struct Run {
    at: u32,
    places: u32,
    is_stops: bool,
}

/// The iterator of [`Acts::written_out`].
#[derive(Clone, Debug)]
pub struct WrittenOut<'a> {
    rest: slice::Iter<'a, RawAct>,
    base: u32,
    code: &'a [u8],
    run: Run,
}

impl WrittenOut<'_> {
    /// The code from this address on, if it has a whole bundle there.
    fn bundle(&self, at: u32) -> Option<&[u8]> {
        let from = at.checked_sub(self.base)? as usize;
        self.code.get(from..)?.get(..crate::BUNDLE)
    }

    /// The next put of the run.
    fn put(&mut self) -> Option<Act> {
        let Run { at, places, is_stops } = self.run;
        if places == 0 {
            return None;
        }
        let k = places.trailing_zeros();
        self.run.places &= places - 1;
        let byte = if is_stops { STOP } else { self.bundle(at)?[k as usize] };
        Some(Act::Put { at: at + k, byte })
    }
}

impl Iterator for WrittenOut<'_> {
    type Item = Act;

    fn next(&mut self) -> Option<Act> {
        loop {
            if let Some(put) = self.put() {
                return Some(put);
            }
            match Act::of(*self.rest.next()?) {
                Act::StopRun { at, places } => self.run = Run { at, places, is_stops: true },
                Act::PutRun { at, places } if self.bundle(at).is_some() => {
                    self.run = Run { at, places, is_stops: false }
                }
                act => return Some(act),
            }
        }
    }
}
