//! The results of calls that only look.

use crate::ffi::{self, NcChunk, NcPlace};

/// A chunk of a region's list.
#[derive(Clone, Copy, Debug, PartialEq, Eq, Hash)]
pub struct Chunk {
    /// The address of its first byte.
    pub base: u32,
    /// The number of its bytes.
    pub length: u32,
    /// The stamp of a retired chunk; `None` for a live one.
    pub retired: Option<u64>,
}

impl Chunk {
    pub(crate) fn of(told: NcChunk) -> Chunk {
        Chunk { base: told.base, length: told.length, retired: (told.retired != 0).then_some(told.stamp) }
    }
}

/// The mark of an address of a region: whether control may be there.
#[derive(Clone, Copy, Debug, PartialEq, Eq, Hash)]
pub enum Mark {
    /// Control is never there.
    Unmarked,
    /// An instruction starts there, or it is a bundle start without a chunk.
    Plain,
    /// An indirect jump or call on this register, directly after its mask. Registers are numbered as in ModRM.
    Masked(u8),
}

/// A byte of a region and its mark.
#[derive(Clone, Copy, Debug, PartialEq, Eq, Hash)]
pub struct Place {
    /// The byte.
    pub byte: u8,
    /// Its mark.
    pub mark: Mark,
}

impl Place {
    pub(crate) fn of(told: NcPlace) -> Place {
        let mark = match told.mark {
            ffi::NC_UNMARKED => Mark::Unmarked,
            ffi::NC_PLAIN => Mark::Plain,
            masked => Mark::Masked((masked - ffi::NC_MASKED) as u8),
        };
        Place { byte: told.byte as u8, mark }
    }
}

/// How a walk ended.
#[derive(Clone, Copy, Debug, PartialEq, Eq, Hash)]
pub enum End {
    /// At an instruction that goes nowhere.
    Stop,
    /// Below the region, where there is only trusted code.
    Trampoline,
    /// By an indirect jump or call to the limit or above it.
    Beyond,
    /// At an instruction for which no choice was left.
    More,
}

impl End {
    pub(crate) fn of(number: u32) -> End {
        match number {
            ffi::NC_END_STOP => End::Stop,
            ffi::NC_END_TRAMPOLINE => End::Trampoline,
            ffi::NC_END_BEYOND => End::Beyond,
            ffi::NC_END_MORE => End::More,
            other => panic!("the library ended a walk by {other}, which nc_host.h doesn't have"),
        }
    }
}

/// A walk.
#[derive(Clone, Copy, Debug, PartialEq, Eq)]
pub struct Walk<'a> {
    /// The addresses over which it went, in the buffer that was lent for them.
    pub places: &'a [u32],
    /// How it ended.
    pub end: End,
}
