//! The faults of nc_host.h.

use crate::ffi;
use std::error::Error;
use std::fmt;

/// Writes the enum, and the number, name and sentence of each fault. The first name is that of a fault's address or program header. The
/// second is that of a length that is enough.
macro_rules! faults {
    ($at:ident, $enough:ident; $($variant:ident $({ $field:ident: $of:ty })? = $number:literal, $name:literal, $sentence:literal;)*) => {
        /// Why a call was refused. The numbers and the sentences are those of nc_host.h.
        #[non_exhaustive]
        #[derive(Clone, Copy, Debug, PartialEq, Eq, Hash)]
        pub enum Fault {
            $(
                #[doc = $sentence]
                $variant $({
                    /// The address of the fault, its program header, or the length of a buffer that is enough.
                    $field: $of,
                })?,
            )*
            /// A fault that this crate doesn't know, from a newer library.
            Other(u32),
        }

        impl Fault {
            /// Its number in nc_host.h.
            pub fn number(self) -> u32 {
                match self {
                    $(Fault::$variant { .. } => $number,)*
                    Fault::Other(number) => number,
                }
            }

            /// Its name in nc_host.h, such as `NC_BAD_BASE`, or `?`.
            pub fn name(self) -> &'static str {
                match self {
                    $(Fault::$variant { .. } => $name,)*
                    Fault::Other(_) => "?",
                }
            }

            /// Its sentence in nc_host.h, such as `the base is not a multiple of 32, or is below the region`, or `?`.
            pub fn sentence(self) -> &'static str {
                match self {
                    $(Fault::$variant { .. } => $sentence,)*
                    Fault::Other(_) => "?",
                }
            }

            /// The fault of a result of [`ffi`](crate::ffi), by its fields `fault`, `at` (or `header`) and `count`. `None` for `NC_OK`.
            #[allow(unused_variables)] // most faults have neither an address nor a length
            pub fn of(number: u32, $at: u32, $enough: usize) -> Option<Fault> {
                Some(match number {
                    ffi::NC_OK => return None,
                    $($number => Fault::$variant $({ $field })?,)*
                    other => Fault::Other(other),
                })
            }
        }
    };
}

faults! {
    at, enough;
    BadBase = 1, "NC_BAD_BASE", "the base is not a multiple of 32, or is below the region";
    BadLength = 2, "NC_BAD_LENGTH", "the length is 0, or not a multiple of 32";
    OutOfRange = 3, "NC_OUT_OF_RANGE",
        "no region has this limit, or the chunk reaches into the guard, the last bundle below it";
    NotPermitted { at: u32 } = 4, "NC_NOT_PERMITTED",
        "no permitted instruction is at the address, within its bundle";
    Crosses { at: u32 } = 5, "NC_CROSSES",
        "the instruction at the address crosses the end of its bundle";
    Bare { at: u32 } = 6, "NC_BARE",
        "the indirect jump or call at the address doesn't directly follow the mask of its register";
    BadTarget { at: u32 } = 7, "NC_BAD_TARGET",
        "the jump, branch or call at the address goes neither to a bundle start below the limit nor to the start of \
         an instruction of the chunk that isn't the second one of a pair";
    OutOfMemory = 8, "NC_OUT_OF_MEMORY", "out of memory";
    NoRoom { enough: usize } = 9, "NC_NO_ROOM", "the buffer is too short; it is unchanged";
    CutShort = 10, "NC_CUT_SHORT", "the bytes are the beginning of an instruction, and not all of it";
    PatchBadSpan = 16, "NC_PATCH_BAD_SPAN", "there are no new bytes, or they don't lie in one bundle";
    PatchNotLive = 17, "NC_PATCH_NOT_LIVE", "the new bytes don't begin in a live chunk";
    PatchNotPermitted = 18, "NC_PATCH_NOT_PERMITTED",
        "the new bytes aren't whole permitted instructions, one after the other";
    PatchBoundaries = 19, "NC_PATCH_BOUNDARIES",
        "the new instructions don't replace whole instructions of the same lengths";
    PatchPairTouched = 20, "NC_PATCH_PAIR_TOUCHED",
        "a mask would get other bytes, or an indirect jump or call would come, go or change its register";
    PatchBadTarget = 21, "NC_PATCH_BAD_TARGET",
        "a new jump, branch or call would go neither to a bundle start below the limit nor to the start of an \
         instruction of the chunk that isn't the second one of a pair";
    NoHandle = 32, "NC_NO_HANDLE", "the handle is empty";
    HandleTaken = 33, "NC_HANDLE_TAKEN", "the handle to be filled is not empty";
    BadSeats = 34, "NC_BAD_SEATS", "the number of seats isn't 1 to 256";
    BadSize = 35, "NC_BAD_SIZE", "the number of bundles isn't 2 to 2097152";
    NoSeat = 36, "NC_NO_SEAT", "every seat has been given";
    UnderWay = 37, "NC_UNDER_WAY", "a deletion is under way";
    NotBegun = 38, "NC_NOT_BEGUN", "no deletion is under way";
    WrongLimit = 39, "NC_WRONG_LIMIT", "the chunk was vetted for another limit than the region's";
    Occupied = 40, "NC_OCCUPIED", "the span overlaps a chunk of the region, live or retired";
    NoChunk = 41, "NC_NO_CHUNK",
        "no live chunk has this base, the list has no chunk at this index, or no chunk has this address or lies above it";
    Full = 42, "NC_FULL", "no stamp is left, after 2^62 deletions";
    NoPlace = 43, "NC_NO_PLACE", "the address is outside the region";
    NoStart = 44, "NC_NO_START", "the address is not a bundle start of the region, where a walk can begin";
    ElfNotElf = 48, "NC_ELF_NOT_ELF", "not an ELF file";
    ElfShortHeader = 49, "NC_ELF_SHORT_HEADER", "the file ends in its ELF header";
    Elf64Bits = 50, "NC_ELF_64_BITS", "a 64-bit ELF file";
    ElfOtherFormat = 51, "NC_ELF_OTHER_FORMAT", "not a 32-bit little-endian ELF file of version 1";
    ElfOtherMachine = 52, "NC_ELF_OTHER_MACHINE", "not for the Intel 80386";
    ElfUnlinked = 53, "NC_ELF_UNLINKED", "an object file, which is not linked";
    ElfOtherType = 54, "NC_ELF_OTHER_TYPE", "neither an executable file nor a shared object";
    ElfBadTable = 55, "NC_ELF_BAD_TABLE",
        "the program headers aren't 32 bytes long, are 65535 or more, or aren't all in the file";
    ElfBeyondFile { at: u32 } = 56, "NC_ELF_BEYOND_FILE", "a loaded segment reaches beyond the end of the file";
    ElfBeyondMemory { at: u32 } = 57, "NC_ELF_BEYOND_MEMORY",
        "a loaded segment has more bytes in the file than in memory";
    ElfWraps { at: u32 } = 58, "NC_ELF_WRAPS", "a loaded segment ends above the last address";
    ElfOutOfOrder { at: u32 } = 59, "NC_ELF_OUT_OF_ORDER", "a loaded segment overlaps an earlier one or lies below it";
    ElfWritableCode { at: u32 } = 60, "NC_ELF_WRITABLE_CODE", "a loaded segment is both writable and executable";
    ElfUnfilledCode { at: u32 } = 61, "NC_ELF_UNFILLED_CODE",
        "a loaded segment is executable and has bytes in memory that aren't in the file";
    ElfNoCode = 62, "NC_ELF_NO_CODE", "no loaded segment is executable and has bytes in the file";
}

impl Fault {
    /// `Ok` if the number is `NC_OK`.
    pub(crate) fn check(number: u32, at: u32, enough: usize) -> Result<(), Fault> {
        Fault::of(number, at, enough).map_or(Ok(()), Err)
    }

    /// The address of a fault that has one.
    pub fn at(self) -> Option<u32> {
        match self {
            Fault::NotPermitted { at } | Fault::Crosses { at } | Fault::Bare { at } | Fault::BadTarget { at } => {
                Some(at)
            }
            _ => None,
        }
    }

    /// The number of the program header of a fault in a segment, counted from 0.
    pub fn header(self) -> Option<u32> {
        match self {
            Fault::ElfBeyondFile { at }
            | Fault::ElfBeyondMemory { at }
            | Fault::ElfWraps { at }
            | Fault::ElfOutOfOrder { at }
            | Fault::ElfWritableCode { at }
            | Fault::ElfUnfilledCode { at } => Some(at),
            _ => None,
        }
    }
}

impl fmt::Display for Fault {
    fn fmt(&self, f: &mut fmt::Formatter<'_>) -> fmt::Result {
        match *self {
            Fault::Other(number) => write!(f, "fault {number}"),
            Fault::NoRoom { enough } => write!(f, "{} ({enough} is enough)", self.sentence()),
            fault => match (fault.at(), fault.header()) {
                (Some(at), _) => write!(f, "{} ({at:08x})", fault.sentence()),
                (_, Some(header)) => write!(f, "{} (program header {header})", fault.sentence()),
                _ => f.write_str(fault.sentence()),
            },
        }
    }
}

impl Error for Fault {}
