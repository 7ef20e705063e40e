//! The declarations of include/nc_host.h, by the header's own names. `tests/layout.rs` compares sizes, offsets and numbers with the header.
//!
//! The header says what each call promises and what its caller must keep. The safe interface above this module makes each call on a handle,
//! and those of a host that loads code once. The other calls on code alone are here only.

use std::ffi::c_void;

pub const NC_BUNDLE: u32 = 32;
pub const NC_START: u32 = 0x10000;
pub const NC_MIN_BUNDLES: u32 = 2;
pub const NC_MAX_BUNDLES: u32 = 2_097_152;
pub const NC_STOP: u8 = 0xF4;
pub const NC_VERSION: u32 = 1 << 8;

pub const NC_FLOW_NEXT: u32 = 1;
pub const NC_FLOW_BRANCH: u32 = 2;
pub const NC_FLOW_JUMP: u32 = 3;
pub const NC_FLOW_CALL: u32 = 4;
pub const NC_FLOW_INDIRECT_JUMP: u32 = 5;
pub const NC_FLOW_INDIRECT_CALL: u32 = 6;
pub const NC_FLOW_STOP: u32 = 7;

pub const NC_END_STOP: u32 = 1;
pub const NC_END_TRAMPOLINE: u32 = 2;
pub const NC_END_BEYOND: u32 = 3;
pub const NC_END_MORE: u32 = 4;

pub const NC_UNMARKED: u32 = 0;
pub const NC_PLAIN: u32 = 1;
/// A masked jump or call on register `r` has the mark `NC_MASKED + r`.
pub const NC_MASKED: u32 = 16;

pub const NC_PUT: u32 = 1;
pub const NC_MARK: u32 = 2;
pub const NC_BUMP: u32 = 3;
pub const NC_SERIALIZE: u32 = 6;
pub const NC_PUT_RUN: u32 = 7;
pub const NC_STOP_RUN: u32 = 8;

/// No fault. The others are the numbers of [`Fault`](crate::Fault).
pub const NC_OK: u32 = 0;

#[repr(C)]
#[derive(Clone, Copy, Debug, Default, PartialEq, Eq)]
pub struct NcInstruction {
    pub fault: u32,
    pub length: u32,
    pub flow: u32,
    pub rel: i32,
    pub reg: u32,
    pub masks: u32,
}

#[repr(C)]
#[derive(Clone, Copy, Debug, Default, PartialEq, Eq)]
pub struct NcVerdict {
    pub fault: u32,
    pub at: u32,
}

/// A loaded segment of an ELF file, as its program header describes it.
#[repr(C)]
#[derive(Clone, Copy, Debug, Default, PartialEq, Eq)]
pub struct NcSegment {
    pub address: u32,
    pub offset: u32,
    pub file_len: u32,
    pub memory_len: u32,
    pub flags: u32,
}

#[repr(C)]
#[derive(Clone, Copy, Debug, Default, PartialEq, Eq)]
pub struct NcSegments {
    pub count: usize,
    pub fault: u32,
    pub header: u32,
}

#[repr(C)]
#[derive(Clone, Copy, Debug, Default, PartialEq, Eq)]
pub struct NcAct {
    pub kind: u32,
    pub at: u32,
    pub value: u32,
}

/// A handle. It isn't `Copy`: of two copies only one may ever be passed to a call.
#[repr(C)]
#[derive(Debug)]
pub struct NcRegion {
    pub at: *mut c_void,
}

/// A handle. It isn't `Copy`: of two copies only one may ever be passed to a call.
#[repr(C)]
#[derive(Debug)]
pub struct NcSeat {
    pub at: *mut c_void,
}

/// A handle. It isn't `Copy`: of two copies only one may ever be passed to a call.
#[repr(C)]
#[derive(Debug)]
pub struct NcVetted {
    pub at: *mut c_void,
}

#[repr(C)]
#[derive(Clone, Copy, Debug, Default, PartialEq, Eq)]
pub struct NcChange {
    pub fault: u32,
    pub at: u32,
    pub count: usize,
}

#[repr(C)]
#[derive(Clone, Copy, Debug, Default, PartialEq, Eq)]
pub struct NcStamp {
    pub stamp: u64,
    pub fault: u32,
}

#[repr(C)]
#[derive(Clone, Copy, Debug, Default, PartialEq, Eq)]
pub struct NcCount {
    pub fault: u32,
    pub count: u32,
}

#[repr(C)]
#[derive(Clone, Copy, Debug, Default, PartialEq, Eq)]
pub struct NcChunk {
    pub stamp: u64,
    pub fault: u32,
    pub base: u32,
    pub length: u32,
    pub retired: u32,
}

#[repr(C)]
#[derive(Clone, Copy, Debug, Default, PartialEq, Eq)]
pub struct NcPlace {
    pub fault: u32,
    pub byte: u32,
    pub mark: u32,
}

#[repr(C)]
#[derive(Clone, Copy, Debug, Default, PartialEq, Eq)]
pub struct NcWalk {
    pub count: usize,
    pub fault: u32,
    pub end: u32,
}

extern "C" {
    pub fn nc_host_version() -> u32;

    pub fn nc_host_decode(code: *const u8, len: usize) -> NcInstruction;
    pub fn nc_host_vet(base: u32, limit: u32, code: *const u8, len: usize) -> NcVerdict;
    pub fn nc_host_marks(
        base: u32,
        limit: u32,
        code: *const u8,
        len: usize,
        marks: *mut u8,
        marks_len: usize,
    ) -> NcVerdict;
    pub fn nc_host_image(base: u32, code: *const u8, len: usize, image: *mut u8, image_len: usize) -> NcVerdict;
    pub fn nc_host_elf(file: *const u8, file_len: usize, segments: *mut NcSegment, segments_len: usize) -> NcSegments;

    pub fn nc_region_new(bundles: u32, seats: u32, region: *mut NcRegion) -> u32;
    pub fn nc_region_free(region: *mut NcRegion);
    pub fn nc_region_seat(region: *mut NcRegion, seat: *mut NcSeat) -> u32;
    pub fn nc_region_create(
        region: *mut NcRegion,
        base: u32,
        code: *const u8,
        len: usize,
        acts: *mut NcAct,
        acts_len: usize,
    ) -> NcChange;
    pub fn nc_vetted_new(base: u32, limit: u32, code: *const u8, len: usize, vetted: *mut NcVetted) -> NcVerdict;
    pub fn nc_vetted_free(vetted: *mut NcVetted);
    pub fn nc_region_load(region: *mut NcRegion, vetted: *mut NcVetted, acts: *mut NcAct, acts_len: usize) -> NcChange;
    pub fn nc_region_patch(
        region: *mut NcRegion,
        at: u32,
        bytes: *const u8,
        len: usize,
        acts: *mut NcAct,
        acts_len: usize,
    ) -> NcChange;
    pub fn nc_region_begin_delete(region: *mut NcRegion, base: u32, acts: *mut NcAct, acts_len: usize) -> NcChange;
    pub fn nc_region_end_delete(region: *mut NcRegion) -> NcStamp;
    pub fn nc_region_creation_runs(region: *mut NcRegion, base: u32, acts: *mut NcAct, acts_len: usize) -> NcChange;
    pub fn nc_region_deletion_runs(region: *mut NcRegion, acts: *mut NcAct, acts_len: usize) -> NcChange;
    pub fn nc_region_reclaim(region: *mut NcRegion) -> NcCount;
    pub fn nc_region_chunk(region: *mut NcRegion, index: usize) -> NcChunk;
    pub fn nc_region_chunk_at(region: *mut NcRegion, at: u32) -> NcChunk;
    pub fn nc_region_place(region: *mut NcRegion, at: u32) -> NcPlace;
    pub fn nc_region_walk(
        region: *mut NcRegion,
        start: u32,
        choices: *const u32,
        choices_len: usize,
        places: *mut u32,
        places_len: usize,
    ) -> NcWalk;
    pub fn nc_region_generation(region: *mut NcRegion) -> NcStamp;
    pub fn nc_seat_check_in(seat: *mut NcSeat) -> u32;
    pub fn nc_seat_leave(seat: *mut NcSeat);
}
