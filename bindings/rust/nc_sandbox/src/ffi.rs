//! The declarations of sandbox/nc_sandbox.h, by the header's own names. `tests/layout.rs` compares them with the header.
//!
//! The header says what each call promises and what its caller must keep. The safe interface above this module keeps it.

use std::ffi::{c_char, c_int, c_long, c_uint, c_void};

pub const NCS_OK: u32 = 0;
pub const NCS_BAD_FILE: u32 = 1;
pub const NCS_BAD_CODE: u32 = 2;
pub const NCS_BAD_LIMITS: u32 = 3;
pub const NCS_BAD_HANDLER: u32 = 4;
pub const NCS_NO_MEMORY: u32 = 5;
pub const NCS_BAD_SYSTEM: u32 = 6;
pub const NCS_NOT_LIVE: u32 = 7;
pub const NCS_BAD_CHANGE: u32 = 8;
pub const NCS_LOST_HANDLER: u32 = 9;

pub const NCS_SIGNALS_BLOCKED: u32 = 0;
pub const NCS_SIGNALS_HELD: u32 = 1;
pub const NCS_SIGNALS_PROMISED: u32 = 2;

pub const NCS_LIVE_CALLS: u32 = 255;

pub const NCS_RETURNED: u32 = 0;
pub const NCS_STOPPED: u32 = 1;
pub const NCS_FAULTED: u32 = 2;
pub const NCS_LATE: u32 = 3;
pub const NCS_KILLED: u32 = 4;
pub const NCS_EXITED: u32 = 5;
pub const NCS_BAD_ENTRY: u32 = 6;
pub const NCS_BAD_CALL: u32 = 7;
pub const NCS_DENIED: u32 = 8;
pub const NCS_TOO_DEEP: u32 = 9;
pub const NCS_DEAD: u32 = 10;
pub const NCS_BUSY: u32 = 11;
pub const NCS_HOST: u32 = 12;

pub const NCS_MEMORY_MAX: u32 = 1 << 30;
pub const NCS_DEPTH_MAX: u32 = 64;
pub const NCS_ARGS_MAX: u32 = 16;
pub const NCS_CALLBACKS: u32 = 64;
pub const NCS_CALLBACK_ARGS: u32 = 12;
pub const NCS_EXIT: u32 = 0x40;
pub const NCS_FAULT_CODE: u32 = 256;
pub const NCS_TRACE_CALLS: u32 = 16;

pub const NCS_WALL_CALLS: u32 = 256;
pub const NCS_NO_WALL: u32 = 0;
pub const NCS_WALL_FILTER: u32 = 1;
pub const NCS_WALL_WHOLE: u32 = 2;

/// Where call-back `k` is.
pub const fn ncs_callback_at(k: u32) -> u32 {
    0x100 + 32 * k
}

#[repr(C)]
pub struct NcsModule {
    _inside: [u8; 0],
}

#[repr(C)]
pub struct NcsBox {
    _inside: [u8; 0],
}

#[repr(C)]
#[derive(Clone, Copy, Debug)]
pub struct NcsAt {
    pub at: u32,
}

#[repr(C)]
#[derive(Clone, Copy, Debug)]
pub struct NcsRefusal {
    pub kind: u32,
    pub fault: u32,
    pub at: u32,
    pub sentence: *const c_char,
}

#[repr(C)]
#[derive(Clone, Copy, Debug)]
pub struct NcsSpan {
    pub from: NcsAt,
    pub len: u32,
}

#[repr(C)]
#[derive(Clone, Copy, Debug)]
pub struct NcsHole {
    pub at: NcsAt,
    pub len: u32,
    pub held: u32,
}

#[repr(C)]
#[derive(Clone, Copy, Debug)]
pub struct NcsLimits {
    pub memory: u32,
    pub depth: u32,
    pub milliseconds: u32,
}

#[repr(C)]
#[derive(Clone, Copy, Debug)]
pub struct NcsEnd {
    pub how: u32,
    pub result: u32,
    pub high: u32,
    pub place: u32,
    pub trap: u32,
    pub data: u32,
    pub status: u32,
}

#[repr(C)]
#[derive(Clone, Copy, Debug)]
pub struct NcsTrace {
    pub reg: [u32; 8],
    pub is_full: u32,
    pub count: u32,
    pub calls: [NcsAt; NCS_TRACE_CALLS as usize],
}

#[repr(C)]
#[derive(Clone, Copy, Debug)]
pub struct NcsLinear {
    pub code: u32,
    pub data: u32,
    pub file: NcsSpan,
}

#[repr(C)]
#[derive(Clone, Copy, Debug)]
pub struct NcsFolder {
    pub file: c_int,
    pub writable: c_int,
}

#[repr(C)]
#[derive(Clone, Copy, Debug)]
pub struct NcsWall {
    pub folders: *const NcsFolder,
    pub folder_count: c_uint,
    pub calls: *const c_int,
    pub call_count: c_uint,
    pub threads: c_int,
}

pub type NcsCallback = unsafe extern "C" fn(box_: *mut NcsBox, user: *mut c_void, args: *const u32) -> u64;

pub type NcsTell = unsafe extern "C" fn(user: *mut c_void, at: NcsAt, name: *const c_char);

extern "C" {
    pub fn ncs_module_elf(file: *const c_void, len: usize, why: *mut NcsRefusal) -> *mut NcsModule;
    pub fn ncs_module_code(code: *const c_void, len: usize, why: *mut NcsRefusal) -> *mut NcsModule;
    pub fn ncs_symbol(module: *const NcsModule, name: *const c_char) -> NcsAt;
    pub fn ncs_entry(module: *const NcsModule) -> NcsAt;
    pub fn ncs_function_at(module: *const NcsModule, at: NcsAt, offset: *mut u32) -> *const c_char;
    pub fn ncs_function_in(file: *const c_void, len: usize, at: NcsAt, offset: *mut u32) -> *const c_char;
    pub fn ncs_functions(module: *const NcsModule, tell: NcsTell, user: *mut c_void);
    pub fn ncs_module_free(module: *mut NcsModule);
    pub fn ncs_module_live(bundles: u32, calls: u32, why: *mut NcsRefusal) -> *mut NcsModule;
    pub fn ncs_module_live_elf(
        file: *const c_void,
        len: usize,
        bundles: u32,
        calls: u32,
        why: *mut NcsRefusal,
    ) -> *mut NcsModule;
    pub fn ncs_room(module: *const NcsModule) -> NcsSpan;
    pub fn ncs_create(
        module: *mut NcsModule,
        base: NcsAt,
        code: *const c_void,
        len: usize,
        why: *mut NcsRefusal,
    ) -> c_int;
    pub fn ncs_patch(module: *mut NcsModule, at: NcsAt, code: *const c_void, len: usize, why: *mut NcsRefusal)
        -> c_int;
    pub fn ncs_delete(module: *mut NcsModule, base: NcsAt, why: *mut NcsRefusal) -> c_int;
    pub fn ncs_reclaim(module: *mut NcsModule) -> u32;
    pub fn ncs_hole(module: *mut NcsModule, from: NcsAt, to: NcsAt) -> NcsHole;
    pub fn ncs_box_new(module: *mut NcsModule, limits: *const NcsLimits, why: *mut NcsRefusal) -> *mut NcsBox;
    pub fn ncs_box_beside(
        box_: *mut NcsBox,
        stack: NcsAt,
        depth: u32,
        milliseconds: u32,
        why: *mut NcsRefusal,
    ) -> *mut NcsBox;
    pub fn ncs_reset(box_: *mut NcsBox) -> c_int;
    pub fn ncs_kill(box_: *mut NcsBox);
    pub fn ncs_free(box_: *mut NcsBox) -> c_int;
    pub fn ncs_signals(how: u32, why: *mut NcsRefusal) -> c_int;
    pub fn ncs_how(how: u32) -> *const c_char;
    pub fn ncs_call(box_: *mut NcsBox, function: NcsAt, count: c_uint, args: *const u32) -> NcsEnd;
    pub fn ncs_callback(box_: *mut NcsBox, function: NcsCallback, user: *mut c_void, args: c_uint) -> NcsAt;
    pub fn ncs_code_calls(box_: *mut NcsBox, area: NcsSpan) -> NcsAt;
    pub fn ncs_deny(box_: *mut NcsBox);
    pub fn ncs_trace(box_: *mut NcsBox, to: *mut NcsTrace) -> c_int;
    pub fn ncs_linear(box_: *const NcsBox) -> NcsLinear;
    pub fn ncs_at(box_: *mut NcsBox, at: NcsAt, len: u32) -> *mut c_void;
    pub fn ncs_set(box_: *mut NcsBox, at: NcsAt, from: *const c_void, len: u32) -> c_int;
    pub fn ncs_get(box_: *mut NcsBox, to: *mut c_void, at: NcsAt, len: u32) -> c_int;
    pub fn ncs_text(box_: *mut NcsBox, to: *mut c_char, room: usize, at: NcsAt) -> c_long;
    pub fn ncs_take(box_: *mut NcsBox, len: u32) -> NcsAt;
    pub fn ncs_put(box_: *mut NcsBox, from: *const c_void, len: u32) -> NcsAt;
    pub fn ncs_wall(wall: *const NcsWall, why: *mut NcsRefusal) -> c_int;
}
