//! The declarations of `ffi` against what a program in C says that was compiled from the header, and against the header's text.

#[macro_use]
#[path = "../../nc_host/tests/header/mod.rs"]
mod header;

use header::{declarations, printed_by_c, rust_call};
use nc_sandbox::ffi::*;
use std::fmt::Write;
use std::mem::{align_of, offset_of, size_of};

const HEADER: &str = "sandbox/nc_sandbox.h";

/// What this crate says, and the statements in C that print what the header says.
fn said() -> (String, String) {
    let (mut out, mut c) = (String::new(), String::new());
    lay_out! { out, c,
        NcsAt { at }
        NcsRefusal { kind, fault, at, sentence }
        NcsSpan { from, len }
        NcsHole { at, len, held }
        NcsLimits { memory, depth, milliseconds }
        NcsEnd { how, result, high, place, trap, data, status }
        NcsTrace { reg, is_full, count, calls }
        NcsLinear { code, data, file }
        NcsFolder { file, writable }
        NcsWall { folders, folder_count, calls, call_count, threads }
    }
    number! { out, c,
        NCS_OK NCS_BAD_FILE NCS_BAD_CODE NCS_BAD_LIMITS NCS_BAD_HANDLER NCS_NO_MEMORY NCS_BAD_SYSTEM
        NCS_NOT_LIVE NCS_BAD_CHANGE NCS_LOST_HANDLER NCS_SIGNALS_BLOCKED NCS_SIGNALS_HELD NCS_SIGNALS_PROMISED NCS_LIVE_CALLS
        NCS_RETURNED NCS_STOPPED NCS_FAULTED NCS_LATE NCS_KILLED NCS_EXITED NCS_BAD_ENTRY NCS_BAD_CALL NCS_DENIED
        NCS_TOO_DEEP NCS_DEAD NCS_BUSY NCS_HOST
        NCS_MEMORY_MAX NCS_DEPTH_MAX NCS_ARGS_MAX NCS_CALLBACKS NCS_CALLBACK_ARGS NCS_EXIT
        NCS_FAULT_CODE NCS_TRACE_CALLS
        NCS_WALL_CALLS NCS_NO_WALL NCS_WALL_FILTER NCS_WALL_WHOLE
    }
    for k in [0, 63] {
        writeln!(out, "{}", ncs_callback_at(k)).unwrap();
        writeln!(c, "printf(\"%u\\n\", NCS_CALLBACK({k}));").unwrap();
    }
    (out, c)
}

#[test]
fn structs_and_numbers_are_the_headers() {
    let (own, statements) = said();
    if let Some(theirs) = printed_by_c("layout", HEADER, "", &statements) {
        assert_eq!(own, theirs);
        println!("compared: {} lines of sizes, offsets and numbers", own.lines().count());
    }
}

/// The header without its comments.
fn plain() -> Option<String> {
    let text = std::fs::read_to_string(header::path(HEADER)?).expect("the header is read");
    Some(text.split("/*").map(|part| part.split_once("*/").map_or(part, |(_, behind)| behind)).collect())
}

/// Each declaration of a function is one of a line that isn't indented and names it.
fn begins(line: &str) -> bool {
    line.contains("ncs_") && line.contains('(') && !line.starts_with([' ', '#'])
}

#[test]
fn declarations_are_the_headers() {
    let Some(plain) = plain() else { return };
    let theirs: Vec<String> = declarations(&plain, begins).iter().map(|call| rust_call(call)).collect();
    let own = declarations(include_str!("../src/ffi.rs"), |line| line.starts_with("    pub fn ncs_"));
    assert_eq!(own, theirs);
    println!("compared: {} declarations", own.len());
}

#[test]
fn no_number_is_left_out() {
    let Some(plain) = plain() else { return };
    let words = plain.split(|c: char| !c.is_alphanumeric() && c != '_').filter(|word| word.starts_with("NCS_"));
    let own = include_str!("../src/ffi.rs");
    let other = ["NCS_ARGS", "NCS_NO_ARGS", "NCS_CALLBACK"];
    let left_out: Vec<&str> =
        words.filter(|name| !other.contains(name) && !own.contains(&format!("const {name}: "))).collect();
    assert!(left_out.is_empty(), "{left_out:?}");
}
