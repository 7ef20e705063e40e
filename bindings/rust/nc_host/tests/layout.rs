//! The declarations of `ffi`, and the names and sentences of faults, against what a program in C says that was compiled from the header.

mod header;

use header::{declarations, printed_by_c, rust_call};
use nc_host::ffi::*;
use nc_host::{version, Fault};
use std::fmt::Write;
use std::mem::{align_of, offset_of, size_of};

const HEADER: &str = "include/nc_host.h";
const FRONT: &str = "#define NC_FAULT_NAMES\n";

/// What this crate says, and the statements in C that print what the header says.
fn said() -> (String, String) {
    let (mut out, mut c) = (String::new(), String::new());
    lay_out! { out, c,
        NcInstruction { fault, length, flow, rel, reg, masks }
        NcVerdict { fault, at }
        NcSegment { address, offset, file_len, memory_len, flags }
        NcSegments { count, fault, header }
        NcAct { kind, at, value }
        NcRegion { at }
        NcSeat { at }
        NcVetted { at }
        NcChange { fault, at, count }
        NcStamp { stamp, fault }
        NcCount { fault, count }
        NcChunk { stamp, fault, base, length, retired }
        NcPlace { fault, byte, mark }
        NcWalk { count, fault, end }
    }
    number! { out, c,
        NC_BUNDLE NC_START NC_MIN_BUNDLES NC_MAX_BUNDLES NC_STOP NC_VERSION NC_OK
        NC_FLOW_NEXT NC_FLOW_BRANCH NC_FLOW_JUMP NC_FLOW_CALL NC_FLOW_INDIRECT_JUMP NC_FLOW_INDIRECT_CALL NC_FLOW_STOP
        NC_END_STOP NC_END_TRAMPOLINE NC_END_BEYOND NC_END_MORE
        NC_UNMARKED NC_PLAIN NC_PUT NC_MARK NC_BUMP NC_SERIALIZE NC_PUT_RUN NC_STOP_RUN
    }
    (out, c)
}

#[test]
fn structs_and_numbers_are_the_headers() {
    let (own, statements) = said();
    if let Some(theirs) = printed_by_c("layout", HEADER, FRONT, &statements) {
        assert_eq!(own, theirs);
        println!("compared: {} lines of sizes, offsets and numbers", own.lines().count());
    }
}

#[test]
fn faults_are_the_headers() {
    let statement =
        "#define SHOW(fault, sentence) printf(\"%u|%s|%s\\n\", fault, #fault, sentence);\nNC_FAULTS(SHOW)\n";
    let Some(theirs) = printed_by_c("faults", HEADER, FRONT, statement) else { return };
    let known = theirs.lines().skip(1).map(|line| fault_of(line.split('|').next().expect("a number")));
    let own: String =
        known.map(|fault| format!("{}|{}|{}\n", fault.number(), fault.name(), fault.sentence())).collect();
    assert_eq!(format!("0|NC_OK|no fault\n{own}"), theirs);
}

fn fault_of(number: &str) -> Fault {
    Fault::of(number.parse().expect("a number"), 0, 0).expect("a fault")
}

#[test]
fn declarations_are_the_headers() {
    let Some(header) = header::path(HEADER) else { return };
    let header = std::fs::read_to_string(header).expect("the header is read");
    let begins = |line: &str| ["Nc", "uint32_t nc_", "void nc_"].iter().any(|front| line.starts_with(front));
    let theirs: Vec<String> = declarations(&header, begins).iter().map(|call| rust_call(call)).collect();
    let own = declarations(include_str!("../src/ffi.rs"), |line| line.starts_with("    pub fn nc_"));
    assert_eq!(own, theirs);
    println!("compared: {} declarations", own.len());
}

#[test]
fn no_number_is_left_out() {
    let Some(header) = header::path(HEADER) else { return };
    let header = std::fs::read_to_string(header).expect("the header is read");
    let own = concat!(include_str!("../src/ffi.rs"), include_str!("../src/fault.rs"));
    let is_known = |name: &str| own.contains(&format!("const {name}: ")) || own.contains(&format!("\"{name}\""));
    let defined = header.lines().filter_map(|line| line.strip_prefix("#define ")?.split([' ', '(']).next());
    let exempt = ["NC_HOST_H", "NC_LIMIT", "NC_FAULTS", "NC_UNUSED", "NC_NAME_OF", "NC_SENTENCE_OF"];
    let numbers = defined.filter(|name| !exempt.contains(name) && !name.starts_with("NC_VERSION_"));
    let left_out: Vec<&str> = numbers.filter(|name| !is_known(name)).collect();
    assert!(left_out.is_empty(), "{left_out:?}");
}

#[test]
fn the_library_has_the_headers_version() {
    assert_eq!(version(), NC_VERSION);
}
