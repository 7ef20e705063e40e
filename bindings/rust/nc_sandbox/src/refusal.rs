//! Refusals.

use crate::ffi::{self, NcsRefusal};
use crate::At;
use std::error::Error;
use std::ffi::{c_int, CStr};
use std::fmt;
use std::ptr;

/// Why there is no module, no box, no change, no other way with signals, no range or no room. Everything is as it was, unless it is
/// [`Refusal::NotReset`].
#[non_exhaustive]
#[derive(Clone, Copy, Debug, PartialEq, Eq, Hash)]
pub enum Refusal {
    /// It isn't an ELF file as `nc-cc` makes it. The sentence says why.
    BadFile(&'static str),
    /// `nc_host` refuses the code.
    BadCode {
        /// The number of the fault in `nc_host.h`.
        fault: u32,
        /// The address of the fault; 0 for a fault without one.
        at: At,
        /// The fault's sentence in `nc_host.h`.
        sentence: &'static str,
    },
    /// A limit is 0 or too large, or there is less memory than the data needs.
    BadLimits(&'static str),
    /// The thread has promised that there is none, by [`promise_flags`](crate::signals::promise_flags), and a signal has a handler without
    /// `SA_ONSTACK`.
    BadHandler {
        /// The number of the signal.
        signal: u32,
    },
    /// There is no memory, no room below 4 GiB, or no segment left.
    NoMemory(&'static str),
    /// The system refuses what boxes need, or the module or process has forked. The sentence says what.
    BadSystem(&'static str),
    /// The module isn't one of [`Module::live`](crate::Module::live) or [`Module::live_elf`](crate::Module::live_elf), so its code never
    /// changes.
    NotLive,
    /// `nc_host` refuses a change of live code.
    BadChange {
        /// The number of the fault in `nc_host.h`.
        fault: u32,
        /// The fault's sentence in `nc_host.h`.
        sentence: &'static str,
    },
    /// A signal of the library's has another handler by now.
    LostHandler {
        /// The number of the signal.
        signal: u32,
    },
    /// A range isn't all the box's, or a text leaves the box.
    NotInBox {
        /// The address at which the range or the text begins.
        at: At,
    },
    /// The heap has no room for this.
    NoRoom,
    /// The box has 64 call-backs, or the one that was to be given has more than 12 arguments.
    NoCallback,
    /// The area isn't bundles of the module's room. Or the box has another one, or no four call-backs left.
    NoArea,
    /// The system has refused to reset the box, which is now dead. Or nothing was done, since this is a forked child, or since a call or
    /// another reset of a box beside this one is under way.
    NotReset,
    /// A kind that this crate doesn't know, from a newer library.
    Other(&'static str),
}

impl Refusal {
    /// The pointer that a call returns, or its refusal if that is null. The call gets a place for the refusal.
    pub(crate) fn or<T>(call: impl FnOnce(*mut NcsRefusal) -> *mut T) -> Result<ptr::NonNull<T>, Refusal> {
        let mut why = NcsRefusal { kind: ffi::NCS_OK, fault: 0, at: 0, sentence: ptr::null() };
        ptr::NonNull::new(call(&mut why)).ok_or_else(|| Refusal::of(why))
    }

    /// `Ok` if a call has made what it was to make, or else its refusal. The call gets a place for the refusal.
    pub(crate) fn unless_made(call: impl FnOnce(*mut NcsRefusal) -> c_int) -> Result<(), Refusal> {
        let mut why = NcsRefusal { kind: ffi::NCS_OK, fault: 0, at: 0, sentence: ptr::null() };
        match call(&mut why) {
            0 => Err(Refusal::of(why)),
            _ => Ok(()),
        }
    }

    fn of(why: NcsRefusal) -> Refusal {
        let sentence = sentence(&why);
        match why.kind {
            ffi::NCS_BAD_FILE => Refusal::BadFile(sentence),
            ffi::NCS_BAD_CODE => Refusal::BadCode { fault: why.fault, at: At::new(why.at), sentence },
            ffi::NCS_BAD_LIMITS => Refusal::BadLimits(sentence),
            ffi::NCS_BAD_HANDLER => Refusal::BadHandler { signal: why.at },
            ffi::NCS_NO_MEMORY => Refusal::NoMemory(sentence),
            ffi::NCS_BAD_SYSTEM => Refusal::BadSystem(sentence),
            ffi::NCS_NOT_LIVE => Refusal::NotLive,
            ffi::NCS_BAD_CHANGE => Refusal::BadChange { fault: why.fault, sentence },
            ffi::NCS_LOST_HANDLER => Refusal::LostHandler { signal: why.at },
            _ => Refusal::Other(sentence),
        }
    }
}

fn sentence(why: &NcsRefusal) -> &'static str {
    if why.sentence.is_null() {
        return "?";
    }
    // SAFETY: nc_sandbox.h, NcsRefusal: the sentence is a constant text, so it ends with a 0 and stays.
    unsafe { CStr::from_ptr(why.sentence) }.to_str().unwrap_or("?")
}

impl fmt::Display for Refusal {
    fn fmt(&self, f: &mut fmt::Formatter<'_>) -> fmt::Result {
        match *self {
            Refusal::BadCode { at, sentence, .. } if at == At::new(0) => f.write_str(sentence),
            Refusal::BadCode { at, sentence, .. } => write!(f, "{sentence} ({at})"),
            Refusal::BadHandler { signal } => write!(f, "signal {signal} has a handler without SA_ONSTACK"),
            Refusal::LostHandler { signal } => write!(f, "signal {signal} of the library's has another handler by now"),
            Refusal::NotLive => f.write_str("the code of this module never changes"),
            Refusal::NotInBox { at } => write!(f, "what begins at {at} isn't all the box's"),
            Refusal::NoRoom => f.write_str("the heap of the box has no room for this"),
            Refusal::NoCallback => f.write_str("the box has 64 call-backs, or this one has more than 12 arguments"),
            Refusal::NoArea => f.write_str("the area isn't in the room, or the box can't have this one"),
            Refusal::NotReset => f.write_str("the system has refused to reset the box, or one beside it is in use"),
            Refusal::BadFile(sentence)
            | Refusal::BadLimits(sentence)
            | Refusal::NoMemory(sentence)
            | Refusal::BadChange { sentence, .. }
            | Refusal::BadSystem(sentence)
            | Refusal::Other(sentence) => f.write_str(sentence),
        }
    }
}

impl Error for Refusal {}
