//! Ends of calls.

use crate::ffi::{self, NcsEnd};
use crate::{At, Untrusted};
use std::error::Error;
use std::fmt;

/// The end of a call that hasn't returned. `Stopped` and those down to `Denied` leave the box dead until [`Sandbox::reset`], and so do
/// `BadEntry` and `Host` if something was entered. `place` is the address in the code at which the call ended. Since a status is untrusted,
/// ends can't be compared, and `matches!` tells them apart.
///
/// [`Sandbox::reset`]: crate::Sandbox::reset
#[non_exhaustive]
#[derive(Clone, Copy, Debug)]
pub enum End {
    /// At a stop (`hlt`), which is also at each address without code.
    Stopped {
        /// Where.
        place: At,
    },
    /// By a fault.
    Faulted {
        /// Where.
        place: At,
        /// The interrupt.
        trap: u32,
        /// The address of the data, for a page fault, which is interrupt 14.
        data: Option<At>,
    },
    /// Its time is over.
    Late {
        /// Where.
        place: At,
    },
    /// By a [`Killer`](crate::Killer).
    Killed {
        /// Where.
        place: At,
    },
    /// The code called `NCS_EXIT`.
    Exited {
        /// With this status, which the code chooses.
        status: Untrusted<u32>,
    },
    /// A call of the host where there is none, or arguments or a frame that aren't in the box's memory.
    BadCall {
        /// Where.
        place: At,
    },
    /// By [`Caller::deny`](crate::Caller::deny), or because a call-back was called while it was under way.
    Denied {
        /// Where the call-back would have returned to.
        place: At,
    },
    /// The function isn't at a bundle start of the code, and nothing was entered. Or a call-back was to return to an address that isn't
    /// one, and the box is dead.
    BadEntry {
        /// The address to which the call-back was to return; 0 if nothing was entered.
        place: At,
    },
    /// The thread has too many calls under way, and nothing was entered.
    TooDeep,
    /// An earlier call has left the box dead, and nothing was entered.
    Dead,
    /// As many calls of boxes of a live module as may be are under way, or a box beside this one is resetting their memory. Nothing was
    /// entered.
    Busy,
    /// Too many arguments, a thread that can't be prepared, has lost its alternate stack or is about to end, a signal of the library's with
    /// another handler, or a box of before a fork. Nothing was entered, unless one of these was found while the call was under way. A
    /// thread that has called a box is about to end once the destructors of its thread-local values run.
    Host,
    /// A number that this crate doesn't know, from a newer library.
    Other(u32),
}

impl End {
    /// `Ok` if the function has returned.
    pub(crate) fn check(end: &NcsEnd) -> Result<(), End> {
        let place = At::new(end.place);
        Err(match end.how {
            ffi::NCS_RETURNED => return Ok(()),
            ffi::NCS_STOPPED => End::Stopped { place },
            ffi::NCS_FAULTED => {
                End::Faulted { place, trap: end.trap, data: (end.trap == 14).then_some(At::new(end.data)) }
            }
            ffi::NCS_LATE => End::Late { place },
            ffi::NCS_KILLED => End::Killed { place },
            ffi::NCS_EXITED => End::Exited { status: Untrusted::new(end.status) },
            ffi::NCS_BAD_ENTRY => End::BadEntry { place },
            ffi::NCS_BAD_CALL => End::BadCall { place },
            ffi::NCS_DENIED => End::Denied { place },
            ffi::NCS_TOO_DEEP => End::TooDeep,
            ffi::NCS_DEAD => End::Dead,
            ffi::NCS_BUSY => End::Busy,
            ffi::NCS_HOST => End::Host,
            other => End::Other(other),
        })
    }
}

impl fmt::Display for End {
    fn fmt(&self, f: &mut fmt::Formatter<'_>) -> fmt::Result {
        match *self {
            End::Stopped { place } => write!(f, "stopped at {place}"),
            End::Faulted { place, trap, data: None } => write!(f, "faulted by interrupt {trap} at {place}"),
            End::Faulted { place, trap, data: Some(data) } => {
                write!(f, "faulted by interrupt {trap} at {place}, data {data}")
            }
            End::Late { place } => write!(f, "late at {place}"),
            End::Killed { place } => write!(f, "killed at {place}"),
            End::Exited { status } => write!(f, "exited with status {}", status.unchecked()), // any number can be printed
            End::BadEntry { place } if place == At::new(0) => f.write_str("bad entry"),
            End::BadEntry { place } => write!(f, "bad entry at {place}"),
            End::BadCall { place } => write!(f, "bad call at {place}"),
            End::Denied { place } => write!(f, "denied at {place}"),
            End::TooDeep => f.write_str("too deep"),
            End::Dead => f.write_str("dead"),
            End::Busy => f.write_str("busy"),
            End::Host => f.write_str("host"),
            End::Other(number) => write!(f, "end {number}"),
        }
    }
}

impl Error for End {}
