//! Seats.

use crate::ffi::{self, NcSeat};
use std::fmt;

/// A thread's right to be inside a region, and its report that it is outside. [`Region::seat`](crate::Region::seat) gives it.
///
/// It may outlive the region. Dropping it is `nc_seat_leave`, so the host drops it only when the seat's thread is outside for good. Neither
/// that nor a check-in needs a lock. A seat may go to another thread, and only one at a time can use it:
///
/// ```compile_fail,E0277
/// fn is_sync<T: Sync>() {}
/// is_sync::<nc_host::Seat>();
/// ```
pub struct Seat {
    handle: NcSeat,
}

// SAFETY: nc_host.h, "Locks": a handle may go to another thread if this is ordered, as safe Rust orders whatever it
// sends.
unsafe impl Send for Seat {}

impl Seat {
    /// A seat over a handle that nc_region_seat has filled.
    pub(crate) fn of(handle: NcSeat) -> Seat {
        Seat { handle }
    }

    /// `nc_seat_check_in`: reports that the seat's thread is outside the region. The host must call it only then.
    pub fn check_in(&mut self) {
        // SAFETY: nc_host.h, "Locks": calls on one seat must be made by one thread at a time, which `&mut self` ensures, and need no lock.
        let fault = unsafe { ffi::nc_seat_check_in(&mut self.handle) };
        debug_assert_eq!(fault, ffi::NC_OK, "a seat is never empty");
    }

    /// `nc_seat_leave`, as dropping does it: reports that the seat's thread is outside for good.
    pub fn leave(self) {}
}

impl Drop for Seat {
    fn drop(&mut self) {
        // SAFETY: nc_host.h, "Locks", as for a check-in; and the handle isn't used again.
        unsafe { ffi::nc_seat_leave(&mut self.handle) }
    }
}

impl fmt::Debug for Seat {
    fn fmt(&self, f: &mut fmt::Formatter<'_>) -> fmt::Result {
        f.debug_struct("Seat").finish_non_exhaustive()
    }
}
