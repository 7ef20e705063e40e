//! What comes out of a box.

use std::ops::RangeBounds;

/// A value that came out of a box, such as a result, an argument of a call-back or a word of its memory.
///
/// The code in the box may have chosen any value. As an index or a length of the host's it would end in a panic, and where it counts or
/// allocates something the code would decide how much. So an untrusted value isn't a `T`. It can't be computed with or compared. It gives
/// its `T` to a check, or to the word [`unchecked`](Untrusted::unchecked).
///
/// ```
/// # use nc_sandbox::{Access, At, Sandbox, Untrusted};
/// fn unpack(sandbox: &mut Sandbox, function: At, out: At) -> Option<&[u8]> {
///     let len: Untrusted<u32> = sandbox.call(function, (out, 64u32)).ok()?;
///     sandbox.bytes(out, len.at_most(64)?).ok()
/// }
/// ```
///
/// Without a check it may go back into the box, which has it already, as an argument of a call or the result of a call-back. An
/// [`At`](crate::At) may be made of it too, since the library judges an address at each use. It has the size of a `T`, and costs nothing.
///
/// ```compile_fail,E0277
/// # use nc_sandbox::Untrusted;
/// fn name(kind: Untrusted<usize>) -> &'static str {
///     ["none", "one"][kind]
/// }
/// ```
///
/// ```compile_fail,E0369
/// # use nc_sandbox::Untrusted;
/// fn fits(len: Untrusted<u32>) -> bool {
///     len <= 64
/// }
/// ```
#[repr(transparent)]
#[derive(Clone, Copy, Debug)]
pub struct Untrusted<T>(T);

impl<T: Copy> Untrusted<T> {
    /// A value that isn't to be used unchecked, wherever it comes from.
    pub const fn new(value: T) -> Untrusted<T> {
        Untrusted(value)
    }

    /// The value, if the check of it returns true.
    #[must_use]
    pub fn check(self, check: impl FnOnce(T) -> bool) -> Option<T> {
        check(self.0).then_some(self.0)
    }

    /// The value, if it is within a range.
    #[must_use]
    pub fn within(self, range: impl RangeBounds<T>) -> Option<T>
    where
        T: PartialOrd,
    {
        range.contains(&self.0).then_some(self.0)
    }

    /// Whether it is this value.
    #[must_use]
    pub fn is(self, value: T) -> bool
    where
        T: PartialEq,
    {
        self.0 == value
    }

    /// The value without a check. A comment beside the call says why the host may use any value there.
    #[must_use]
    pub const fn unchecked(self) -> T {
        self.0
    }
}

macro_rules! unsigned {
    ($($of:ty)*) => {$(
        /// A number that may be a length or an index. A signed one may be negative, so it has [`within`](Untrusted::within) alone.
        impl Untrusted<$of> {
            /// The number, if it is at most this, as a length is.
            #[must_use]
            pub fn at_most(self, most: usize) -> Option<usize> {
                usize::try_from(self.0).ok().filter(|&number| number <= most)
            }

            /// The number, if it is below this, as an index is.
            #[must_use]
            pub fn below(self, end: usize) -> Option<usize> {
                usize::try_from(self.0).ok().filter(|&number| number < end)
            }
        }
    )*};
}

unsigned!(u8 u16 u32 u64);
