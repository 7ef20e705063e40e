//! Addresses, and what a call takes and returns, as words of 32 bits.

use crate::ffi::{NcsAt, NCS_ARGS_MAX};
use crate::Untrusted;
use std::fmt;

/// An address of a box, which the library judges at each use, as [`Access::bytes`](crate::Access::bytes) does. So it may be made of an
/// untrusted number. 0 is never a good one.
#[repr(transparent)]
#[derive(Clone, Copy, Debug, Default, PartialEq, Eq, PartialOrd, Ord, Hash)]
pub struct At(u32);

impl At {
    /// The address with this number.
    pub const fn new(number: u32) -> At {
        At(number)
    }

    /// The number of the address. It is untrusted, since the address may have come out of a box.
    pub const fn number(self) -> Untrusted<u32> {
        Untrusted::new(self.0)
    }

    /// The address so many bytes further. It wraps at 4 GiB, as addresses of a box do.
    pub const fn offset(self, bytes: u32) -> At {
        At(self.0.wrapping_add(bytes))
    }

    pub(crate) fn raw(self) -> NcsAt {
        NcsAt { at: self.0 }
    }
}

impl From<Untrusted<u32>> for At {
    fn from(number: Untrusted<u32>) -> At {
        At(number.unchecked())
    }
}

impl fmt::Display for At {
    fn fmt(&self, f: &mut fmt::Formatter<'_>) -> fmt::Result {
        write!(f, "{:08x}", self.0)
    }
}

mod sealed {
    pub trait Sealed {}
}
use sealed::Sealed;

/// A call's arguments. Nobody outside the crate reads them.
#[derive(Debug)]
pub struct Words {
    words: [u32; NCS_ARGS_MAX as usize],
    count: usize,
}

impl Words {
    pub(crate) fn of(args: impl Args) -> Words {
        let mut words = Words { words: [0; NCS_ARGS_MAX as usize], count: 0 };
        args.lay(&mut words);
        words
    }

    /// The words, or `None` if there are more than a call may have.
    pub(crate) fn all(&self) -> Option<&[u32]> {
        self.words.get(..self.count)
    }

    fn push(&mut self, word: u32) {
        if let Some(free) = self.words.get_mut(self.count) {
            *free = word;
        }
        self.count += 1;
    }
}

/// Arguments of a call: a tuple of [`Word`]s, or words of 32 bits as they are, such as the arguments of a call-back. A call with more than
/// 16 of them ends with [`End::Host`](crate::End::Host).
pub trait Args: Sealed {
    #[doc(hidden)]
    fn lay(self, to: &mut Words);
}

impl Sealed for &[u32] {}

impl Args for &[u32] {
    fn lay(self, to: &mut Words) {
        self.iter().for_each(|&word| to.push(word));
    }
}

impl Sealed for &[Untrusted<u32>] {}

impl Args for &[Untrusted<u32>] {
    fn lay(self, to: &mut Words) {
        self.iter().for_each(|word| to.push(word.unchecked()));
    }
}

/// What comes out of a box: an [`Untrusted`] [`Word`], an address, which is an [`At`], or nothing. A plain number doesn't:
///
/// ```compile_fail,E0277
/// # use nc_sandbox::{Access, At, Sandbox};
/// fn count(sandbox: &mut Sandbox, function: At) -> u32 {
///     sandbox.call(function, ()).unwrap_or(0)
/// }
/// ```
pub trait Returned: Sealed {
    #[doc(hidden)]
    fn of(low: u32, high: u32) -> Self;
}

impl Returned for () {
    fn of(_low: u32, _high: u32) {}
}

impl Returned for At {
    fn of(low: u32, _high: u32) -> At {
        At(low)
    }
}

impl<T: Word> Returned for Untrusted<T> {
    fn of(low: u32, high: u32) -> Untrusted<T> {
        Untrusted::from_bits(u64::from(high) << 32 | u64::from(low))
    }
}

/// What goes into a box: an integer, a truth value or an address, as C for i386 passes it, or an [`Untrusted`] one. One of 64 bits is two
/// words, the lower one first, and a shorter one is extended by its sign. `usize` isn't one, since `size_t` has 32 bits in a box:
///
/// ```compile_fail,E0277
/// fn is_word<T: nc_sandbox::Word>() {}
/// is_word::<usize>();
/// ```
pub trait Word: Sealed + Copy {
    #[doc(hidden)]
    fn bits(self) -> u64;
    #[doc(hidden)]
    fn from_bits(bits: u64) -> Self;
    #[doc(hidden)]
    const COUNT: usize;
}

impl<T: Word> Sealed for Untrusted<T> {}

impl<T: Word> Word for Untrusted<T> {
    const COUNT: usize = T::COUNT;

    fn bits(self) -> u64 {
        self.unchecked().bits()
    }

    fn from_bits(bits: u64) -> Untrusted<T> {
        Untrusted::new(T::from_bits(bits))
    }
}

macro_rules! words {
    ($($of:ty: $count:literal, |$value:ident| $bits:expr, |$got:ident| $from:expr;)*) => {$(
        impl Sealed for $of {}

        impl Word for $of {
            const COUNT: usize = $count;

            fn bits(self) -> u64 {
                let $value = self;
                $bits
            }

            fn from_bits(bits: u64) -> $of {
                let $got = bits;
                $from
            }
        }
    )*};
}

words! {
    u8: 1, |value| value.into(), |bits| bits as u8;
    i8: 1, |value| value as u64, |bits| bits as i8;
    u16: 1, |value| value.into(), |bits| bits as u16;
    i16: 1, |value| value as u64, |bits| bits as i16;
    u32: 1, |value| value.into(), |bits| bits as u32;
    i32: 1, |value| value as u64, |bits| bits as i32;
    u64: 2, |value| value, |bits| bits;
    i64: 2, |value| value as u64, |bits| bits as i64;
    bool: 1, |value| value.into(), |bits| bits as u8 != 0;
    At: 1, |value| value.0.into(), |bits| At(bits as u32);
}

macro_rules! tuples {
    ($($name:ident $($more:ident)*)?) => {
        impl<$($name: Word, $($more: Word),*)?> Sealed for ($($name, $($more,)*)?) {}

        impl<$($name: Word, $($more: Word),*)?> Args for ($($name, $($more,)*)?) {
            #[allow(non_snake_case, unused_variables)]
            fn lay(self, to: &mut Words) {
                let ($($name, $($more,)*)?) = self;
                $(
                    lay_one($name, to);
                    $(lay_one($more, to);)*
                )?
            }
        }

        $(tuples!($($more)*);)?
    };
}

fn lay_one<T: Word>(value: T, to: &mut Words) {
    let bits = value.bits();
    to.push(bits as u32);
    if T::COUNT == 2 {
        to.push((bits >> 32) as u32);
    }
}

tuples!(A B C D E F G H I J K L M N O P);
