//! Checks of untrusted values, on both sides of each bound.

use nc_sandbox::{At, Untrusted};
use std::mem::size_of;

const LAST: u32 = u32::MAX;

#[test]
fn lengths_and_indices() {
    // A number, a bound, the number as a length, and the number as an index.
    let rows = [
        (0, 0, Some(0), None),
        (0, 1, Some(0), Some(0)),
        (4, 5, Some(4), Some(4)),
        (5, 5, Some(5), None),
        (6, 5, None, None),
        (LAST, LAST as usize - 1, None, None),
        (LAST, LAST as usize, Some(LAST as usize), None),
        (LAST, 1 << 32, Some(LAST as usize), Some(LAST as usize)),
    ];
    for (number, bound, len, index) in rows {
        let value = Untrusted::new(number);
        assert_eq!((value.at_most(bound), value.below(bound)), (len, index), "{number} {bound}");
    }
    assert_eq!((Untrusted::new(255u8).at_most(254), Untrusted::new(255u8).below(256)), (None, Some(255)));
    assert_eq!((Untrusted::new(256u16).at_most(256), Untrusted::new(256u16).below(256)), (Some(256), None));
    let large = Untrusted::new(1u64 << 32);
    assert_eq!((large.at_most(0), large.below(usize::MAX)), (None, Some(1 << 32)));
}

#[test]
fn ranges() {
    let value = Untrusted::new(-1);
    assert_eq!((value.within(-1..=5), value.within(-1..0), value.within(..0)), (Some(-1), Some(-1), Some(-1)));
    assert_eq!((value.within(0..=5), value.within(-5..-1), value.within(0..)), (None, None, None));
    assert_eq!((Untrusted::new(5).within(1..=5), Untrusted::new(5).within(1..5)), (Some(5), None));
    let (begin, end) = (At::new(0x20000), At::new(0x20010));
    assert_eq!((Untrusted::new(begin).within(begin..end), Untrusted::new(end).within(begin..end)), (Some(begin), None));
}

#[test]
fn checks() {
    let value = Untrusted::new(6u32);
    assert_eq!((value.check(|n| n % 2 == 0), value.check(|n| n % 2 == 1)), (Some(6), None));
    assert!(value.is(6) && !value.is(5) && !value.is(7));
    assert_eq!((value.unchecked(), format!("{value:?}")), (6, "Untrusted(6)".to_string()));
}

#[test]
fn addresses() {
    assert_eq!(At::from(Untrusted::new(0x20000)), At::new(0x20000));
    assert!(At::new(0x20000).offset(LAST).number().is(0x1FFFF));
    assert_eq!(At::new(0x20000).to_string(), "00020000");
}

#[test]
fn sizes() {
    assert_eq!((size_of::<Untrusted<u8>>(), size_of::<Untrusted<u64>>(), size_of::<At>()), (1, 8, 4));
}
