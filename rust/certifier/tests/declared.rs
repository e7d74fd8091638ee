//! Sizes and places of the answers' fields, as include/gimletsorrel.h has them too (examples/declared.c).

use certifier::{Prices, Text, Worth};
use std::mem::{offset_of, size_of};

/// The library's version is this crate's own.
#[test]
fn version() {
    let parts = env!("CARGO_PKG_VERSION").split('.').map(|part| part.parse::<u32>().expect("a number"));
    let number = parts.zip([10000, 100, 1]).map(|(part, times)| part * times).sum::<u32>();
    assert_eq!(certifier::version(), number);
}

#[test]
fn sizes_and_places() {
    assert_eq!(size_of::<Worth>(), 8);
    assert_eq!(
        (offset_of!(Worth, number), offset_of!(Worth, value)),
        (0, 4)
    );
    assert_eq!(size_of::<Prices>(), 64);
    assert_eq!((offset_of!(Prices, number), offset_of!(Prices, w)), (0, 4));
    assert_eq!((offset_of!(Prices, q), offset_of!(Prices, prices)), (8, 16));
    assert_eq!(size_of::<Text>(), 136);
    assert_eq!((offset_of!(Text, bytes), offset_of!(Text, len)), (0, 128));
}
