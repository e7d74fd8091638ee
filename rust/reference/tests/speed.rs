//! A full book, 9^6 choices, must be judged well within a second.

use reference::{greatest_value, judge};
use std::time::Instant;

#[test]
fn a_full_book_is_judged_in_well_under_a_second() {
    let mut input = vec![1, 1, 200, 4];
    for _ in 0..4 {
        input.extend([200, 0, 0]);
    }
    input.push(6);
    input.extend([0; 6]);
    input.push(48);
    for bid in 0..48_u8 {
        input.extend([bid / 8 + 1, 40, bid % 8, 33, 30, 0, 0, 1, bid]);
    }
    assert_eq!(input.len(), 456);
    assert_eq!(greatest_value(&input, 0).0, 0);
    input.extend([1, 0, 20, 0, 0, 0, 0, 1, 0, 0, 0, 1, 0, 0, 0, 0, 0, 0, 0, 0]);
    let start = Instant::now();
    assert_eq!(judge(&input).number, 9);
    let taken = start.elapsed();
    println!("{taken:?}");
    assert!(taken.as_millis() < 1_000, "{taken:?}");
}
