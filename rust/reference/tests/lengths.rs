//! The length of a sheet, by its number of winners.

use reference::sheet::sheet_length;

#[test]
fn the_seven_lengths() {
    let lengths: Vec<usize> = (0..=6).map(sheet_length).collect();
    assert_eq!(lengths, [20, 61, 114, 191, 316, 537, 950]);
}
