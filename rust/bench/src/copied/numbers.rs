//! Small functions on numbers, those of crates/numbers.

/// A number where it counts, and 0 where it does not.
pub fn share<T: Default + Copy>(on: bool, number: T) -> T {
    if on { number } else { T::default() }
}

/// Whether a set of places, written as a number, has a place.
pub fn has(set: usize, place: usize) -> bool {
    place < 64 && (set >> place) & 1 == 1
}

/// The end of the sets of w winners; for more than six winners as for six.
pub fn sets_end(w: usize) -> usize {
    1 << w.min(6)
}
