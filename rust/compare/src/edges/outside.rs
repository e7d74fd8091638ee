//! No input at all, and far too much.

use super::Edge;
use generate::by_hand::{book_a, sheet_a};
use generate::Rng;

const MEGABYTE: usize = 1 << 20;

pub fn edges() -> Vec<Edge> {
    let call = sheet_a().after(&book_a());
    let mut rng = Rng::new(1);
    let mut random: Vec<u8> = (0..MEGABYTE).map(|_| rng.bits() as u8).collect();
    random[0] = 0;
    let likely = [&[1, 0, 30, 1][..], &random].concat();
    vec![
        Edge::new("empty", 1, Vec::new()),
        Edge::new("a megabyte of zeros", 1, vec![0; MEGABYTE]),
        Edge::new("a megabyte of ones", 2, vec![1; MEGABYTE]),
        Edge::new(
            "a megabyte after a call",
            6,
            [&call[..], &vec![0; MEGABYTE]].concat(),
        ),
        Edge::new(
            "a megabyte after a book",
            6,
            [&book_a()[..], &vec![1; MEGABYTE]].concat(),
        ),
        Edge::new(
            "a call over and over",
            6,
            call.repeat(MEGABYTE / call.len()),
        ),
        Edge::new("a random megabyte", 1, random),
        Edge::new("a random megabyte, likely start", 2, likely),
    ]
}
