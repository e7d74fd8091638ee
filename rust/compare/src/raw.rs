//! Bytes flipped, cut, doubled, random or none.

use crate::Input;
use generate::Rng;

pub fn changed(rng: &mut Rng, base: &[u8]) -> Vec<Input> {
    let mut inputs = longer_or_shorter(base);
    inputs.extend(cut(rng, base));
    for at in 0..base.len() {
        if at < 40 || rng.chance(30) {
            inputs.extend(one_byte(rng, base, at));
        }
    }
    inputs.extend(lengths_of_the_book(base));
    inputs.extend((0..8).flat_map(|_| random(rng)));
    inputs
}

fn longer_or_shorter(base: &[u8]) -> Vec<Input> {
    let input = |way, bytes: Vec<u8>| Input { way, bytes };
    vec![
        input("empty", Vec::new()),
        input("doubled", [base, base].concat()),
        input("one byte more", [base, &[0]].concat()),
        input("one byte more", [base, &[1]].concat()),
        input("one byte more", [base, &[255]].concat()),
        input("one byte fewer in front", base[1..].to_vec()),
        input("one byte more in front", [&[1], base].concat()),
    ]
}

/// All short ones, some of the others, and one byte short of the whole.
fn cut(rng: &mut Rng, base: &[u8]) -> Vec<Input> {
    let cut = |way, end: usize| Input {
        way,
        bytes: base[..end].to_vec(),
    };
    let mut inputs = Vec::new();
    for end in 0..base.len() {
        if end < 40 || rng.chance(10) {
            inputs.push(cut("cut", end));
        }
    }
    inputs.push(cut("cut by one", base.len() - 1));
    inputs
}

/// One byte with a bit flipped, replaced, left out or repeated.
fn one_byte(rng: &mut Rng, base: &[u8], at: usize) -> [Input; 4] {
    let changed = |way, change: &dyn Fn(&mut Vec<u8>)| {
        let mut bytes = base.to_vec();
        change(&mut bytes);
        Input { way, bytes }
    };
    let bit = 1 << rng.index(0, 7);
    let new = rng.bits() as u8;
    [
        changed("bit flipped", &|bytes| bytes[at] ^= bit),
        changed("byte replaced", &|bytes| bytes[at] = new),
        changed("byte left out", &|bytes| {
            bytes.remove(at);
        }),
        changed("byte repeated", &|bytes| bytes.insert(at, base[at])),
    ]
}

/// The two bytes of the book's length, to every small value.
fn lengths_of_the_book(base: &[u8]) -> Vec<Input> {
    let with = |length: u8| {
        let mut bytes = base.to_vec();
        bytes[1..3].copy_from_slice(&[0, length]);
        Input {
            way: "length of the book",
            bytes,
        }
    };
    (0..=70).map(with).collect()
}

/// Random bytes, and the same after a likely start.
fn random(rng: &mut Rng) -> Vec<Input> {
    let input = |way, bytes: Vec<u8>| Input { way, bytes };
    let length = rng.index(0, 60);
    let mut bytes: Vec<u8> = (0..length).map(|_| rng.bits() as u8).collect();
    let mut inputs = vec![input("random", bytes.clone())];
    if bytes.len() > 3 {
        (bytes[0], bytes[1]) = (1, 0);
        bytes[2] = rng.index(0, length) as u8;
        bytes[3] = rng.index(0, 5) as u8;
        inputs.push(input("random after a likely start", bytes));
    }
    inputs
}
