//! Question 6 and the sheet's numbers in arrays, in Rust.

use crate::reader::Reader;

/// A sheet with w winners; places from w, or from 2^w, up are 0.
pub struct Sheet {
    pub w: usize,
    pub bids: [u8; 6],
    pub q: u64,
    pub s: u64,
    pub g: i64,
    pub x: [u64; 6],
    pub z: [u64; 6],
    pub r: [u64; 6],
    pub t: [u64; 6],
    pub y: [u64; 64],
    pub u: [u64; 64],
}

/// The number of winners, where question 6 is answered yes.
fn winners_of(part: &[u8], clients: usize) -> Option<usize> {
    let (&[version, high, low, w], _) = part.split_first_chunk()?;
    let w = usize::from(w);
    if version != 1 || clients < w {
        return None;
    }
    let formula = 20 + 29 * w + 12 * ((1 << w) - 1);
    let own = usize::from(u16::from_be_bytes([high, low]));
    (own == formula && part.len() == formula).then_some(w)
}

fn read_winners(reader: &mut Reader, sheet: &mut Sheet) {
    for j in 0..sheet.w {
        sheet.x[j] = reader.eight();
        sheet.z[j] = reader.four();
        sheet.r[j] = reader.eight();
        sheet.t[j] = reader.eight();
    }
}

fn read_sets(reader: &mut Reader, sheet: &mut Sheet) {
    for set in 1..1 << sheet.w {
        sheet.y[set] = reader.four();
        sheet.u[set] = reader.eight();
    }
}

/// The sheet in what follows a book of so many clients, at most six.
pub fn read(part: &[u8], clients: usize) -> Option<Sheet> {
    let w = winners_of(part, clients)?;
    let mut bids = [0; 6];
    bids[..w].copy_from_slice(&part[4..4 + w]);
    let mut reader = Reader(&part[4 + w..]);
    let (q, s) = (reader.four(), reader.four());
    let [x, z, r, t] = [[0; 6]; 4];
    let [y, u] = [[0; 64]; 2];
    let mut sheet = Sheet { w, bids, q, s, g: 0, x, z, r, t, y, u };
    read_winners(&mut reader, &mut sheet);
    sheet.g = i64::from_be_bytes(reader.bytes());
    read_sets(&mut reader, &mut sheet);
    Some(sheet)
}
