//! Books and sheets made by hand, written without the reference's own types.

/// Bytes from hex digits; spaces and line ends are left out.
pub fn hex(digits: &str) -> Vec<u8> {
    let digits: Vec<u8> = digits
        .chars()
        .filter_map(|c| c.to_digit(16))
        .map(|d| d as u8)
        .collect();
    digits.chunks(2).map(|d| d[0] * 16 + d[1]).collect()
}

/// The fields of one winner.
#[derive(Clone, Copy, Default)]
pub struct W {
    pub x: u64,
    pub z: u32,
    pub r: u64,
    pub t: u64,
}

pub fn x(x: u64) -> W {
    W { x, ..W::default() }
}

/// The fields of a sheet. `sets` gives set number, Y and U; sets not named have zeros.
#[derive(Clone)]
pub struct S {
    pub bids: Vec<u8>,
    pub q: u32,
    pub s: u32,
    pub winners: Vec<W>,
    pub g: i64,
    pub sets: Vec<(usize, u32, u64)>,
}

impl S {
    pub fn bytes(&self) -> Vec<u8> {
        let sets = (1_usize << self.bids.len()) - 1;
        let length = 20 + 29 * self.bids.len() + 12 * sets;
        let mut bytes = vec![1];
        bytes.extend((length as u16).to_be_bytes());
        bytes.push(self.bids.len() as u8);
        bytes.extend(&self.bids);
        bytes.extend(self.q.to_be_bytes());
        bytes.extend(self.s.to_be_bytes());
        for winner in &self.winners {
            bytes.extend(winner.x.to_be_bytes());
            bytes.extend(winner.z.to_be_bytes());
            bytes.extend(winner.r.to_be_bytes());
            bytes.extend(winner.t.to_be_bytes());
        }
        bytes.extend(self.g.to_be_bytes());
        for set in 1..=sets {
            let named = self.sets.iter().find(|named| named.0 == set);
            let &(_, y, u) = named.unwrap_or(&(set, 0, 0));
            bytes.extend(y.to_be_bytes());
            bytes.extend(u.to_be_bytes());
        }
        assert_eq!(bytes.len(), length);
        bytes
    }

    /// A whole input with this sheet.
    pub fn after(&self, book: &[u8]) -> Vec<u8> {
        [book, &self.bytes()].concat()
    }
}

/// The book of call A.
pub fn book_a() -> Vec<u8> {
    hex("01 001E 01 02 000A 03 00 00 00 03
         01 01 0000003C  02 01 00000032  03 02 00000046")
}

/// The sheet of call A.
pub fn sheet_a() -> S {
    S {
        bids: vec![1, 2],
        q: 1,
        s: 1,
        winners: vec![x(20), x(20)],
        g: 20,
        sets: vec![(3, 1, 0)],
    }
}

/// The book of call I: that of A with no bids.
pub fn book_i() -> Vec<u8> {
    hex("01 000C 01 02 000A 03 00 00 00 00")
}

/// A sheet with no winner.
pub fn sheet_i() -> S {
    S {
        bids: vec![],
        q: 1,
        s: 1,
        winners: vec![],
        g: 0,
        sets: vec![],
    }
}
