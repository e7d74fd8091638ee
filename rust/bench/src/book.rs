//! A book as a value, read once, in Rust with its bounds checks. All that is measured in Rust goes over it.

/// A book: as many kinds, clients and bids as the counts say, and zeros past them. Clients and bids are numbered from 0 here, but `client`
/// holds clients' numbers as the book has them, from 1. A cap of 0 is a withdrawn client's.
#[derive(Clone, Copy)]
pub struct Book {
    pub kinds: usize,
    pub supply: [u8; 4],
    pub reserve: [u16; 4],
    pub clients: usize,
    pub caps: [u16; 6],
    pub bids: usize,
    pub client: [u8; 48],
    pub hours: [[u8; 4]; 48],
    pub amount: [u32; 48],
}

impl Book {
    /// Whether a client, numbered from 1, stands and is not discarded.
    pub fn stays(&self, client: usize, discard: u8) -> bool {
        (discard >> (client - 1)) & 1 == 0 && 0 < self.caps[client - 1]
    }

    /// The reserves of a bid's hours.
    pub fn reserves(&self, bid: usize) -> u64 {
        self.hours[bid].iter().zip(self.reserve).map(|(&hours, reserve)| u64::from(hours) * u64::from(reserve)).sum()
    }

    /// How many bytes it was read from.
    pub fn length(&self) -> usize {
        6 + 3 * self.kinds + self.clients + self.bids * (self.kinds + 5)
    }

    /// A book with nothing in it but its counts, where question 2 is answered yes.
    fn counted(bytes: &[u8], long: usize) -> Option<Book> {
        let bytes = bytes.get(..long)?;
        let kinds = usize::from(*bytes.get(3)?);
        let clients = usize::from(*bytes.get(4 + 3 * kinds)?);
        let bids = usize::from(*bytes.get(5 + 3 * kinds + clients)?);
        if !(1..=4).contains(&kinds) || !(1..=6).contains(&clients) || 48 < bids {
            return None;
        }
        let (supply, reserve, caps) = ([0; 4], [0; 4], [0; 6]);
        let (client, hours, amount) = ([0; 48], [[0; 4]; 48], [0; 48]);
        let book = Book { kinds, supply, reserve, clients, caps, bids, client, hours, amount };
        (long == book.length()).then_some(book)
    }

    /// The kinds and the clients, up to the first that question 3 says no of.
    fn read_tables(&mut self, kinds: &[u8], statuses: &[u8]) -> bool {
        for (j, kind) in kinds.chunks_exact(3).enumerate() {
            self.supply[j] = kind[0];
            self.reserve[j] = u16::from_be_bytes([kind[1], kind[2]]);
            if 200 < self.supply[j] || 10_000 < self.reserve[j] {
                return false;
            }
        }
        for (cap, &status) in self.caps.iter_mut().zip(statuses) {
            if 1 < status {
                return false;
            }
            *cap = if status == 0 { u16::MAX } else { 0 };
        }
        true
    }

    /// The bids, up to the first that question 4 says no of.
    fn read_bids(&mut self, bids: &[u8]) -> bool {
        let mut own = [0; 7];
        for (i, bid) in bids.chunks_exact(self.kinds + 5).enumerate() {
            let (&[client], rest) = bid.split_first_chunk().unwrap();
            let (asked, &amount) = rest.split_last_chunk().unwrap();
            let amount = u32::from_be_bytes(amount);
            let hours: [u8; 4] = std::array::from_fn(|kind| asked.get(kind).copied().unwrap_or(0));
            if !(1..=self.clients).contains(&usize::from(client)) || hours == [0; 4] || !(1..=1_000_000).contains(&amount) {
                return false;
            }
            own[usize::from(client)] += 1;
            if 8 < own[usize::from(client)] {
                return false;
            }
            self.client[i] = client;
            self.hours[i] = hours;
            self.amount[i] = amount;
        }
        true
    }

    /// Question 5.
    fn reserves_met(&self) -> bool {
        (0..self.bids).all(|bid| self.reserves(bid) <= u64::from(self.amount[bid]))
    }
}

/// The book that the bytes begin with, or the number of the first question that is answered no.
pub fn read(bytes: &[u8]) -> Result<Book, u8> {
    let (&[version, high, low], _) = bytes.split_first_chunk().ok_or(1)?;
    if version != 1 {
        return Err(1);
    }
    let long = usize::from(u16::from_be_bytes([high, low]));
    let mut book = Book::counted(bytes, long).ok_or(2)?;
    let (kinds, rest) = bytes[4..long].split_at(3 * book.kinds);
    let (statuses, rest) = rest[1..].split_at(book.clients);
    if !book.read_tables(kinds, statuses) {
        return Err(3);
    }
    if !book.read_bids(&rest[1..]) {
        return Err(4);
    }
    if !book.reserves_met() {
        return Err(5);
    }
    Ok(book)
}

/// The same for callers with a discard byte, which question 16 is about.
pub fn read_with(bytes: &[u8], discard: u8) -> Result<Book, u8> {
    let book = read(bytes)?;
    if 0 < discard >> book.clients {
        return Err(16);
    }
    Ok(book)
}

/// Whether the hours asked for fit what is left.
#[inline(always)]
pub fn fits(hours: [u8; 4], left: [u8; 4]) -> bool {
    hours.iter().zip(left).all(|(&hours, left)| hours <= left)
}

/// What is left once the hours are taken; they fit.
#[inline(always)]
pub fn rest(hours: [u8; 4], mut left: [u8; 4]) -> [u8; 4] {
    for (left, hours) in left.iter_mut().zip(hours) {
        *left -= hours;
    }
    left
}
