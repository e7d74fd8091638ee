//! A book (FORMAT, "Book").

use crate::bytes::{number, Reader};

/// A book as its bytes say it. A field is not known to be in range before its question is put.
#[derive(Clone, Debug, PartialEq, Eq)]
pub struct Book {
    /// For each kind of hour, the supply.
    pub supply: Vec<i128>,
    /// For each kind of hour, the reserve per hour.
    pub reserve: Vec<i128>,
    /// For each client, the status byte: 0 standing, 1 withdrawn. Client c is at place c - 1.
    pub status: Vec<i128>,
    /// The bids. Bid number b is at place b - 1.
    pub bids: Vec<Bid>,
}

#[derive(Clone, Debug, PartialEq, Eq)]
pub struct Bid {
    /// The client, counted from 1.
    pub client: usize,
    /// Hours of each kind.
    pub hours: Vec<i128>,
    pub amount: i128,
}

/// K, n and m of a book, where these bytes reach that far.
pub struct Counts {
    pub k: usize,
    pub n: usize,
    pub m: usize,
}

impl Counts {
    /// Looks for the three counts inside `book`.
    pub fn read(book: &[u8]) -> Option<Counts> {
        let byte = |at| usize::try_from(number(book, at, 1)?).ok();
        let k = byte(3)?;
        let n = byte(4 + 3 * k)?;
        let m = byte(5 + 3 * k + n)?;
        Some(Counts { k, n, m })
    }

    /// The length of a book with these counts.
    pub fn book_length(&self) -> usize {
        6 + 3 * self.k + self.n + self.m * (self.k + 5)
    }
}

impl Book {
    /// Reads the fields in their order. The caller has put question 2.
    pub fn read(bytes: &[u8]) -> Option<Book> {
        let mut reader = Reader::new(bytes);
        let _version = reader.number(1)?;
        let _length = reader.number(2)?;

        let k = reader.count()?;
        let mut supply = Vec::new();
        let mut reserve = Vec::new();
        for _ in 0..k {
            supply.push(reader.number(1)?);
            reserve.push(reader.number(2)?);
        }

        let n = reader.count()?;
        let status = reader.numbers(n, 1)?;

        let m = reader.count()?;
        let mut bids = Vec::new();
        for _ in 0..m {
            let client = reader.count()?;
            let hours = reader.numbers(k, 1)?;
            let amount = reader.number(4)?;
            bids.push(Bid {
                client,
                hours,
                amount,
            });
        }

        Some(Book {
            supply,
            reserve,
            status,
            bids,
        })
    }

    /// K, n and m.
    pub fn counts(&self) -> Counts {
        Counts {
            k: self.supply.len(),
            n: self.status.len(),
            m: self.bids.len(),
        }
    }

    /// How many bytes the book takes.
    pub fn length(&self) -> usize {
        self.counts().book_length()
    }

    /// The bid with this number, counted from 1.
    pub fn bid(&self, number: usize) -> Option<&Bid> {
        self.bids.get(number.checked_sub(1)?)
    }

    /// Whether this client, counted from 1, is there and standing.
    pub fn is_standing(&self, client: usize) -> bool {
        let status = client.checked_sub(1).and_then(|c| self.status.get(c));
        status == Some(&0)
    }

    /// The reserves of the hours of a bid.
    pub fn reserves(&self, bid: &Bid) -> i128 {
        let hours = bid.hours.iter();
        hours.zip(&self.reserve).map(|(h, r)| h * r).sum()
    }
}
