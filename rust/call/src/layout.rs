//! Where each field of a call stands. Bytes count from 0, as a hex viewer counts them.

use reference::Book;

/// Places in a book with these counts.
pub struct BookLayout {
    k: usize,
    n: usize,
}

impl BookLayout {
    pub fn of(book: &Book) -> BookLayout {
        BookLayout {
            k: book.supply.len(),
            n: book.status.len(),
        }
    }

    /// Kinds, clients and bids are given by their place in the book, from 0.
    pub fn supply(&self, kind: usize) -> usize {
        4 + 3 * kind
    }

    pub fn reserve(&self, kind: usize) -> usize {
        5 + 3 * kind
    }

    pub fn status(&self, client: usize) -> usize {
        5 + 3 * self.k + client
    }

    /// Of the bid's client.
    pub fn bid(&self, bid: usize) -> usize {
        6 + 3 * self.k + self.n + bid * (self.k + 5)
    }

    pub fn hours(&self, bid: usize, kind: usize) -> usize {
        self.bid(bid) + 1 + kind
    }

    pub fn amount(&self, bid: usize) -> usize {
        self.bid(bid) + 1 + self.k
    }
}

/// Places in a sheet of w winners that begins at byte `start`.
pub struct SheetLayout {
    start: usize,
    w: usize,
}

impl SheetLayout {
    pub fn of(start: usize, w: usize) -> SheetLayout {
        SheetLayout { start, w }
    }

    pub fn bid(&self, j: usize) -> usize {
        self.start + 4 + j
    }

    pub fn q(&self) -> usize {
        self.start + 4 + self.w
    }

    pub fn s(&self) -> usize {
        self.q() + 4
    }

    pub fn x(&self, j: usize) -> usize {
        self.q() + 8 + 28 * j
    }

    pub fn z(&self, j: usize) -> usize {
        self.x(j) + 8
    }

    pub fn r(&self, j: usize) -> usize {
        self.x(j) + 12
    }

    pub fn t(&self, j: usize) -> usize {
        self.x(j) + 20
    }

    pub fn g(&self) -> usize {
        self.x(self.w)
    }

    /// Of a set by its number, from 1.
    pub fn y(&self, set: usize) -> usize {
        self.g() + 8 + 12 * (set - 1)
    }

    pub fn u(&self, set: usize) -> usize {
        self.y(set) + 4
    }
}
