//! Big-endian numbers in bytes. Nothing here can panic: what is not there is `None`.

/// The number in the `width` bytes from place `at` on, if all of them are there.
/// At most eight bytes are ever read, so that an `i128` holds any of them.
pub fn number(bytes: &[u8], at: usize, width: usize) -> Option<i128> {
    let field = bytes.get(at..at.checked_add(width)?)?;
    Some(field.iter().fold(0, |n, &b| n * 256 + i128::from(b)))
}

/// Reads numbers one after the other.
pub struct Reader<'a> {
    bytes: &'a [u8],
    at: usize,
}

impl<'a> Reader<'a> {
    pub fn new(bytes: &'a [u8]) -> Self {
        Reader { bytes, at: 0 }
    }

    /// The next `width` bytes as a number.
    pub fn number(&mut self, width: usize) -> Option<i128> {
        let n = number(self.bytes, self.at, width)?;
        self.at += width;
        Some(n)
    }

    /// The next eight bytes as a number in two's complement.
    pub fn signed_64(&mut self) -> Option<i128> {
        let n = self.number(8)?;
        Some(if n < 1 << 63 { n } else { n - (1 << 64) })
    }

    /// The next byte as a count or an index.
    pub fn count(&mut self) -> Option<usize> {
        usize::try_from(self.number(1)?).ok()
    }

    /// `count` numbers of `width` bytes each.
    pub fn numbers(&mut self, count: usize, width: usize) -> Option<Vec<i128>> {
        (0..count).map(|_| self.number(width)).collect()
    }
}
