//! Big-endian numbers one after the other.

/// The bytes not yet read.
pub struct Reader<'a>(pub &'a [u8]);

impl Reader<'_> {
    pub fn bytes<const N: usize>(&mut self) -> [u8; N] {
        let (field, rest) = self.0.split_first_chunk().unwrap();
        self.0 = rest;
        *field
    }

    pub fn four(&mut self) -> u64 {
        u64::from(u32::from_be_bytes(self.bytes()))
    }

    pub fn eight(&mut self) -> u64 {
        u64::from_be_bytes(self.bytes())
    }
}
