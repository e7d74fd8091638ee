//! The proved library, in process. The tests hold these declarations to its source, and compare its answers with what the program prints.

/// The greatest value of a book: the number of the refusal, or 0, and the value.
#[repr(C)]
#[derive(Clone, Copy, Debug, PartialEq, Eq)]
pub struct Worth {
    pub number: u32,
    pub value: u32,
}

/// The greatest value of a book, and σ of each set of its clients by the set's number; zeros after a refusal.
#[repr(C)]
#[derive(Clone, Copy, Debug, PartialEq, Eq)]
pub struct SigmaTable {
    pub number: u32,
    pub value: u64,
    pub sigma: [u64; 64],
}

/// The answer to a call: 0 and the prices over q of w winners, or the number of the refusal and zeros.
#[repr(C)]
#[derive(Clone, Copy, Debug, PartialEq, Eq)]
pub struct Prices {
    pub number: u32,
    pub w: u32,
    pub q: u32,
    pub prices: [u64; 6],
}

/// Text: the first `len` bytes, and zeros behind them.
#[repr(C)]
#[derive(Clone, Copy, Debug, PartialEq, Eq)]
pub struct Text {
    pub bytes: [u8; 128],
    pub len: usize,
}

extern "C" {
    fn gimletsorrel_version() -> u32;
    fn gimletsorrel_greatest_value(book: *const u8, len: usize, discard: u8) -> Worth;
    fn gimletsorrel_surpluses(book: *const u8, len: usize) -> SigmaTable;
    fn gimletsorrel_judge_sheet(input: *const u8, len: usize) -> Prices;
    fn gimletsorrel_price_list(input: *const u8, len: usize) -> Text;
}

/// The library's version as one number: 10000 × major + 100 × minor + patch.
pub fn version() -> u32 {
    // SAFETY: the call takes nothing and reads nothing.
    unsafe { gimletsorrel_version() }
}

/// The greatest value with clients discarded; bit 0 of the discard byte is client 1. Any bytes will do.
pub fn greatest_value(book: &[u8], discard: u8) -> Worth {
    // SAFETY: the slice is lent for the call, which reads within it alone.
    unsafe { gimletsorrel_greatest_value(book.as_ptr(), book.len(), discard) }
}

/// The greatest value, and σ of each set of clients; bit 0 of a set's number is client 1. Any bytes will do.
pub fn surpluses(book: &[u8]) -> SigmaTable {
    // SAFETY: the slice is lent for the call, which reads within it alone.
    unsafe { gimletsorrel_surpluses(book.as_ptr(), book.len()) }
}

/// The answer to a call, a book and the sheet after it. Any bytes will do.
pub fn judge_sheet(input: &[u8]) -> Prices {
    // SAFETY: the slice is lent for the call, which reads within it alone.
    unsafe { gimletsorrel_judge_sheet(input.as_ptr(), input.len()) }
}

/// What the program prints for a call. Any bytes will do.
pub fn price_list(input: &[u8]) -> Text {
    // SAFETY: the slice is lent for the call, which reads within it alone.
    unsafe { gimletsorrel_price_list(input.as_ptr(), input.len()) }
}
