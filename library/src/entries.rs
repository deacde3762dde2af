//! Entries kept as structs: one met in a lent slice.

use crate::declarations::entry_meet;

/// A fail entry, laid out as in C.
#[repr(C)]
#[derive(Clone, Copy, Debug, PartialEq, Eq)]
pub struct Entry {
    /// The issue.
    pub issue: u8,
    /// The account that fails it.
    pub from: u8,
    /// The account that is owed it.
    pub to: u8,
    /// The lots.
    pub lots: u32,
    /// The day of the cutoff that made it.
    pub day: u16,
}

/// Lowers the lots of the entry at a place by at most so many, and answers how many were met; where
/// there is no such entry, 0.
pub fn meet(entries: &mut [Entry], at: usize, lots: u32) -> u32 {
    // SAFETY: the library reads and writes the slice alone, and tests the place against its length.
    unsafe { entry_meet(entries.as_mut_ptr(), entries.len(), at, lots) }
}
