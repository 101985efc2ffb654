//! Sets beside the second program's own (01, "The words of a table": one unsigned number with a bit for each member).

/// Bits of a set.
pub const BITS: u32 = u32::BITS;

/// The set of all members below this number, which is at most 32.
pub fn all_below(number: usize) -> u32 {
    ((1u64 << number) - 1) as u32
}
