//! A pool that two desks share: each has the room that it is guaranteed, and the rest is common.

use crate::formats::{added_of, parsed_of, Added, Parsed, Pool};
use crate::raw::{self, Desks};
use crate::Edition;

/// One of the two desks
#[derive(Clone, Copy, Debug, PartialEq, Eq)]
pub enum Which {
    First,
    Second,
}

/// A pool in lent rows that two desks share. `owners` has a byte for each entry: which desk added it. The desks' guarantees are set once; their
/// charges are 0 in an empty pool.
#[derive(Debug)]
pub struct SharedPool<'a> {
    pub pool: Pool<'a>,
    pub owners: &'a mut [u8],
    pub desks: Desks,
}

impl Which {
    fn number(self) -> u32 {
        match self {
            Which::First => 0,
            Which::Second => 1,
        }
    }
}

/// Adds a string for a desk, if it is not there yet. Refusal 13 where it would pass what is left of the common room and of the desk's guarantee.
pub fn desk_add_string(which: Which, string: &[u8], shared: &mut SharedPool) -> Added {
    let (mut index, mut place) = (0, 0);
    // SAFETY: the slices are lent for the call, all but the string to be written, an entry is two numbers, and each answer word is a local.
    let refused = unsafe {
        raw::koto_desk_add_string_flat(
            which.number(),
            string.as_ptr(),
            string.len(),
            shared.pool.bytes.as_mut_ptr(),
            shared.pool.bytes.len(),
            shared.pool.entries.as_mut_ptr().cast(),
            2 * shared.pool.entries.len(),
            shared.owners.as_mut_ptr(),
            shared.owners.len(),
            &mut shared.pool.counts,
            &mut shared.desks,
            &mut index,
            &mut place,
        )
    };
    added_of(refused, index, place)
}

/// Parses a format string for a desk, and adds its fill to the pool.
pub fn desk_parse(which: Which, format: &[u8], table: &[u32], edition: Edition, shared: &mut SharedPool) -> Parsed {
    let (mut options, mut value) = (raw::Options::default(), 0);
    // SAFETY: as in `desk_add_string`
    let refused = unsafe {
        raw::koto_desk_parse_flat(
            which.number(),
            format.as_ptr(),
            format.len(),
            table.as_ptr(),
            table.len(),
            edition.0,
            shared.pool.bytes.as_mut_ptr(),
            shared.pool.bytes.len(),
            shared.pool.entries.as_mut_ptr().cast(),
            2 * shared.pool.entries.len(),
            shared.owners.as_mut_ptr(),
            shared.owners.len(),
            &mut shared.pool.counts,
            &mut shared.desks,
            &mut options,
            &mut value,
        )
    };
    parsed_of(refused, &options, value)
}

/// What a compaction answers
#[derive(Clone, Copy, Debug, PartialEq, Eq)]
pub enum Compaction {
    /// The row tells each old index its new one, or [`GONE`].
    Kept,
    /// Refusal 8: the pool or its desks are unfit.
    BadState,
    /// Refusal 20: a mark is no index of the pool, or the row is shorter than the count of entries.
    BadMark,
}

/// What a compaction's row says of an index that is no more
pub const GONE: u32 = u32::MAX;

/// Takes back the room of every string that neither desk marks, and tells each old index its new one. Both desks' marks go into one call: what
/// neither marks is gone.
pub fn compact(first: &[u32], second: &[u32], shared: &mut SharedPool, moved: &mut [u32]) -> Compaction {
    // SAFETY: as in `desk_add_string`; the marks are only read.
    let refused = unsafe {
        raw::koto_compact_flat(
            first.as_ptr(),
            first.len(),
            second.as_ptr(),
            second.len(),
            shared.pool.bytes.as_mut_ptr(),
            shared.pool.bytes.len(),
            shared.pool.entries.as_mut_ptr().cast(),
            2 * shared.pool.entries.len(),
            shared.owners.as_mut_ptr(),
            shared.owners.len(),
            &mut shared.pool.counts,
            &mut shared.desks,
            moved.as_mut_ptr(),
            moved.len(),
        )
    };
    match refused {
        0 => Compaction::Kept,
        8 => Compaction::BadState,
        _ => Compaction::BadMark,
    }
}
