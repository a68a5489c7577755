//! The format string for options.

use crate::formats::{Alignment, Representation};
use crate::raw;
use crate::texts::Edition;

/// What a format string is wanted for: the fields of [`crate::Options`], with the fill's own bytes
#[derive(Clone, Copy, Debug, PartialEq, Eq)]
pub struct Wanted<'a> {
    pub alignment: Alignment,
    pub width: Option<u32>,
    pub precision: Option<u32>,
    pub representation: Option<Representation>,
    pub fill: Option<&'a [u8]>,
}

/// What writing answers: the length of the format string, or a refusal, which leaves the buffer
#[derive(Clone, Copy, Debug, PartialEq, Eq)]
pub enum Written {
    /// So many bytes stand at the buffer's start.
    Length(usize),
    /// Refusal 17
    BadEdition,
    /// Refusal 2
    BadTable(usize),
    /// Refusal 18: no format string is read back as what is wanted.
    NoSuchFormat,
    /// Refusal 19: the buffer is shorter than the format string.
    NoRoom,
}

/// Writes the shortest format string that [`crate::parse`] reads back as what is wanted, and the first in byte order of those, to the
/// start of the buffer.
pub fn write_format(wanted: Wanted, table: &[u32], edition: Edition, buffer: &mut [u8]) -> Written {
    let (mut len, mut place) = (0, 0);
    let fill = wanted.fill.unwrap_or_default();
    // SAFETY: the slices are lent for the call, the buffer to be written, and each answer word is a local.
    let refused = unsafe {
        raw::koto_write_format(
            wanted.alignment.number(),
            wanted.width.map_or(raw::NONE, u64::from),
            wanted.precision.map_or(raw::NONE, u64::from),
            wanted.representation.map_or(raw::NONE, Representation::number),
            wanted.fill.is_some().into(),
            fill.as_ptr(),
            fill.len(),
            table.as_ptr(),
            table.len(),
            edition.0,
            buffer.as_mut_ptr(),
            buffer.len(),
            &mut len,
            &mut place,
        )
    };
    match refused {
        0 => Written::Length(len),
        2 => Written::BadTable(place),
        17 => Written::BadEdition,
        18 => Written::NoSuchFormat,
        _ => Written::NoRoom,
    }
}
