//! A text padded to a width.

use crate::formats::Alignment;
use crate::raw;
use crate::texts::Edition;

/// How a text is padded: the alignment and the width may be those of [`crate::Options`], and the fill the bytes that their fill stands for
#[derive(Clone, Copy, Debug, PartialEq, Eq)]
pub struct Padding<'a> {
    pub alignment: Alignment,
    pub width: Option<u32>,
    /// One cluster; a space where there is none
    pub fill: Option<&'a [u8]>,
}

/// What padding answers: the length of the padded text, or a refusal, which leaves the buffer
#[derive(Clone, Copy, Debug, PartialEq, Eq)]
pub enum Padded {
    /// So many bytes stand at the buffer's start.
    Length(usize),
    /// Refusal 1: the text, or the fill
    TooLong,
    /// Refusal 17
    BadEdition,
    /// Refusal 2
    BadTable(usize),
    /// Refusal 3: the text, or else the fill, with the offset in its own bytes
    BadUtf8(usize),
    /// Refusal 15: the same, where the end cuts a character
    CutUtf8(usize),
    /// Refusal 18: the fill is not one cluster.
    NoSuchFormat,
    /// Refusal 19: the buffer is shorter than the padded text.
    NoRoom,
}

/// Writes the padded text to the start of the buffer, by the cluster rules of edition 1 (without GB9c) or 2 (with it).
pub fn pad(text: &[u8], padding: Padding, table: &[u32], edition: Edition, buffer: &mut [u8]) -> Padded {
    let (mut len, mut place) = (0, 0);
    let fill = padding.fill.unwrap_or_default();
    // SAFETY: the slices are lent for the call, the buffer to be written, and each answer word is a local.
    let refused = unsafe {
        raw::koto_pad(
            text.as_ptr(),
            text.len(),
            padding.alignment.number(),
            padding.width.map_or(raw::NONE, u64::from),
            padding.fill.is_some().into(),
            fill.as_ptr(),
            fill.len(),
            table.as_ptr(),
            table.len(),
            edition.0,
            buffer.as_mut_ptr(),
            buffer.len(),
            &mut len,
            &mut place,
        )
    };
    match refused {
        0 => Padded::Length(len),
        1 => Padded::TooLong,
        2 => Padded::BadTable(place),
        3 => Padded::BadUtf8(place),
        15 => Padded::CutUtf8(place),
        17 => Padded::BadEdition,
        18 => Padded::NoSuchFormat,
        _ => Padded::NoRoom,
    }
}
