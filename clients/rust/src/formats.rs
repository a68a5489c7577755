//! Strings in a lent pool, and format options.

use crate::raw::{self, Counts, Entry};
use crate::Edition;

/// A pool of strings in lent rows
#[derive(Debug)]
pub struct Pool<'a> {
    pub bytes: &'a mut [u8],
    pub entries: &'a mut [Entry],
    pub counts: Counts,
}

/// What adding a string answers
#[derive(Clone, Copy, Debug, PartialEq, Eq)]
pub enum Added {
    /// The string's index
    Index(u32),
    /// Refusal 3
    BadUtf8(usize),
    /// Refusal 15: the end cuts a character.
    CutUtf8(usize),
    /// Refusal 8: the pool is unfit.
    BadState,
    /// Refusal 13
    PoolFull,
}

#[derive(Clone, Copy, Debug, PartialEq, Eq)]
pub enum Alignment {
    Default,
    Left,
    Center,
    Right,
}

#[derive(Clone, Copy, Debug, PartialEq, Eq)]
pub enum Representation {
    Debug,
    HexLower,
    HexUpper,
    Binary,
    Octal,
    ExpLower,
    ExpUpper,
}

/// A fill: its place and length in the format string, and its index in the pool
#[derive(Clone, Copy, Debug, PartialEq, Eq)]
pub struct Fill {
    pub place: usize,
    pub len: usize,
    pub index: u32,
}

#[derive(Clone, Copy, Debug, PartialEq, Eq)]
pub struct Options {
    pub alignment: Alignment,
    pub width: Option<u32>,
    pub precision: Option<u32>,
    pub representation: Option<Representation>,
    pub fill: Option<Fill>,
}

/// What a parse answers: the options, or a refusal with its place or value
#[derive(Clone, Copy, Debug, PartialEq, Eq)]
pub enum Parsed {
    Read(Options),
    /// Refusal 1
    TooLong,
    /// Refusal 17
    BadEdition,
    /// Refusal 2
    BadTable(usize),
    /// Refusal 3
    BadUtf8(usize),
    /// Refusal 15: the end cuts a character.
    CutUtf8(usize),
    /// Refusal 8: the pool is unfit.
    BadState,
    /// Refusal 10, with the code point
    ExpectedNumber(u32),
    /// Refusal 11, with the first value over 4,294,967,295
    FormatNumberIsTooLarge(u64),
    /// Refusal 12, with the code point
    UnexpectedToken(u32),
    /// Refusal 13
    PoolFull,
}

/// Adds a string to the pool, if it is not there yet.
pub fn add_string(string: &[u8], pool: &mut Pool) -> Added {
    let (mut index, mut place) = (0, 0);
    // SAFETY: the slices are lent for the call, the pool's rows and counts to be written, and each answer word is a local.
    let refused = unsafe {
        raw::koto_add_string(
            string.as_ptr(),
            string.len(),
            pool.bytes.as_mut_ptr(),
            pool.bytes.len(),
            pool.entries.as_mut_ptr(),
            pool.entries.len(),
            &mut pool.counts,
            &mut index,
            &mut place,
        )
    };
    added_of(refused, index, place)
}

pub(crate) fn added_of(refused: u32, index: u32, place: usize) -> Added {
    match refused {
        0 => Added::Index(index),
        3 => Added::BadUtf8(place),
        8 => Added::BadState,
        15 => Added::CutUtf8(place),
        _ => Added::PoolFull,
    }
}

/// Parses a format string, and adds its fill to the pool.
pub fn parse(format: &[u8], table: &[u32], edition: Edition, pool: &mut Pool) -> Parsed {
    let (mut options, mut value) = (raw::Options::default(), 0);
    // SAFETY: as in `add_string`
    let refused = unsafe {
        raw::koto_parse(
            format.as_ptr(),
            format.len(),
            table.as_ptr(),
            table.len(),
            edition.0,
            pool.bytes.as_mut_ptr(),
            pool.bytes.len(),
            pool.entries.as_mut_ptr(),
            pool.entries.len(),
            &mut pool.counts,
            &mut options,
            &mut value,
        )
    };
    parsed_of(refused, &options, value)
}

pub(crate) fn parsed_of(refused: u32, options: &raw::Options, value: u64) -> Parsed {
    match refused {
        0 => Parsed::Read(options_of(options)),
        1 => Parsed::TooLong,
        2 => Parsed::BadTable(value as usize),
        3 => Parsed::BadUtf8(value as usize),
        8 => Parsed::BadState,
        10 => Parsed::ExpectedNumber(value as u32),
        11 => Parsed::FormatNumberIsTooLarge(value),
        12 => Parsed::UnexpectedToken(value as u32),
        15 => Parsed::CutUtf8(value as usize),
        17 => Parsed::BadEdition,
        _ => Parsed::PoolFull,
    }
}

fn given(number: u64) -> Option<u32> {
    (number != raw::NONE).then_some(number as u32)
}

fn options_of(options: &raw::Options) -> Options {
    Options {
        alignment: alignment_of(options.alignment),
        width: given(options.width),
        precision: given(options.precision),
        representation: representation_of(options.representation),
        fill: given(options.fill_index).map(|index| Fill {
            place: options.fill_place as usize,
            len: options.fill_len as usize,
            index,
        }),
    }
}

impl Alignment {
    pub(crate) fn number(self) -> u64 {
        match self {
            Alignment::Default => 0,
            Alignment::Left => 1,
            Alignment::Center => 2,
            Alignment::Right => 3,
        }
    }
}

impl Representation {
    pub(crate) fn number(self) -> u64 {
        match self {
            Representation::Debug => 0,
            Representation::HexLower => 1,
            Representation::HexUpper => 2,
            Representation::Binary => 3,
            Representation::Octal => 4,
            Representation::ExpLower => 5,
            Representation::ExpUpper => 6,
        }
    }
}

fn alignment_of(number: u64) -> Alignment {
    match number {
        1 => Alignment::Left,
        2 => Alignment::Center,
        3 => Alignment::Right,
        _ => Alignment::Default,
    }
}

fn representation_of(number: u64) -> Option<Representation> {
    Some(match number {
        0 => Representation::Debug,
        1 => Representation::HexLower,
        2 => Representation::HexUpper,
        3 => Representation::Binary,
        4 => Representation::Octal,
        5 => Representation::ExpLower,
        6 => Representation::ExpUpper,
        _ => return None,
    })
}
