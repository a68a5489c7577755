//! Characters, property tables, clusters.

use crate::raw;

/// What stands at a place
#[derive(Clone, Copy, Debug, PartialEq, Eq)]
pub enum Read {
    Char {
        code: u32,
        len: usize,
    },
    /// Refusal 3: no character begins with these bytes.
    Bad,
    /// Refusal 15: the bytes to the end, of which there may be none, are a proper beginning of a character.
    Cut,
}

/// Whether bytes are well-formed UTF-8
#[derive(Clone, Copy, Debug, PartialEq, Eq)]
pub enum Utf8Check {
    Fine,
    /// Refusal 3: all before the place is well formed, and no character begins there.
    BadAt(usize),
    /// Refusal 15: all before the place is well formed, and the end cuts the character there.
    CutAt(usize),
}

/// Whether a property table is fit
#[derive(Clone, Copy, Debug, PartialEq, Eq)]
pub enum TableCheck {
    Fit,
    /// Refusal 2
    BadTable(usize),
}

/// What reading a table file answers
#[derive(Clone, Copy, Debug, PartialEq, Eq)]
pub enum TableFile {
    /// The count of numbers that now stand at the row's start
    Read(usize),
    /// Refusal 14
    BadFile(usize),
    /// Refusal 4: the row is too short.
    ListFull,
    /// Refusal 2
    BadTable(usize),
}

/// An edition of the cluster rules (UAX #29). Every call with a table takes one behind it, and refuses another number than the two (17).
#[derive(Clone, Copy, Debug, PartialEq, Eq)]
pub struct Edition(pub u32);

impl Edition {
    /// As before Unicode 15.1, for a host with older data
    pub const WITHOUT_GB9C: Edition = Edition(1);
    /// With GB9c, by which an Indic conjunct is one cluster
    pub const WITH_GB9C: Edition = Edition(2);
}

/// The edition of the newer Unicode data
impl Default for Edition {
    fn default() -> Self {
        Edition::WITH_GB9C
    }
}

/// The first cluster
#[derive(Clone, Copy, Debug, PartialEq, Eq)]
pub enum Cluster {
    /// Its length in bytes, 0 for no bytes
    Length(usize),
    /// Refusal 1
    TooLong,
    /// Refusal 17
    BadEdition,
    /// Refusal 2
    BadTable(usize),
    /// Refusal 3
    BadUtf8(usize),
    /// Refusal 15: the end cuts a character.
    CutUtf8(usize),
}

/// The character at a place of a slice
pub fn read_char(bytes: &[u8], at: usize) -> Read {
    let (mut code, mut len) = (0, 0);
    // SAFETY: the slice is lent for the call, and each answer word is a local.
    match unsafe { raw::koto_read_char(bytes.as_ptr(), bytes.len(), at, &mut code, &mut len) } {
        0 => Read::Char { code, len },
        3 => Read::Bad,
        _ => Read::Cut,
    }
}

/// Checks a whole slice
pub fn check_utf8(bytes: &[u8]) -> Utf8Check {
    let mut place = 0;
    // SAFETY: as in `read_char`
    match unsafe { raw::koto_check_utf8(bytes.as_ptr(), bytes.len(), &mut place) } {
        0 => Utf8Check::Fine,
        3 => Utf8Check::BadAt(place),
        _ => Utf8Check::CutAt(place),
    }
}

/// Checks a property table
pub fn check_table(table: &[u32]) -> TableCheck {
    let mut place = 0;
    // SAFETY: as in `read_char`
    match unsafe { raw::koto_check_table(table.as_ptr(), table.len(), &mut place) } {
        0 => TableCheck::Fit,
        _ => TableCheck::BadTable(place),
    }
}

/// Reads a table file into the start of a row. A refusal leaves the row as it was.
pub fn read_table(file: &[u8], row: &mut [u32]) -> TableFile {
    let (mut count, mut place) = (0, 0);
    // SAFETY: as in `read_char`; the row is lent to be written.
    match unsafe {
        raw::koto_read_table(file.as_ptr(), file.len(), row.as_mut_ptr(), row.len(), &mut count, &mut place)
    } {
        0 => TableFile::Read(count),
        4 => TableFile::ListFull,
        14 => TableFile::BadFile(place),
        _ => TableFile::BadTable(place),
    }
}

/// The length of the first grapheme cluster (UAX #29)
pub fn first_cluster(source: &[u8], table: &[u32], edition: Edition) -> Cluster {
    let (mut len, mut place) = (0, 0);
    // SAFETY: as in `read_char`
    let refused = unsafe {
        raw::koto_first_cluster(
            source.as_ptr(),
            source.len(),
            table.as_ptr(),
            table.len(),
            edition.0,
            &mut len,
            &mut place,
        )
    };
    match refused {
        0 => Cluster::Length(len),
        1 => Cluster::TooLong,
        2 => Cluster::BadTable(place),
        3 => Cluster::BadUtf8(place),
        15 => Cluster::CutUtf8(place),
        _ => Cluster::BadEdition,
    }
}
