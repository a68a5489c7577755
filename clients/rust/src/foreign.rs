//! A list that another lexer made, against the source that it is for.

use crate::raw;
use crate::Edition;

/// What the check answers: yes, where it differs, or a refusal
#[derive(Clone, Copy, Debug, PartialEq, Eq)]
pub enum Checked {
    /// Records, count and status are those of a scan.
    Same,
    /// The index of the first record that differs, or the smaller of the two counts where only they or the status differ
    Differs(usize),
    /// Refusal 1
    TooLong,
    /// Refusal 17
    BadEdition,
    /// Refusal 2
    BadTable(usize),
    /// Refusal 3
    BadUtf8(usize),
    /// Refusal 15: the end cuts a character, so the source may still be arriving.
    CutUtf8(usize),
    /// Refusal 8: the list has no room for so many records.
    BadState,
    /// Refusal 5, at this byte of the source, whatever the list has
    ModesFull(usize),
}

/// Whether a list, its count of records and its status are those that [`crate::scan`] leaves for this source. The status is a number, since
/// another lexer may have others; [`crate::Status::number`] has ours.
pub fn check_list(source: &[u8], table: &[u32], edition: Edition, list: &[u32], count: usize, status: u32) -> Checked {
    let (mut same, mut differs, mut place) = (0, 0, 0);
    // SAFETY: the slices are lent for the call, and each answer word is a local.
    let refused = unsafe {
        raw::koto_check_list(
            source.as_ptr(),
            source.len(),
            table.as_ptr(),
            table.len(),
            edition.0,
            list.as_ptr(),
            list.len(),
            count,
            status,
            &mut same,
            &mut differs,
            &mut place,
        )
    };
    match refused {
        0 if same == 1 => Checked::Same,
        0 => Checked::Differs(differs),
        1 => Checked::TooLong,
        2 => Checked::BadTable(place),
        3 => Checked::BadUtf8(place),
        5 => Checked::ModesFull(place),
        8 => Checked::BadState,
        15 => Checked::CutUtf8(place),
        _ => Checked::BadEdition,
    }
}
