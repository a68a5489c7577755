//! A source scanned into a list of records, and a cursor over that list.

use crate::raw::{self, Record};
use crate::Edition;

/// The numbers of a record in a list
pub const RECORD_WORDS: usize = 8;

/// The numbers of a record in a list at half the size
pub const HALF_RECORD_WORDS: usize = 5;

/// How a scan ended that wrote a list, and the list's layout
#[derive(Clone, Copy, Debug, PartialEq, Eq)]
pub enum Status {
    /// After the last record nothing comes.
    End,
    /// The last record comes for ever.
    Stuck,
    /// `End`, of a list with records at half the size
    EndHalf,
    /// `Stuck`, of a list with records at half the size
    StuckHalf,
}

/// What a scan answers: the count of records written and the current byte, or a refusal with its place
#[derive(Clone, Copy, Debug, PartialEq, Eq)]
pub enum Scanned {
    End {
        count: usize,
        byte: usize,
    },
    Stuck {
        count: usize,
        byte: usize,
    },
    /// Refusal 1
    TooLong,
    /// Refusal 17
    BadEdition,
    /// Refusal 2
    BadTable(usize),
    /// Refusal 3
    BadUtf8(usize),
    /// Refusal 15: the end cuts a character, so the source may still be arriving.
    CutUtf8(usize),
    /// Refusal 4, after so many records
    ListFull {
        count: usize,
        byte: usize,
    },
    /// Refusal 5, after so many records
    ModesFull {
        count: usize,
        byte: usize,
    },
}

/// What a scan by the site profile answers
#[derive(Clone, Copy, Debug, PartialEq, Eq)]
pub enum Profiled {
    /// What the scan answers: no token is forbidden, or the scan was refused.
    Base(Scanned),
    /// Refusal 21: of so many records, the first whose token is forbidden: a raw string's start, or the "{" of a template inside a template
    NotInProfile { count: usize, index: usize },
}

/// Where a user of a list stands
#[derive(Clone, Copy, Debug, PartialEq, Eq)]
pub struct Cursor {
    pub taken: usize,
    pub queued: usize,
    pub count: usize,
    pub status: Status,
}

/// What `next` answers. A refusal leaves the cursor.
#[derive(Clone, Copy, Debug, PartialEq, Eq)]
pub enum Given {
    Token(Record),
    /// All tokens are taken.
    Nothing,
    /// Refusal 8
    BadState,
    /// Refusal 9, with the record's index
    BadRecord(usize),
}

/// What `peek` and `look_ahead` answer. A refusal leaves the cursor.
#[derive(Clone, Copy, Debug, PartialEq, Eq)]
pub enum Peeked {
    Token(Record),
    /// There is no token n, or `peek` has not queued it.
    Nothing,
    /// Refusal 8
    BadState,
    /// Refusal 6, of `peek` alone: `look_ahead` never answers it.
    PeekTooFar,
    /// Refusal 7
    QueueFull,
    /// Refusal 9, with the record's index
    BadRecord(usize),
}

/// The numbers of a list that has room for every source of so many bytes (docs/PROMISES.md)
pub const fn room_for(source_len: usize) -> usize {
    RECORD_WORDS * (source_len + source_len / 3)
}

/// The same of a list with records at half the size
pub const fn half_room_for(source_len: usize) -> usize {
    HALF_RECORD_WORDS * (source_len + source_len / 3)
}

/// Writes the records of a source at the start of the list.
pub fn scan(source: &[u8], table: &[u32], edition: Edition, list: &mut [u32]) -> Scanned {
    scan_by(raw::koto_scan, source, table, edition, list).scanned()
}

/// Writes the records of a source at half the size; [`Scanned::half_cursor`] is the cursor over them.
pub fn scan_half(source: &[u8], table: &[u32], edition: Edition, list: &mut [u32]) -> Scanned {
    scan_by(raw::koto_scan_half, source, table, edition, list).scanned()
}

/// Scans as [`scan`] does, by the second engine: the same answer and the same words on every input. It has more code, and takes less time where
/// names, comments and strings are long.
pub fn scan_fast(source: &[u8], table: &[u32], edition: Edition, list: &mut [u32]) -> Scanned {
    scan_by(raw::koto_scan_fast, source, table, edition, list).scanned()
}

/// Scans as [`scan`] does, and then refuses a source that is not in the site profile; the list keeps the whole scan.
pub fn scan_profile(source: &[u8], table: &[u32], edition: Edition, list: &mut [u32]) -> Profiled {
    let said = scan_by(raw::koto_scan_profile, source, table, edition, list);
    match said.refused {
        21 => Profiled::NotInProfile { count: said.count, index: said.byte },
        _ => Profiled::Base(said.scanned()),
    }
}

/// The words of a call that scans
struct Said {
    refused: u32,
    status: u32,
    count: usize,
    byte: usize,
}

impl Said {
    fn scanned(&self) -> Scanned {
        Scanned::of(self.refused, self.status, self.count, self.byte)
    }
}

fn scan_by(call: raw::Scan, source: &[u8], table: &[u32], edition: Edition, list: &mut [u32]) -> Said {
    let (mut status, mut count, mut byte) = (0, 0, 0);
    // SAFETY: the slices are lent for the call, the list to be written, and each answer word is a local.
    let refused = unsafe {
        call(
            source.as_ptr(),
            source.len(),
            table.as_ptr(),
            table.len(),
            edition.0,
            list.as_mut_ptr(),
            list.len(),
            &mut status,
            &mut count,
            &mut byte,
        )
    };
    Said { refused, status, count, byte }
}

impl Scanned {
    /// A scan's answer by its numbers
    pub(crate) fn of(refused: u32, status: u32, count: usize, byte: usize) -> Scanned {
        match refused {
            0 if status == raw::STUCK || status == raw::STUCK_HALF => Scanned::Stuck { count, byte },
            0 => Scanned::End { count, byte },
            1 => Scanned::TooLong,
            2 => Scanned::BadTable(byte),
            3 => Scanned::BadUtf8(byte),
            4 => Scanned::ListFull { count, byte },
            5 => Scanned::ModesFull { count, byte },
            15 => Scanned::CutUtf8(byte),
            _ => Scanned::BadEdition,
        }
    }

    /// How many records were written, refused or not
    pub fn count(self) -> usize {
        match self {
            Scanned::End { count, .. }
            | Scanned::Stuck { count, .. }
            | Scanned::ListFull { count, .. }
            | Scanned::ModesFull { count, .. } => count,
            _ => 0,
        }
    }

    /// A cursor before the first record that [`scan`] wrote; none after a refusal
    pub fn cursor(self) -> Option<Cursor> {
        self.begin(Status::End, Status::Stuck)
    }

    /// A cursor before the first record that [`scan_half`] wrote; none after a refusal
    pub fn half_cursor(self) -> Option<Cursor> {
        self.begin(Status::EndHalf, Status::StuckHalf)
    }

    fn begin(self, end: Status, stuck: Status) -> Option<Cursor> {
        let (count, status) = match self {
            Scanned::End { count, .. } => (count, end),
            Scanned::Stuck { count, .. } => (count, stuck),
            _ => return None,
        };
        Some(Cursor { taken: 0, queued: 0, count, status })
    }
}

impl Status {
    /// The number that a cursor carries, and that [`crate::check_list`] takes
    pub fn number(self) -> u32 {
        match self {
            Status::End => raw::END,
            Status::Stuck => raw::STUCK,
            Status::EndHalf => raw::END_HALF,
            Status::StuckHalf => raw::STUCK_HALF,
        }
    }
}

// `next`, `peek` and `look_ahead` are inlined, so that the record is read where the library wrote it. Copied once more it would be loaded in
// other parts than it was stored in, which a processor waits for.

/// Hands out the next token.
#[inline]
pub fn next(list: &[u32], cursor: &mut Cursor) -> Given {
    let (mut shown, mut record, mut place) = (0, Record::default(), 0);
    let status = cursor.status.number();
    // SAFETY: the list is lent for the call, and each answer word is a local or the cursor's.
    let refused = unsafe {
        raw::koto_next(
            list.as_ptr(),
            list.len(),
            &mut cursor.taken,
            &mut cursor.queued,
            cursor.count,
            status,
            &mut shown,
            &mut record,
            &mut place,
        )
    };
    match refused {
        0 if shown == 1 => Given::Token(record),
        0 => Given::Nothing,
        8 => Given::BadState,
        _ => Given::BadRecord(place),
    }
}

/// Shows queued token n, and queues one more before, as koto's `peek` does.
#[inline]
pub fn peek(list: &[u32], cursor: &mut Cursor, n: usize) -> Peeked {
    look(raw::koto_peek, list, cursor, n)
}

/// Shows the token that the (n+1)th following `next` hands out, and queues what lacks for it, as the comment of koto's `peek` has it.
#[inline]
pub fn look_ahead(list: &[u32], cursor: &mut Cursor, n: usize) -> Peeked {
    look(raw::koto_look_ahead, list, cursor, n)
}

#[inline]
fn look(call: raw::Look, list: &[u32], cursor: &mut Cursor, n: usize) -> Peeked {
    let (mut shown, mut record, mut place) = (0, Record::default(), 0);
    let status = cursor.status.number();
    // SAFETY: as in `next`
    let refused = unsafe {
        call(
            list.as_ptr(),
            list.len(),
            cursor.taken,
            &mut cursor.queued,
            cursor.count,
            status,
            n,
            &mut shown,
            &mut record,
            &mut place,
        )
    };
    match refused {
        0 if shown == 1 => Peeked::Token(record),
        0 => Peeked::Nothing,
        6 => Peeked::PeekTooFar,
        7 => Peeked::QueueFull,
        8 => Peeked::BadState,
        _ => Peeked::BadRecord(place),
    }
}
