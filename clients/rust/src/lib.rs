//! Koto's lexer, proved in Rattle: safe functions over the static library. Slices go in, enums come out, under the documents' names.
//!
//! Every function takes every input. What is lent is written as docs/PROMISES.md says; a refusal before the work writes nothing.

mod desks;
mod edits;
mod foreign;
mod formats;
mod lists;
mod padding;
pub mod raw;
mod texts;
mod writing;

pub use desks::{compact, desk_add_string, desk_parse, Compaction, SharedPool, Which, GONE};
pub use edits::{rescan, Edit, Editor, Old, Rescanned};
pub use foreign::{check_list, Checked};
pub use formats::{add_string, parse, Added, Alignment, Fill, Options, Parsed, Pool, Representation};
pub use lists::{
    half_room_for, look_ahead, next, peek, room_for, scan, scan_fast, scan_half, scan_profile, Cursor, Given, Peeked, Profiled, Scanned, Status,
    HALF_RECORD_WORDS, RECORD_WORDS,
};
pub use padding::{pad, Padded, Padding};
pub use raw::{Counts, Desk, Desks, Entry, Record};
pub use texts::{
    check_table, check_utf8, first_cluster, read_char, read_table, Cluster, Edition, Read, TableCheck, TableFile,
    Utf8Check,
};
pub use writing::{write_format, Wanted, Written};

/// Sources over this many bytes are refused.
pub const SOURCE_MOST: usize = 1_048_576;
/// Format strings over this many bytes are refused.
pub const FORMAT_MOST: usize = 65_535;
/// Texts to be padded, and fills, over this many bytes are refused.
pub const TEXT_MOST: usize = 65_535;
/// A property table has at most this many numbers.
pub const TABLE_MOST: usize = 8_000;
/// At most this many tokens are queued.
pub const QUEUE_MOST: usize = 65_535;
