//! The calls of the static library, as include/koto_lexer.h has them.

/// Where a string of a pool starts in its row of bytes, and how long it is
#[repr(C)]
#[derive(Clone, Copy, Debug, Default, PartialEq, Eq)]
pub struct Entry {
    pub start: u32,
    pub len: u32,
}

/// How many entries and how many bytes of a pool are in use
#[repr(C)]
#[derive(Clone, Copy, Debug, Default, PartialEq, Eq)]
pub struct Counts {
    pub entries: u32,
    pub bytes: u32,
}

/// A desk of a shared pool: what it is guaranteed, and what it is charged
#[repr(C)]
#[derive(Clone, Copy, Debug, Default, PartialEq, Eq)]
pub struct Desk {
    pub guaranteed: Counts,
    pub charged: Counts,
}

/// Both desks of a shared pool
#[repr(C)]
#[derive(Clone, Copy, Debug, Default, PartialEq, Eq)]
pub struct Desks {
    pub first: Desk,
    pub second: Desk,
}

/// A record that is shown; its depth is how many modes of strings and templates are open before it
#[repr(C)]
#[derive(Clone, Copy, Debug, Default, PartialEq, Eq)]
pub struct Record {
    pub kind: u32,
    pub detail: u32,
    pub start: u32,
    pub end: u32,
    pub start_line: u32,
    pub start_column: u32,
    pub end_line: u32,
    pub end_column: u32,
    pub indent: u32,
    pub depth: u32,
}

/// The options of a format string; [`NONE`] for no number
#[repr(C)]
#[derive(Clone, Copy, Debug, Default, PartialEq, Eq)]
pub struct Options {
    pub alignment: u64,
    pub width: u64,
    pub precision: u64,
    pub representation: u64,
    pub fill_place: u64,
    pub fill_len: u64,
    pub fill_index: u64,
}

pub const NONE: u64 = u64::MAX;
pub const END: u32 = 0;
pub const STUCK: u32 = 1;
pub const END_HALF: u32 = 3;
pub const STUCK_HALF: u32 = 4;

/// A call that looks ahead: [`koto_peek`] or [`koto_look_ahead`]
pub type Look = unsafe extern "C" fn(
    list: *const u32,
    list_len: usize,
    taken: usize,
    queued: *mut usize,
    count: usize,
    status: u32,
    n: usize,
    shown: *mut u32,
    record: *mut Record,
    place: *mut usize,
) -> u32;

/// A call that scans: [`koto_scan`], [`koto_scan_fast`], [`koto_scan_half`] or [`koto_scan_profile`]
pub type Scan = unsafe extern "C" fn(
    source: *const u8,
    source_len: usize,
    table: *const u32,
    table_len: usize,
    edition: u32,
    list: *mut u32,
    list_len: usize,
    status: *mut u32,
    count: *mut usize,
    byte: *mut usize,
) -> u32;

extern "C" {
    pub fn koto_read_char(bytes: *const u8, bytes_len: usize, at: usize, code: *mut u32, len: *mut usize) -> u32;
    pub fn koto_check_utf8(bytes: *const u8, bytes_len: usize, place: *mut usize) -> u32;
    pub fn koto_check_table(table: *const u32, table_len: usize, place: *mut usize) -> u32;
    pub fn koto_read_table(
        file: *const u8,
        file_len: usize,
        row: *mut u32,
        row_len: usize,
        count: *mut usize,
        place: *mut usize,
    ) -> u32;
    pub fn koto_first_cluster(
        source: *const u8,
        source_len: usize,
        table: *const u32,
        table_len: usize,
        edition: u32,
        len: *mut usize,
        place: *mut usize,
    ) -> u32;
    pub fn koto_scan(
        source: *const u8,
        source_len: usize,
        table: *const u32,
        table_len: usize,
        edition: u32,
        list: *mut u32,
        list_len: usize,
        status: *mut u32,
        count: *mut usize,
        byte: *mut usize,
    ) -> u32;
    pub fn koto_scan_half(
        source: *const u8,
        source_len: usize,
        table: *const u32,
        table_len: usize,
        edition: u32,
        list: *mut u32,
        list_len: usize,
        status: *mut u32,
        count: *mut usize,
        byte: *mut usize,
    ) -> u32;
    pub fn koto_scan_fast(
        source: *const u8,
        source_len: usize,
        table: *const u32,
        table_len: usize,
        edition: u32,
        list: *mut u32,
        list_len: usize,
        status: *mut u32,
        count: *mut usize,
        byte: *mut usize,
    ) -> u32;
    pub fn koto_scan_profile(
        source: *const u8,
        source_len: usize,
        table: *const u32,
        table_len: usize,
        edition: u32,
        list: *mut u32,
        list_len: usize,
        status: *mut u32,
        count: *mut usize,
        byte: *mut usize,
    ) -> u32;
    pub fn koto_rescan(
        old: *const u8,
        old_len: usize,
        old_list: *const u32,
        old_list_len: usize,
        old_count: usize,
        edit_place: usize,
        removed: usize,
        put_in: usize,
        source: *const u8,
        source_len: usize,
        table: *const u32,
        table_len: usize,
        edition: u32,
        list: *mut u32,
        list_len: usize,
        status: *mut u32,
        count: *mut usize,
        byte: *mut usize,
    ) -> u32;
    pub fn koto_next(
        list: *const u32,
        list_len: usize,
        taken: *mut usize,
        queued: *mut usize,
        count: usize,
        status: u32,
        shown: *mut u32,
        record: *mut Record,
        place: *mut usize,
    ) -> u32;
    pub fn koto_peek(
        list: *const u32,
        list_len: usize,
        taken: usize,
        queued: *mut usize,
        count: usize,
        status: u32,
        n: usize,
        shown: *mut u32,
        record: *mut Record,
        place: *mut usize,
    ) -> u32;
    pub fn koto_look_ahead(
        list: *const u32,
        list_len: usize,
        taken: usize,
        queued: *mut usize,
        count: usize,
        status: u32,
        n: usize,
        shown: *mut u32,
        record: *mut Record,
        place: *mut usize,
    ) -> u32;
    pub fn koto_add_string(
        string: *const u8,
        string_len: usize,
        bytes: *mut u8,
        bytes_len: usize,
        entries: *mut Entry,
        entries_len: usize,
        counts: *mut Counts,
        index: *mut u32,
        place: *mut usize,
    ) -> u32;
    pub fn koto_parse(
        format: *const u8,
        format_len: usize,
        table: *const u32,
        table_len: usize,
        edition: u32,
        bytes: *mut u8,
        bytes_len: usize,
        entries: *mut Entry,
        entries_len: usize,
        counts: *mut Counts,
        options: *mut Options,
        value: *mut u64,
    ) -> u32;
    /// The row of entries is told in numbers, two for each.
    pub fn koto_desk_add_string_flat(
        desk: u32,
        string: *const u8,
        string_len: usize,
        bytes: *mut u8,
        bytes_len: usize,
        entries: *mut u32,
        entries_len: usize,
        owners: *mut u8,
        owners_len: usize,
        counts: *mut Counts,
        desks: *mut Desks,
        index: *mut u32,
        place: *mut usize,
    ) -> u32;
    /// The row of entries is told in numbers, two for each.
    pub fn koto_desk_parse_flat(
        desk: u32,
        format: *const u8,
        format_len: usize,
        table: *const u32,
        table_len: usize,
        edition: u32,
        bytes: *mut u8,
        bytes_len: usize,
        entries: *mut u32,
        entries_len: usize,
        owners: *mut u8,
        owners_len: usize,
        counts: *mut Counts,
        desks: *mut Desks,
        options: *mut Options,
        value: *mut u64,
    ) -> u32;
    /// The row of entries is told in numbers, two for each.
    pub fn koto_compact_flat(
        first: *const u32,
        first_len: usize,
        second: *const u32,
        second_len: usize,
        bytes: *mut u8,
        bytes_len: usize,
        entries: *mut u32,
        entries_len: usize,
        owners: *mut u8,
        owners_len: usize,
        counts: *mut Counts,
        desks: *mut Desks,
        moved: *mut u32,
        moved_len: usize,
    ) -> u32;
    pub fn koto_check_list(
        source: *const u8,
        source_len: usize,
        table: *const u32,
        table_len: usize,
        edition: u32,
        list: *const u32,
        list_len: usize,
        list_count: usize,
        list_status: u32,
        same: *mut u32,
        differs: *mut usize,
        place: *mut usize,
    ) -> u32;
    pub fn koto_write_format(
        alignment: u64,
        width: u64,
        precision: u64,
        representation: u64,
        filled: u32,
        fill: *const u8,
        fill_len: usize,
        table: *const u32,
        table_len: usize,
        edition: u32,
        buffer: *mut u8,
        buffer_len: usize,
        len: *mut usize,
        place: *mut usize,
    ) -> u32;
    pub fn koto_pad(
        text: *const u8,
        text_len: usize,
        alignment: u64,
        width: u64,
        filled: u32,
        fill: *const u8,
        fill_len: usize,
        table: *const u32,
        table_len: usize,
        edition: u32,
        buffer: *mut u8,
        buffer_len: usize,
        len: *mut usize,
        place: *mut usize,
    ) -> u32;
}
