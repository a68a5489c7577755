//! The library's calls, each with watched buffers and answer words.

use crate::memory::{Answers, Arena};
use koto_lexer::raw::{self, Counts, Entry, Options, Record};

pub const SOURCE_MOST: usize = 1_048_576;
pub const FORMAT_MOST: usize = 65_535;

/// Room in the arenas: a source of a byte too much, and a list for it
const SOURCE_ROOM: usize = SOURCE_MOST + 64;
const LIST_ROOM: usize = 8 * (SOURCE_ROOM + SOURCE_ROOM / 3) + 64;

pub struct Library {
    pub source: Arena<u8>,
    /// The full table and the older crates' table, which can only be read
    full: Arena<u32>,
    older: Arena<u32>,
    pub table: Arena<u32>,
    pub list: Arena<u32>,
    pub bytes: Arena<u8>,
    pub entries: Arena<Entry>,
    counts: Arena<Counts>,
    options: Arena<Options>,
    record: Arena<Record>,
}

/// Which table a call is lent
#[derive(Clone, Copy, PartialEq)]
pub enum Table {
    Full,
    Older,
    Lent,
}

/// A cursor with its status as the number that C has
#[derive(Clone, Copy, Debug, PartialEq)]
pub struct Cursor {
    pub taken: usize,
    pub queued: usize,
    pub count: usize,
    pub status: u32,
}

/// A call's number and answer words, and whether nothing else was written
#[derive(Debug, PartialEq)]
pub struct Said<T> {
    pub number: u32,
    pub answer: T,
    pub whole: bool,
}

impl Library {
    pub fn new(full: &[u32], older: &[u32]) -> Self {
        Self {
            source: Arena::new(SOURCE_ROOM),
            full: only_read(full),
            older: only_read(older),
            table: Arena::new(70_000),
            list: Arena::new(LIST_ROOM),
            bytes: Arena::new(1 << 17),
            entries: Arena::new(1 << 10),
            counts: Arena::new(1),
            options: Arena::new(1),
            record: Arena::new(1),
        }
    }

    fn table(&self, which: Table) -> &[u32] {
        match which {
            Table::Full => self.full.get(),
            Table::Older => self.older.get(),
            Table::Lent => self.table.get(),
        }
    }

    fn texts_whole(&self) -> bool {
        self.source.is_whole() && self.full.is_whole() && self.older.is_whole() && self.table.is_whole()
    }

    /// code, length
    pub fn read_char(&self, at: usize) -> Said<(u32, usize)> {
        let (source, mut said) = (self.source.get(), Answers::new());
        let number = unsafe { raw::koto_read_char(source.as_ptr(), source.len(), at, said.narrow(0), said.size(1)) };
        Said { number, answer: (said.as_narrow(0), said.as_size(1)), whole: said.is_whole(&[0]) && self.texts_whole() }
    }

    /// place
    pub fn check_utf8(&self) -> Said<usize> {
        let (source, mut said) = (self.source.get(), Answers::new());
        let number = unsafe { raw::koto_check_utf8(source.as_ptr(), source.len(), said.size(0)) };
        Said { number, answer: said.as_size(0), whole: said.is_whole(&[]) && self.texts_whole() }
    }

    /// place
    pub fn check_table(&self, which: Table) -> Said<usize> {
        let (table, mut said) = (self.table(which), Answers::new());
        let number = unsafe { raw::koto_check_table(table.as_ptr(), table.len(), said.size(0)) };
        Said { number, answer: said.as_size(0), whole: said.is_whole(&[]) && self.texts_whole() }
    }

    /// count, place. The file is the source's buffer, the row the table's.
    pub fn read_table(&mut self) -> Said<(usize, usize)> {
        let mut said = Answers::new();
        let (file, row) = (self.source.get(), self.table.get_mut());
        let (row_at, row_len) = (row.as_mut_ptr(), row.len());
        let number =
            unsafe { raw::koto_read_table(file.as_ptr(), file.len(), row_at, row_len, said.size(0), said.size(1)) };
        Said { number, answer: (said.as_size(0), said.as_size(1)), whole: said.is_whole(&[]) && self.texts_whole() }
    }

    /// length, place
    pub fn first_cluster(&self, which: Table, edition: u32) -> Said<(usize, usize)> {
        let (source, table, mut said) = (self.source.get(), self.table(which), Answers::new());
        let number = unsafe {
            raw::koto_first_cluster(
                source.as_ptr(),
                source.len(),
                table.as_ptr(),
                table.len(),
                edition,
                said.size(0),
                said.size(1),
            )
        };
        Said { number, answer: (said.as_size(0), said.as_size(1)), whole: said.is_whole(&[]) && self.texts_whole() }
    }

    /// status, count, byte
    pub fn scan(&mut self, which: Table, edition: u32) -> Said<(u32, usize, usize)> {
        self.scan_by(raw::koto_scan, which, edition)
    }

    /// as of `scan`, into records at half the size
    pub fn scan_half(&mut self, which: Table, edition: u32) -> Said<(u32, usize, usize)> {
        self.scan_by(raw::koto_scan_half, which, edition)
    }

    /// as of `scan`, by the second engine
    pub fn scan_fast(&mut self, which: Table, edition: u32) -> Said<(u32, usize, usize)> {
        self.scan_by(raw::koto_scan_fast, which, edition)
    }

    /// as of `scan`, with the record's index in the place of the byte where the profile refuses
    pub fn scan_profile(&mut self, which: Table, edition: u32) -> Said<(u32, usize, usize)> {
        self.scan_by(raw::koto_scan_profile, which, edition)
    }

    fn scan_by(&mut self, call: raw::Scan, which: Table, edition: u32) -> Said<(u32, usize, usize)> {
        let mut said = Answers::new();
        let list = self.list.get_mut();
        let (list_at, list_len) = (list.as_mut_ptr(), list.len());
        let (source, table) = (self.source.get(), self.table(which));
        let number = unsafe {
            call(
                source.as_ptr(),
                source.len(),
                table.as_ptr(),
                table.len(),
                edition,
                list_at,
                list_len,
                said.narrow(0),
                said.size(1),
                said.size(2),
            )
        };
        let answer = (said.as_narrow(0), said.as_size(1), said.as_size(2));
        Said { number, answer, whole: said.is_whole(&[0]) && self.texts_whole() && self.list.is_whole() }
    }

    /// same, differs, place
    pub fn check_list(&self, which: Table, edition: u32, count: usize, status: u32) -> Said<(u32, usize, usize)> {
        let (source, table, list, mut said) = (self.source.get(), self.table(which), self.list.get(), Answers::new());
        let number = unsafe {
            raw::koto_check_list(
                source.as_ptr(),
                source.len(),
                table.as_ptr(),
                table.len(),
                edition,
                list.as_ptr(),
                list.len(),
                count,
                status,
                said.narrow(0),
                said.size(1),
                said.size(2),
            )
        };
        let answer = (said.as_narrow(0), said.as_size(1), said.as_size(2));
        Said { number, answer, whole: said.is_whole(&[0]) && self.texts_whole() && self.list.is_whole() }
    }

    /// shown, the record, place, and the cursor after it
    pub fn next(&mut self, cursor: Cursor) -> Said<(u32, Record, usize, Cursor)> {
        let (list, mut said) = (self.list.get(), Answers::new());
        self.record.fill(&[Record { kind: 7, ..Record::default() }]);
        unsafe { (*said.size(0), *said.size(1)) = (cursor.taken, cursor.queued) };
        let number = unsafe {
            raw::koto_next(
                list.as_ptr(),
                list.len(),
                said.size(0),
                said.size(1),
                cursor.count,
                cursor.status,
                said.narrow(2),
                self.record.get_mut().as_mut_ptr(),
                said.size(3),
            )
        };
        let after = Cursor { taken: said.as_size(0), queued: said.as_size(1), ..cursor };
        let answer = (said.as_narrow(2), self.record.get()[0], said.as_size(3), after);
        Said { number, answer, whole: said.is_whole(&[2]) && self.list.is_whole() && self.record.is_whole() }
    }

    /// shown, the record, place, and the cursor after it
    pub fn peek(&mut self, cursor: Cursor, n: usize) -> Said<(u32, Record, usize, Cursor)> {
        self.look(raw::koto_peek, cursor, n)
    }

    /// as of `peek`
    pub fn look_ahead(&mut self, cursor: Cursor, n: usize) -> Said<(u32, Record, usize, Cursor)> {
        self.look(raw::koto_look_ahead, cursor, n)
    }

    fn look(&mut self, call: raw::Look, cursor: Cursor, n: usize) -> Said<(u32, Record, usize, Cursor)> {
        let (list, mut said) = (self.list.get(), Answers::new());
        self.record.fill(&[Record { kind: 7, ..Record::default() }]);
        unsafe { *said.size(1) = cursor.queued };
        let number = unsafe {
            call(
                list.as_ptr(),
                list.len(),
                cursor.taken,
                said.size(1),
                cursor.count,
                cursor.status,
                n,
                said.narrow(2),
                self.record.get_mut().as_mut_ptr(),
                said.size(3),
            )
        };
        let after = Cursor { queued: said.as_size(1), ..cursor };
        let answer = (said.as_narrow(2), self.record.get()[0], said.as_size(3), after);
        Said { number, answer, whole: said.is_whole(&[2]) && self.list.is_whole() && self.record.is_whole() }
    }

    fn pool_whole(&self) -> bool {
        self.texts_whole() && self.bytes.is_whole() && self.entries.is_whole() && self.counts.is_whole()
    }

    /// index, place, and the counts after it. The string is the source's buffer.
    pub fn add_string(&mut self, counts: Counts) -> Said<(u32, usize, Counts)> {
        let mut said = Answers::new();
        self.counts.fill(&[counts]);
        let (string, bytes, entries) = (self.source.get(), self.bytes.get_mut(), self.entries.get_mut());
        let number = unsafe {
            raw::koto_add_string(
                string.as_ptr(),
                string.len(),
                bytes.as_mut_ptr(),
                bytes.len(),
                entries.as_mut_ptr(),
                entries.len(),
                self.counts.get_mut().as_mut_ptr(),
                said.narrow(0),
                said.size(1),
            )
        };
        let answer = (said.as_narrow(0), said.as_size(1), self.counts.get()[0]);
        Said { number, answer, whole: said.is_whole(&[0]) && self.pool_whole() }
    }

    /// options, value, and the counts after it. The format string is the source's buffer.
    pub fn parse(&mut self, which: Table, edition: u32, counts: Counts) -> Said<(Options, u64, Counts)> {
        let mut said = Answers::new();
        self.counts.fill(&[counts]);
        self.options.fill(&[Options::default()]);
        let (bytes, entries) = (self.bytes.get_mut(), self.entries.get_mut());
        let (bytes_at, bytes_len) = (bytes.as_mut_ptr(), bytes.len());
        let (entries_at, entries_len) = (entries.as_mut_ptr(), entries.len());
        let (counts_at, options_at) = (self.counts.get_mut().as_mut_ptr(), self.options.get_mut().as_mut_ptr());
        let (format, table) = (self.source.get(), self.table(which));
        let number = unsafe {
            raw::koto_parse(
                format.as_ptr(),
                format.len(),
                table.as_ptr(),
                table.len(),
                edition,
                bytes_at,
                bytes_len,
                entries_at,
                entries_len,
                counts_at,
                options_at,
                said.wide(0),
            )
        };
        let answer = (self.options.get()[0], said.as_size(0) as u64, self.counts.get()[0]);
        Said { number, answer, whole: said.is_whole(&[]) && self.pool_whole() && self.options.is_whole() }
    }
}

fn only_read(table: &[u32]) -> Arena<u32> {
    let mut arena = Arena::new(table.len());
    arena.fill(table);
    arena.only_read();
    arena
}
