//! Pools in lent rows, and additions to them.

use crate::Run;
use crate::calls::Library;
use crate::rich::Dice;
use answers::{Pool, text_of};
use koto_lexer::raw::{Counts, Entry};

/// What stands in the rows where no string is
const OLD_BYTE: u8 = 0xEE;
const OLD_ENTRY: Entry = Entry { start: 0xEEEE_EEEE, len: 0xEEEE_EEEE };

const STRINGS: [&str; 12] = ["_", "0", "\u{E9}", "e\u{301}", "a", "xyz", "", "\u{6F22}", "<", "00", "\r\n", "5"];

/// A pool's rows and counts
#[derive(Clone)]
pub struct Rows {
    pub bytes: Vec<u8>,
    pub entries: Vec<Entry>,
    pub counts: Counts,
}

impl Rows {
    fn new(strings: &[String], entries: usize, bytes: usize) -> Self {
        let empty = Self { bytes: vec![OLD_BYTE; bytes], entries: vec![OLD_ENTRY; entries], counts: Counts::default() };
        empty.with(strings)
    }

    /// The same rows with these strings from their start on; what they had there before is theirs already.
    pub fn with(&self, strings: &[String]) -> Self {
        let mut rows = self.clone();
        let mut start = 0;
        for (entry, string) in rows.entries.iter_mut().zip(strings) {
            rows.bytes[start..start + string.len()].copy_from_slice(string.as_bytes());
            *entry = Entry { start: start as u32, len: string.len() as u32 };
            start += string.len();
        }
        rows.counts = Counts { entries: strings.len() as u32, bytes: start as u32 };
        rows
    }

    pub fn lend(&self, library: &mut Library) {
        library.bytes.fill(&self.bytes);
        library.entries.fill(&self.entries);
    }

    pub fn stands_in(&self, library: &Library) -> bool {
        library.bytes.get() == self.bytes && library.entries.get() == self.entries
    }
}

/// A pool and its rows; no pool where the rows are unfit
pub fn some_pool(dice: &mut Dice, string: &[u8]) -> (Option<Pool>, Rows) {
    let how = dice.below(16);
    let count = if how < 4 { 0 } else { dice.below(7) };
    let mut strings: Vec<String> = (0..count).map(|_| STRINGS[dice.below(STRINGS.len())].to_string()).collect();
    // Sometimes what will be added is there already.
    if let Some(c) = std::str::from_utf8(string).ok().and_then(|text| text.chars().next()).filter(|_| how == 8) {
        strings.push(c.to_string());
    }
    let used: usize = strings.iter().map(String::len).sum();
    let (entries, bytes) = match how {
        // full in entries, in bytes, in both; nearly; with room
        5 => (strings.len(), used + 20),
        6 => (strings.len() + 3, used),
        7 => (strings.len(), used),
        12..15 => (strings.len() + dice.below(3), used + dice.below(5)),
        _ => (strings.len() + 2 + dice.below(3), used + 24 + dice.below(8)),
    };
    let mut rows = Rows::new(&strings, entries, bytes);
    if how == 15 && spoil(dice, &mut rows) {
        return (None, rows);
    }
    (Some(Pool { strings, entries, bytes }), rows)
}

/// Makes a pool unfit, if it can.
fn spoil(dice: &mut Dice, rows: &mut Rows) -> bool {
    let used = rows.counts.entries as usize;
    match dice.below(5) {
        0 => rows.counts.entries = rows.entries.len() as u32 + 1,
        1 => rows.counts.bytes = rows.bytes.len() as u32 + 1,
        2 if used > 0 => rows.entries[dice.below(used)].start += 1,
        3 if used > 0 => rows.entries[dice.below(used)].len = u32::MAX,
        4 => rows.counts.bytes += 1,
        _ => return false,
    }
    true
}

/// Strings added to pools, against a list of strings
pub fn compare(run: &mut Run, dice: &mut Dice, count: usize) {
    for _ in 0..count {
        let string = match dice.below(8) {
            0 => crate::damage::damaged(dice, b"\xE6\xBC\xA2a"),
            1 => run.kinds.text(dice, 12).into_bytes(),
            _ => STRINGS[dice.below(STRINGS.len())].as_bytes().to_vec(),
        };
        one(run, dice, &string);
    }
    println!("additions to pools: {count}");
}

/// A string added to some pool
pub fn one(run: &mut Run, dice: &mut Dice, string: &[u8]) {
    let (pool, rows) = some_pool(dice, string);
    run.library.source.fill(string);
    rows.lend(&mut run.library);
    let said = run.library.add_string(rows.counts);
    let (number, index, place, after) = wanted(string, pool, &rows);
    let wanted = (number, (index, place, after.counts));
    run.tally.note("add_string", said.number, &(said.number, said.answer), &wanted, string);
    if !said.whole || run.library.source.get() != string || !after.stands_in(&run.library) {
        run.tally.spoiled("add_string", string);
    }
}

/// Refusals 3 or 15, 8, 13, or the index: that of the first equal string, else of a new one
fn wanted(string: &[u8], pool: Option<Pool>, rows: &Rows) -> (u32, u32, usize, Rows) {
    let text = match text_of(string) {
        Ok(text) => text.to_string(),
        Err((number, place)) => return (number, 0, place, rows.clone()),
    };
    let Some(Pool { mut strings, entries, bytes }) = pool else {
        return (8, 0, 0, rows.clone());
    };
    if let Some(index) = strings.iter().position(|known| *known == text) {
        return (0, index as u32, 0, rows.clone());
    }
    if strings.len() == entries || rows.counts.bytes as usize + text.len() > bytes {
        return (13, 0, 0, rows.clone());
    }
    strings.push(text);
    (0, strings.len() as u32 - 1, 0, rows.with(&strings))
}
