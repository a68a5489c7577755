//! Cursors and lists of any kind and of both layouts, fit or not, against document 01's "Look-ahead" and document 02's C-1 and C-5, written here
//! once more.

use crate::Run;
use crate::calls::Cursor;
use crate::rich::Dice;
use koto_lexer::raw::Record;

const QUEUE_MOST: usize = 65_535;

type Answer = (u32, (u32, Record, usize, Cursor));

/// The calls over a list that has more records than may be queued
const LONG: usize = 300;

/// How many words a record has, and the status of a scan into such records that ends; one more is that of one that is stuck
#[derive(Clone, Copy)]
struct Layout {
    words: usize,
    end: u32,
}

const LAYOUTS: [Layout; 2] = [Layout { words: 8, end: 0 }, Layout { words: 5, end: 3 }];

impl Cursor {
    fn layout(self) -> Option<Layout> {
        LAYOUTS.into_iter().find(|layout| self.status == layout.end || self.status == layout.end + 1)
    }

    fn is_stuck(self) -> bool {
        self.layout().is_some_and(|layout| self.status == layout.end + 1)
    }
}

pub fn compare(run: &mut Run, dice: &mut Dice, count: usize) {
    for _ in 0..count {
        let layout = LAYOUTS[dice.below(2)];
        let list: Vec<u32> = (0..dice.below(50)).map(|i| word(dice, i, layout)).collect();
        run.library.list.fill(&list);
        let cursor = some_cursor(dice, list.len(), layout);
        let n = [
            0,
            1,
            cursor.queued,
            cursor.queued.wrapping_add(1),
            cursor.queued.wrapping_add(2),
            dice.below(9),
            usize::MAX,
        ][dice.below(7)];
        one(run, dice, &list, cursor, n);
    }
    for layout in LAYOUTS {
        long(run, dice, layout);
    }
    println!("cursors: {}", count + 2 * LONG);
}

fn long(run: &mut Run, dice: &mut Dice, layout: Layout) {
    let list: Vec<u32> = (0..layout.words * (QUEUE_MOST + 9)).map(|i| word(dice, i, layout)).collect();
    run.library.list.fill(&list);
    for _ in 0..LONG {
        let cursor = Cursor {
            taken: dice.below(6),
            queued: if dice.below(3) == 0 { QUEUE_MOST - dice.below(4) } else { dice.below(5) },
            count: QUEUE_MOST - 2 + dice.below(12),
            status: [layout.end, layout.end + 1][dice.below(2)],
        };
        let n = if dice.below(8) == 0 { usize::MAX } else { QUEUE_MOST - 4 + dice.below(8) };
        one(run, dice, &list, cursor, n);
    }
}

/// A call of one of the three
fn one(run: &mut Run, dice: &mut Dice, list: &[u32], cursor: Cursor, n: usize) {
    let (name, said, wanted) = match dice.below(3) {
        0 => ("next", run.library.next(cursor), next(list, cursor)),
        1 => ("peek", run.library.peek(cursor, n), peek(list, cursor, n)),
        _ => ("look_ahead", run.library.look_ahead(cursor, n), look_ahead(list, cursor, n)),
    };
    let input: Vec<u8> = list.iter().flat_map(|word| word.to_le_bytes()).collect();
    run.tally.note(name, said.number, &(said.number, said.answer), &wanted, &input);
    if !said.whole || run.library.list.get() != list {
        run.tally.spoiled(name, &input);
    }
}

/// A word of a list: now and then no scan would write it
fn word(dice: &mut Dice, i: usize, layout: Layout) -> u32 {
    if i % layout.words != 0 {
        return dice.below(1000) as u32;
    }
    // Errors with the mark, on most records where it may not stand
    if layout.words == 5 && dice.below(4) == 0 {
        return 1 << 28 | if dice.below(8) == 0 { 1 << dice.below(32) } else { 0 };
    }
    let depth = match dice.below(8) {
        0 => 60 + dice.below(10),
        1 => 1 << dice.below(12),
        2 => dice.below(4096),
        _ => dice.below(65),
    };
    let below = match dice.below(8) {
        0 => 7 + 128 * dice.below(600),
        1 => dice.below(100_000),
        2 => 75 + dice.below(10),
        _ => dice.below(81),
    };
    (below + (depth << 20)) as u32
}

fn some_cursor(dice: &mut Dice, len: usize, layout: Layout) -> Cursor {
    let room = len / layout.words;
    let count = if dice.below(8) == 0 { room + dice.below(3) } else { dice.below(room + 1) };
    let taken = match dice.below(16) {
        0 => count + 1,
        1 => usize::MAX,
        _ => dice.below(count + 1),
    };
    let queued = match dice.below(12) {
        0 => QUEUE_MOST,
        1 => QUEUE_MOST + 1,
        2 => usize::MAX,
        _ => dice.below(count.saturating_sub(taken) + 2),
    };
    // Now and then a cursor of the other layout
    let (end, other) = (layout.end, 3 - layout.end);
    let status = [end, end, end, end, end + 1, end + 1, end + 1, end + 1, other, other + 1, 2, 5, u32::MAX][dice.below(13)];
    Cursor { taken, queued, count, status }
}

fn is_unfit(list: &[u32], c: Cursor) -> bool {
    let Some(layout) = c.layout() else {
        return true;
    };
    let is_status_unfit = if c.is_stuck() { c.taken >= c.count } else { c.queued > c.count.saturating_sub(c.taken) };
    list.len() / layout.words < c.count || c.taken > c.count || c.queued > QUEUE_MOST || is_status_unfit
}

/// The record that comes after n others, if there is one; at Stuck places past the last record mean the last
fn place(c: Cursor, n: usize) -> Option<usize> {
    let i = c.taken.saturating_add(n);
    if c.is_stuck() { Some(i.min(c.count - 1)) } else { (i < c.count).then_some(i) }
}

/// The record at an index, if a scan could have written it. The depth is all that stands above bit 19, but for the mark of a last Error at half the
/// size
fn record(list: &[u32], i: usize, c: Cursor) -> Option<Record> {
    let layout = c.layout()?;
    let words = &list[layout.words * i..][..layout.words];
    let is_half = layout.words == 5;
    let (kind, detail) = (words[0] & 0x7F, words[0] >> 7 & 0x1FFF);
    let is_marked = is_half && words[0] >> 28 == 1;
    let depth = if is_marked && kind == 0 && i + 1 == c.count { words[0] >> 20 & 0xFF } else { words[0] >> 20 };
    let is_fit = kind <= 80 && (detail == 0 || kind == 7 && detail <= 3 + 2 * 255) && depth <= 64;
    let [start, end] = if is_half { half_edges(list, i, is_marked) } else { [[words[1], words[3], words[4]], [words[2], words[5], words[6]]] };
    is_fit.then_some(Record {
        kind,
        detail,
        start: start[0],
        end: end[0],
        start_line: start[1],
        start_column: start[2],
        end_line: end[1],
        end_column: end[2],
        indent: words[layout.words - 1],
        depth,
    })
}

/// Byte, line and column where a record at half the size starts and ends, of all the ends up to it, behind zeros for the two that are before the
/// first
fn half_edges(list: &[u32], i: usize, is_marked: bool) -> [[u32; 3]; 2] {
    let ends = list.chunks_exact(5).map(|words| [words[1], words[2], words[3]]);
    let all: Vec<[u32; 3]> = [[0; 3]; 2].into_iter().chain(ends).skip(i).take(3).collect();
    [all[usize::from(!is_marked)], all[2]]
}

fn refused(number: u32, place: usize, c: Cursor) -> Answer {
    (number, (0, Record::default(), place, c))
}

fn next(list: &[u32], c: Cursor) -> Answer {
    if is_unfit(list, c) {
        return refused(8, 0, c);
    }
    let Some(i) = place(c, 0) else {
        return refused(0, 0, c);
    };
    let Some(record) = record(list, i, c) else {
        return refused(9, i, c);
    };
    (0, (1, record, 0, moved_on(c)))
}

/// The cursor after its next token
fn moved_on(c: Cursor) -> Cursor {
    let taken = if c.is_stuck() { (c.taken + 1).min(c.count - 1) } else { c.taken + 1 };
    Cursor { taken, queued: c.queued.saturating_sub(1), ..c }
}

/// A copy of the cursor goes on token by token, whether or not each may be shown, and each would be queued: to the one that n others stand before,
/// to the end, or to one too many.
fn look_ahead(list: &[u32], c: Cursor, n: usize) -> Answer {
    if is_unfit(list, c) {
        return refused(8, 0, c);
    }
    let (mut copy, mut passed) = (c, 0);
    loop {
        let Some(i) = place(copy, 0) else {
            return refused(0, 0, Cursor { queued: c.queued.max(passed), ..c });
        };
        if passed == QUEUE_MOST {
            return refused(7, 0, c);
        }
        if passed == n {
            return match record(list, i, c) {
                None => refused(9, i, c),
                Some(record) => (0, (1, record, 0, Cursor { queued: c.queued.max(n + 1), ..c })),
            };
        }
        (copy, passed) = (moved_on(copy), passed + 1);
    }
}

fn peek(list: &[u32], c: Cursor, n: usize) -> Answer {
    if is_unfit(list, c) {
        return refused(8, 0, c);
    }
    if n > c.queued + 1 {
        return refused(6, 0, c);
    }
    let must_queue = n <= c.queued && place(c, c.queued).is_some();
    if must_queue && c.queued == QUEUE_MOST {
        return refused(7, 0, c);
    }
    let after = Cursor { queued: c.queued + usize::from(must_queue), ..c };
    match place(c, n).filter(|_| n < after.queued) {
        None => refused(0, 0, after),
        Some(i) => match record(list, i, c) {
            None => refused(9, i, c),
            Some(record) => (0, (1, record, 0, after)),
        },
    }
}
