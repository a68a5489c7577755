//! What a rescan must answer and write, by document 02, C-7, in another shape than the code's: conditions on whole rows of records, and koto's
//! lexer run on what stands behind the kept ones by itself, its records moved.

use answers::{Judge, Status, text_of};

pub const SOURCE_MOST: usize = 1_048_576;

/// A call: everything but the second list
#[derive(Clone, Debug)]
pub struct Asked {
    pub old: Vec<u8>,
    pub list: Vec<u32>,
    pub count: usize,
    pub place: usize,
    pub removed: usize,
    pub put_in: usize,
    pub source: Vec<u8>,
    pub edition: u32,
    /// Whether the table is the full one; else it is empty
    pub fit: bool,
}

/// The number, then status, count and byte, and the words at the start of the list
pub struct Wanted {
    pub said: (u32, (u32, usize, usize)),
    pub words: Vec<u32>,
}

fn refused(number: u32, place: usize) -> Wanted {
    Wanted { said: (number, (2, 0, place)), words: vec![] }
}

/// Do old source, edit and new source fit together? The new source is made from the old one, and compared.
fn fits(asked: &Asked) -> bool {
    let wide = |n: usize| n as u128;
    let (place, old, new) = (wide(asked.place), wide(asked.old.len()), wide(asked.source.len()));
    if place + wide(asked.removed) > old || place + wide(asked.put_in) > new {
        return false;
    }
    let put_in = &asked.source[asked.place..asked.place + asked.put_in];
    [&asked.old[..asked.place], put_in, &asked.old[asked.place + asked.removed..]].concat() == asked.source
}

/// How many records of the old list are kept
pub fn kept(asked: &Asked) -> usize {
    let line = asked.source[..asked.place].iter().rposition(|&byte| byte == b'\n').map_or(0, |at| at + 1);
    let rows: Vec<&[u32]> = asked.list.chunks_exact(8).take(asked.count).collect();
    let Some(last) = rows.iter().position(|row| row[2] as usize >= line) else { return 0 };
    let starts = |row: &[u32]| [row[1], row[3], row[4]];
    let ends = |row: &[u32]| [row[2], row[5], row[6]];
    let chained = starts(rows[0]) == [0; 3] && rows[..=last].windows(2).all(|two| starts(two[1]) == ends(two[0]));
    let forward = rows[..=last].iter().all(|row| row[1] <= row[2] && (row[3], row[4]) <= (row[5], row[6]));
    let row = rows[last];
    let over = asked.source.get(row[1] as usize..row[2] as usize);
    let newline = matches!(over, Some(b"\n" | b"\r\n"));
    let closes = row[0] == 2 && row[2] as usize == line && newline && row[6] == 0 && row[5] <= row[2];
    if chained && forward && closes { last + 1 } else { 0 }
}

/// The words of a record, moved by so many bytes and lines
fn moved(record: &answers::Record, bytes: u32, lines: u32) -> [u32; 8] {
    let [kind, detail, start, end, start_line, start_column, end_line, end_column, indent, depth] = *record;
    let first = kind + 128 * detail + (depth << 20);
    [first, start + bytes, end + bytes, start_line + lines, start_column, end_line + lines, end_column, indent]
}

pub fn answer(asked: &Asked, judge: &Judge, room: usize) -> Wanted {
    if asked.source.len() > SOURCE_MOST {
        return refused(1, 0);
    }
    if ![1, 2].contains(&asked.edition) {
        return refused(17, 0);
    }
    if !asked.fit {
        return refused(2, 0);
    }
    if let Err((number, place)) = text_of(&asked.source) {
        return refused(number, place);
    }
    if !fits(asked) {
        return refused(16, 0);
    }
    if asked.list.len() / 8 < asked.count {
        return refused(8, 0);
    }
    let kept = kept(asked);
    let mut words = asked.list[..8 * kept].to_vec();
    let (bytes, lines) = if kept == 0 { (0, 0) } else { (words[8 * kept - 6], words[8 * kept - 3]) };
    let rest = text_of(&asked.source[bytes as usize..]).expect("what stands behind a newline is whole characters");
    let scan = (judge.scan)(rest, usize::MAX);
    for record in &scan.records {
        words.extend(moved(record, bytes, lines));
    }
    // An Error that stands still has the range of the token before it, which is the last that was kept.
    if kept > 0 && matches!(scan.status, Status::Stuck) && scan.records.len() == 1 {
        words.copy_within(8 * kept - 7..8 * kept - 1, 8 * kept + 1);
    }
    let all = words.len() / 8;
    let (number, status, byte) = match scan.status {
        Status::End => (0, 0, scan.place + bytes as usize),
        Status::Stuck => (0, 1, scan.place + bytes as usize),
        Status::Refused(number) => (number, 2, scan.place + bytes as usize),
    };
    // 4 comes before 5: a token is left, and its record has no room.
    if all > room || (number == 5 && all == room) {
        words.truncate(8 * room);
        let byte = if room == 0 { 0 } else { words[8 * room - 6] as usize };
        return Wanted { said: (4, (2, room, byte)), words };
    }
    Wanted { said: (number, (status, all, byte)), words }
}
