//! What the tests share: the full table, a scan as numbers.

use koto_lexer::{next, read_table, room_for, scan, Edition, Given, Scanned, TableFile, TABLE_MOST};

const FULL: &[u8] = include_bytes!("../../../../crates/replay_cluster/data/full.kpt");

/// The full table, as `oracle table` writes it
pub fn full_table() -> Vec<u32> {
    let mut row = vec![0; TABLE_MOST];
    match read_table(FULL, &mut row) {
        TableFile::Read(count) => row.truncate(count),
        refused => panic!("the full table's file is unfit: {refused:?}"),
    }
    row
}

/// A source's records by `next`, and how its scan ended
#[allow(dead_code)]
pub fn records(source: &[u8]) -> (Vec<[u32; 4]>, Scanned) {
    let mut list = vec![0; room_for(source.len())];
    let scanned = scan(source, &full_table(), Edition::WITH_GB9C, &mut list);
    let mut cursor = match scanned.cursor() {
        Some(cursor) => cursor,
        None => return (vec![], scanned),
    };
    let mut shown = vec![];
    // Where the scan is stuck, the last record comes for ever.
    while shown.len() < cursor.count {
        match next(&list, &mut cursor) {
            Given::Token(r) => shown.push([r.kind, r.detail, r.start, r.end]),
            other => panic!("a scan's own list gave {other:?}"),
        }
    }
    (shown, scanned)
}
