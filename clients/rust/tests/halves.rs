//! Records at half the size: read back as the whole ones, and each refusal of a damaged list.

mod common;

use common::full_table;
use koto_lexer::*;

/// Scripts that end, that stand still behind records, behind an empty one and behind none, and that have no token
const SOURCES: [&[u8]; 8] = [b"x = 'a{1:5}b' # c\n", b"", b"a", b"\r", b"a\r", b"r#'x", b"r''\r", b"'{x:}}' \n\r"];

/// A whole list and one at half the size of a source, with their cursors
fn both(source: &[u8]) -> (Vec<u32>, Cursor, Vec<u32>, Cursor) {
    let (mut list, mut half) = (vec![7; room_for(source.len()) + 3], vec![7; half_room_for(source.len()) + 3]);
    let whole = scan(source, &full_table(), Edition(2), &mut list);
    let same = scan_half(source, &full_table(), Edition(2), &mut half);
    assert_eq!(whole, same);
    (list, whole.cursor().expect("no refusal"), half, same.half_cursor().expect("no refusal"))
}

#[test]
fn both_layouts_are_the_same_list() {
    for source in SOURCES {
        let (list, mut one, half, mut two) = both(source);
        for n in 0..one.count + 3 {
            let (mut ahead, mut also) = (one, two);
            assert_eq!(look_ahead(&list, &mut ahead, n), look_ahead(&half, &mut also, n));
            assert_eq!(peek(&list, &mut one, n % 2), peek(&half, &mut two, n % 2));
            assert_eq!(next(&list, &mut one), next(&half, &mut two));
            assert_eq!((one.taken, one.queued), (two.taken, two.queued));
        }
        assert!(half[HALF_RECORD_WORDS * two.count..].iter().all(|&w| w == 7));
    }
}

#[test]
fn room_is_a_fifth_of_the_length() {
    let mut half = [0; 14];
    assert_eq!(scan_half(b"a b", &full_table(), Edition(2), &mut half), Scanned::ListFull { count: 2, byte: 2 });
    assert_eq!(half, [6, 1, 0, 1, 0, 1, 2, 0, 2, 0, 0, 0, 0, 0]);
    assert_eq!(scan_half(b"a b", &full_table(), Edition(2), &mut [0; 15]), Scanned::End { count: 3, byte: 3 });
}

#[test]
fn the_mark_stands_on_a_last_error_alone() {
    const MARK: u32 = 1 << 28;
    let cursor = |count, status| Cursor { taken: 0, queued: 0, count, status };
    let (_, _, half, stuck) = both(b"a\r");
    assert_eq!(half[5..10], [MARK, 1, 0, 1, 0]);
    let mut last = Cursor { taken: 1, ..stuck };
    let Given::Token(record) = next(&half, &mut last) else { panic!("an Error") };
    assert_eq!((record.kind, record.start, record.end, record.start_column, record.end_column), (0, 0, 1, 0, 1));
    // on a record that is not the last, on a name, and with a bit above it
    assert_eq!(next(&half[5..10].repeat(2), &mut cursor(2, Status::EndHalf)), Given::BadRecord(0));
    assert_eq!(next(&[MARK + 6, 1, 0, 1, 0], &mut cursor(1, Status::StuckHalf)), Given::BadRecord(0));
    assert_eq!(peek(&[3 * MARK, 1, 0, 1, 0], &mut cursor(1, Status::StuckHalf), 0), Peeked::BadRecord(0));
    // a whole list of five words has no room for a record
    assert_eq!(next(&half[..5], &mut cursor(1, Status::End)), Given::BadState);
    assert_eq!(look_ahead(&half[..4], &mut cursor(1, Status::EndHalf), 0), Peeked::BadState);
}
