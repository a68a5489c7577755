//! A list of another lexer: right, wrong in each of its numbers, and each refusal.

mod common;

use common::full_table;
use koto_lexer::*;

const SOURCE: &[u8] = b"x = 'a{1:5}b' # c\n";

/// The list of a source, its count and its status
fn scanned(source: &[u8]) -> (Vec<u32>, usize, u32) {
    let mut list = vec![0; room_for(source.len())];
    let cursor = scan(source, &full_table(), Edition(2), &mut list).cursor().expect("no refusal");
    list.truncate(RECORD_WORDS * cursor.count);
    (list, cursor.count, cursor.status.number())
}

fn check(source: &[u8], list: &[u32], count: usize, status: u32) -> Checked {
    check_list(source, &full_table(), Edition(2), list, count, status)
}

#[test]
fn what_a_scan_leaves_is_the_same() {
    for source in [SOURCE, b"", b"\"", b"'{"] {
        let (list, count, status) = scanned(source);
        assert_eq!(check(source, &list, count, status), Checked::Same);
    }
    // Stuck, which is another status than End
    let (list, count, status) = scanned(b"r#'x");
    assert_eq!((check(b"r#'x", &list, count, status), status), (Checked::Same, Status::Stuck.number()));
    assert_eq!(check(b"r#'x", &list, count, Status::End.number()), Checked::Differs(count));
}

#[test]
fn each_number_of_each_record_counts() {
    let (list, count, status) = scanned(SOURCE);
    for i in 0..list.len() {
        let mut other = list.clone();
        other[i] ^= 1 << (i % 32);
        assert_eq!(check(SOURCE, &other, count, status), Checked::Differs(i / RECORD_WORDS));
        // A later difference changes nothing.
        *other.last_mut().unwrap() ^= 2;
        assert_eq!(check(SOURCE, &other, count, status), Checked::Differs(i / RECORD_WORDS));
    }
}

#[test]
fn the_smaller_count_is_named() {
    let (mut list, count, status) = scanned(SOURCE);
    for less in 0..count {
        assert_eq!(check(SOURCE, &list, less, status), Checked::Differs(less));
    }
    for other in [1, 2, 3, u32::MAX] {
        assert_eq!(check(SOURCE, &list, count, other), Checked::Differs(count));
    }
    assert_eq!(check(SOURCE, &list, count + 1, status), Checked::BadState);
    list.extend([0; RECORD_WORDS]);
    assert_eq!(check(SOURCE, &list, count + 1, status), Checked::Differs(count));
    assert_eq!(check(SOURCE, &list, count, status), Checked::Same);
}

#[test]
fn each_refusal_in_its_order() {
    let table = full_table();
    let by = |source: &[u8], table: &[u32], edition, count| check_list(source, table, Edition(edition), &[], count, 0);
    assert_eq!(by(&vec![0xFF; SOURCE_MOST + 1], &[], 3, 1), Checked::TooLong);
    assert_eq!(by(b"\xff", &[], 3, 1), Checked::BadEdition);
    assert_eq!(by(b"\xff", &[], 2, 1), Checked::BadTable(0));
    assert_eq!(by(b"a\xff", &table, 2, 1), Checked::BadUtf8(1));
    assert_eq!(by(b"ab\xe2\x82", &table, 1, 1), Checked::CutUtf8(2));
    let deep = b"'{".repeat(33);
    assert_eq!(by(&deep, &table, 2, 1), Checked::BadState);
    // Whatever the list has: here it differs from the first record on.
    assert_eq!(by(&deep, &table, 2, 0), Checked::ModesFull(64));
}

#[test]
fn both_engines_list_the_same() {
    let table = full_table();
    let long = ["# ".to_string() + &"a".repeat(200), "'".to_string() + &"b".repeat(130) + "{x:>5}'", "name_1 ".repeat(50)];
    let short = ["", "x = 'a{b}' + r#'c'#", "'", "#- x", "\u{6f22}\u{e9}", "else if iffy", "\r"].map(str::to_string);
    for source in long.iter().chain(&short).map(String::as_bytes).chain([b"a\xff".as_slice()]) {
        for room in [0, 8, 20, room_for(source.len())] {
            let (mut first, mut fast) = (vec![7; room], vec![7; room]);
            let said = scan(source, &table, Edition::WITH_GB9C, &mut first);
            assert_eq!(scan_fast(source, &table, Edition::WITH_GB9C, &mut fast), said);
            assert_eq!(fast, first);
        }
    }
}
