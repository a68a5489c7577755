//! Document 02's padding, and each of its refusals.

mod common;

use common::full_table;
use koto_lexer::*;

const SPACES: Padding = Padding { alignment: Alignment::Default, width: None, fill: None };

/// The padded text, in a buffer of 64 bytes of which the rest must stay
fn padded(text: &str, padding: Padding, edition: u32) -> String {
    let mut buffer = [b'~'; 64];
    match pad(text.as_bytes(), padding, &full_table(), Edition(edition), &mut buffer) {
        Padded::Length(len) => {
            assert!(buffer[len..].iter().all(|&byte| byte == b'~'));
            String::from_utf8(buffer[..len].to_vec()).unwrap()
        }
        refused => panic!("{refused:?}"),
    }
}

fn refused(text: &[u8], padding: Padding, table: &[u32], edition: u32, room: usize) -> Padded {
    let mut buffer = vec![b'~'; room];
    let answer = pad(text, padding, table, Edition(edition), &mut buffer);
    assert!(buffer.iter().all(|&byte| byte == b'~'));
    answer
}

fn to(width: u32) -> Padding<'static> {
    Padding { width: Some(width), ..SPACES }
}

#[test]
fn each_alignment() {
    let by = |alignment| padded("abc", Padding { alignment, fill: Some(b"-"), ..to(6) }, 2);
    assert_eq!(by(Alignment::Default), "abc---");
    assert_eq!(by(Alignment::Left), "abc---");
    assert_eq!(by(Alignment::Center), "-abc--");
    assert_eq!(by(Alignment::Right), "---abc");
}

#[test]
fn a_text_that_has_the_width_is_copied() {
    assert_eq!(padded("abc", to(3), 2), "abc");
    assert_eq!(padded("abc", to(0), 2), "abc");
    assert_eq!(padded("abc", SPACES, 2), "abc");
    assert_eq!(padded("", to(2), 2), "  ");
}

#[test]
fn clusters_are_counted_and_not_bytes() {
    assert_eq!(padded("e\u{301}", to(3), 2), "e\u{301}  ");
    assert_eq!(padded("\u{1F1E9}\u{1F1EA}", to(2), 2), "\u{1F1E9}\u{1F1EA} ");
    assert_eq!(padded("ab", Padding { fill: Some("\u{B7}".as_bytes()), ..to(4) }, 2), "ab\u{B7}\u{B7}");
    // GB9c joins these three in edition 2 alone.
    assert_eq!(padded("\u{915}\u{94D}\u{937}", to(3), 2), "\u{915}\u{94D}\u{937}  ");
    assert_eq!(padded("\u{915}\u{94D}\u{937}", to(3), 1), "\u{915}\u{94D}\u{937} ");
}

#[test]
fn nothing_is_counted_across_a_joint() {
    // The mark is one cluster by itself, although it joins the text.
    assert_eq!(padded("a", Padding { fill: Some("\u{301}".as_bytes()), ..to(3) }, 2), "a\u{301}\u{301}");
}

#[test]
fn the_options_of_a_parse_go_in() {
    let (mut bytes, mut entries) = ([0; 8], [Entry::default(); 2]);
    let mut pool = Pool { bytes: &mut bytes, entries: &mut entries, counts: Counts::default() };
    let format = "\u{B7}^7".as_bytes();
    let Parsed::Read(options) = parse(format, &full_table(), Edition::WITH_GB9C, &mut pool) else { panic!() };
    let fill = options.fill.map(|fill| &format[fill.place..fill.place + fill.len]);
    let padding = Padding { alignment: options.alignment, width: options.width, fill };
    assert_eq!(padded("idle", padding, 2), "\u{B7}idle\u{B7}\u{B7}");
}

#[test]
fn refusals_in_their_order() {
    let table = full_table();
    let long = vec![b'x'; TEXT_MOST + 1];
    let filled = |fill| Padding { fill: Some(fill), ..SPACES };
    assert_eq!(refused(&long, SPACES, &[], 0, 9), Padded::TooLong);
    assert_eq!(refused(b"a\xFF", filled(&long), &[], 0, 9), Padded::TooLong);
    assert_eq!(refused(b"a\xFF", SPACES, &[], 3, 9), Padded::BadEdition);
    assert_eq!(refused(b"a\xFF", SPACES, &[], 2, 9), Padded::BadTable(0));
    assert_eq!(refused(b"a\xFF", filled(b"\xFF"), &table, 2, 9), Padded::BadUtf8(1));
    assert_eq!(refused(b"ab\xE2\x82", filled(b"\xFF"), &table, 2, 9), Padded::CutUtf8(2));
    assert_eq!(refused(b"ab", filled(b"\xFF"), &table, 2, 9), Padded::BadUtf8(0));
    assert_eq!(refused(b"ab", filled(b"-\xE2"), &table, 2, 9), Padded::CutUtf8(1));
    // No fill is needed, and it is looked at.
    assert_eq!(refused(b"ab", filled(b""), &table, 2, 0), Padded::NoSuchFormat);
    assert_eq!(refused(b"ab", filled(b"--"), &table, 2, 0), Padded::NoSuchFormat);
    assert_eq!(refused(b"ab", to(9), &table, 2, 8), Padded::NoRoom);
    assert_eq!(refused(b"ab", to(u32::MAX), &table, 2, 60), Padded::NoRoom);
}
