//! Document 02's format strings for options, what they are read back as, and each refusal.

mod common;

use common::full_table;
use koto_lexer::*;

const NOTHING: Wanted =
    Wanted { alignment: Alignment::Default, width: None, precision: None, representation: None, fill: None };

/// The format string in a buffer of 64 bytes of which the rest must stay
fn written(wanted: Wanted) -> String {
    let mut buffer = [b'~'; 64];
    match write_format(wanted, &full_table(), Edition::WITH_GB9C, &mut buffer) {
        Written::Length(len) => {
            assert!(buffer[len..].iter().all(|&byte| byte == b'~'));
            String::from_utf8(buffer[..len].to_vec()).unwrap()
        }
        refused => panic!("{refused:?}"),
    }
}

fn refused(wanted: Wanted, table: &[u32], edition: u32, room: usize) -> Written {
    let mut buffer = vec![b'~'; room];
    let answer = write_format(wanted, table, Edition(edition), &mut buffer);
    assert!(buffer.iter().all(|&byte| byte == b'~'));
    answer
}

fn filled(fill: &[u8]) -> Wanted<'_> {
    Wanted { fill: Some(fill), ..NOTHING }
}

#[test]
fn each_part() {
    assert_eq!(written(NOTHING), "");
    assert_eq!(written(Wanted { alignment: Alignment::Center, ..NOTHING }), "^");
    assert_eq!(written(Wanted { width: Some(10), precision: Some(0), ..NOTHING }), "10.0");
    assert_eq!(written(Wanted { representation: Some(Representation::HexUpper), ..NOTHING }), "X");
    assert_eq!(written(Wanted { alignment: Alignment::Left, width: Some(u32::MAX), ..filled(b"e") }), "e<4294967295");
}

#[test]
fn a_fill_needs_care() {
    // "<05" is as long, and after it.
    assert_eq!(written(Wanted { alignment: Alignment::Left, width: Some(5), ..filled(b"0") }), "0<5");
    assert_eq!(written(Wanted { width: Some(5), ..filled(b"0") }), "05");
    assert_eq!(written(filled("\u{1F468}\u{200D}\u{1F469}".as_bytes())), "\u{1F468}\u{200D}\u{1F469}");
    assert_eq!(written(filled(b".")), ".");
    for fill in [&b"e"[..], b"0", b"5", b"<", b"", b"ab", b"\xFF", b"\xE2\x82"] {
        assert_eq!(refused(filled(fill), &full_table(), 2, 64), Written::NoSuchFormat);
    }
    assert_eq!(refused(Wanted { width: Some(5), ..filled(b"_") }, &full_table(), 2, 64), Written::NoSuchFormat);
    // A sign would be joined to U+0600.
    let prepend = Wanted { alignment: Alignment::Left, ..filled("\u{600}\u{301}\u{600}".as_bytes()) };
    assert_eq!(refused(prepend, &full_table(), 2, 64), Written::NoSuchFormat);
}

#[test]
fn what_is_written_is_read_back() {
    let table = full_table();
    for alignment in [Alignment::Default, Alignment::Left, Alignment::Center, Alignment::Right] {
        for fill in [None, Some("0"), Some("\u{B7}"), Some("e\u{301}"), Some("<")] {
            for (width, precision) in [(None, None), (Some(0), Some(7)), (Some(120), None), (None, Some(u32::MAX))] {
                for representation in [None, Some(Representation::Debug), Some(Representation::ExpLower)] {
                    let fill = fill.map(str::as_bytes);
                    let wanted = Wanted { alignment, width, precision, representation, fill };
                    let mut buffer = [0; 64];
                    let Written::Length(len) = write_format(wanted, &table, Edition::WITH_GB9C, &mut buffer) else {
                        continue;
                    };
                    let (mut bytes, mut entries) = ([0; 16], [Entry::default(); 2]);
                    let mut pool = Pool { bytes: &mut bytes, entries: &mut entries, counts: Counts::default() };
                    let format = &buffer[..len];
                    let Parsed::Read(read) = parse(format, &table, Edition::WITH_GB9C, &mut pool) else { panic!() };
                    let fill = read.fill.map(|fill| &format[fill.place..fill.place + fill.len]);
                    let Options { alignment, width, precision, representation, .. } = read;
                    assert_eq!(Wanted { alignment, width, precision, representation, fill }, wanted);
                }
            }
        }
    }
}

#[test]
fn refusals_in_their_order() {
    let table = full_table();
    assert_eq!(refused(filled(b""), &[], 3, 0), Written::BadEdition);
    assert_eq!(refused(filled(b""), &[], 2, 0), Written::BadTable(0));
    // 18 comes before 19.
    assert_eq!(refused(filled(b""), &table, 2, 0), Written::NoSuchFormat);
    assert_eq!(refused(Wanted { width: Some(100), ..NOTHING }, &table, 1, 2), Written::NoRoom);
}
