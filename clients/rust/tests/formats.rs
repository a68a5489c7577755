//! Document 01's format strings, and each refusal of the calls with a pool.

mod common;

use common::full_table;
use koto_lexer::*;

/// A format string over a pool with room for so many entries and bytes; the answer and the pool's counts after it
fn parsed(format: &[u8], entries: usize, bytes: usize) -> (Parsed, Counts) {
    let (mut bytes, mut entries) = (vec![0; bytes], vec![Entry::default(); entries]);
    let mut pool = Pool { bytes: &mut bytes, entries: &mut entries, counts: Counts::default() };
    let answer = parse(format, &full_table(), Edition::WITH_GB9C, &mut pool);
    (answer, pool.counts)
}

const PLAIN: Options =
    Options { alignment: Alignment::Default, width: None, precision: None, representation: None, fill: None };

fn fill(place: usize, len: usize) -> Option<Fill> {
    Some(Fill { place, len, index: 0 })
}

#[test]
fn format_strings_of_document_01() {
    let answer = |format: &str| parsed(format.as_bytes(), 4, 16).0;
    assert_eq!(answer(""), Parsed::Read(PLAIN));
    assert_eq!(answer("."), Parsed::Read(Options { fill: fill(0, 1), ..PLAIN }));
    assert_eq!(answer("5."), Parsed::UnexpectedToken(46));
    assert_eq!(answer("000"), Parsed::Read(Options { fill: fill(1, 1), width: Some(0), ..PLAIN }));
    assert_eq!(answer("<^>"), Parsed::UnexpectedToken(62));
    assert_eq!(answer(".x"), Parsed::ExpectedNumber(120));
    assert_eq!(answer("4294967295"), Parsed::Read(Options { width: Some(u32::MAX), ..PLAIN }));
    assert_eq!(answer("4294967296"), Parsed::FormatNumberIsTooLarge(4294967296));
    assert_eq!(answer("e\u{301}<5"), Parsed::UnexpectedToken(769));
    assert_eq!(answer("a\u{301}<"), Parsed::Read(Options { fill: fill(0, 3), alignment: Alignment::Left, ..PLAIN }));
}

#[test]
fn every_option() {
    let format = "_>8.3e".as_bytes();
    let wanted = Options {
        alignment: Alignment::Right,
        width: Some(8),
        precision: Some(3),
        representation: Some(Representation::ExpLower),
        fill: fill(0, 1),
    };
    assert_eq!(parsed(format, 1, 1), (Parsed::Read(wanted), Counts { entries: 1, bytes: 1 }));
    let shown = |letter: &str| match parsed(letter.as_bytes(), 1, 1).0 {
        Parsed::Read(options) => options.representation,
        _ => None,
    };
    assert_eq!(shown("?"), Some(Representation::Debug));
    assert_eq!(shown("X"), Some(Representation::HexUpper));
    assert_eq!(shown("b"), Some(Representation::Binary));
    assert_eq!(shown("o"), Some(Representation::Octal));
}

#[test]
fn refusals_of_a_parse() {
    assert_eq!(parsed(&vec![b'0'; FORMAT_MOST + 1], 4, 4).0, Parsed::TooLong);
    assert_eq!(parsed(b"5\xFF", 4, 4).0, Parsed::BadUtf8(1));
    assert_eq!(parsed(b"x<\xE6\xBC", 4, 4), (Parsed::CutUtf8(2), Counts::default()));
    assert_eq!(parsed(b"_<5", 0, 4), (Parsed::PoolFull, Counts::default()));
    assert_eq!(parsed(b"_<5", 4, 0), (Parsed::PoolFull, Counts::default()));
    // An error takes no string back.
    assert_eq!(parsed(b"_<5.x", 4, 4), (Parsed::ExpectedNumber(120), Counts { entries: 1, bytes: 1 }));
    let mut pool = Pool { bytes: &mut [], entries: &mut [], counts: Counts { entries: 1, bytes: 0 } };
    assert_eq!(parse(b"5", &full_table(), Edition::WITH_GB9C, &mut pool), Parsed::BadState);
    assert_eq!(parse(b"5", &[], Edition::WITH_GB9C, &mut pool), Parsed::BadTable(0));
    assert_eq!(parse(b"5", &[], Edition(3), &mut pool), Parsed::BadEdition);
    assert_eq!(parse(&vec![b'0'; FORMAT_MOST + 1], &[], Edition(3), &mut pool), Parsed::TooLong);
}

#[test]
fn a_conjunct_as_the_fill() {
    let (mut bytes, mut entries) = ([0; 16], [Entry::default(); 2]);
    let mut pool = Pool { bytes: &mut bytes, entries: &mut entries, counts: Counts::default() };
    let format = "\u{915}\u{94D}\u{937}^7".as_bytes();
    // Without GB9c the cluster ends before the second consonant, which is no alignment; it stays in the pool.
    assert_eq!(parse(format, &full_table(), Edition::WITHOUT_GB9C, &mut pool), Parsed::UnexpectedToken(0x937));
    let fill = Some(Fill { place: 0, len: 9, index: 1 });
    let wanted = Options { alignment: Alignment::Center, width: Some(7), fill, ..PLAIN };
    assert_eq!(parse(format, &full_table(), Edition::WITH_GB9C, &mut pool), Parsed::Read(wanted));
}

#[test]
fn strings_of_a_pool() {
    let (mut bytes, mut entries) = ([0; 4], [Entry::default(); 3]);
    let mut pool = Pool { bytes: &mut bytes, entries: &mut entries, counts: Counts::default() };
    assert_eq!(add_string(b"ab", &mut pool), Added::Index(0));
    assert_eq!(add_string(b"c", &mut pool), Added::Index(1));
    assert_eq!(add_string(b"ab", &mut pool), Added::Index(0));
    assert_eq!(add_string(b"xyz", &mut pool), Added::PoolFull);
    assert_eq!(add_string(b"x\xFF", &mut pool), Added::BadUtf8(1));
    assert_eq!(add_string(b"x\xF0\x9F\x98", &mut pool), Added::CutUtf8(1));
    assert_eq!(add_string(b"", &mut pool), Added::Index(2));
    assert_eq!(add_string(b"d", &mut pool), Added::PoolFull);
    assert_eq!((&pool.bytes[..3], pool.counts), (b"abc".as_slice(), Counts { entries: 3, bytes: 3 }));
    assert_eq!(pool.entries[1], Entry { start: 2, len: 1 });
    pool.counts.bytes = 4;
    assert_eq!(add_string(b"ab", &mut pool), Added::BadState);
}
