//! A pool that two desks share, with what docs/PROMISES.md promises of it.

use koto_lexer::*;

fn counts(entries: u32, bytes: u32) -> Counts {
    Counts { entries, bytes }
}

fn shared<'a>(bytes: &'a mut [u8], entries: &'a mut [Entry], owners: &'a mut [u8], guaranteed: [Counts; 2]) -> SharedPool<'a> {
    let desk = |guaranteed| Desk { guaranteed, charged: counts(0, 0) };
    SharedPool {
        pool: Pool { bytes, entries, counts: counts(0, 0) },
        owners,
        desks: Desks { first: desk(guaranteed[0]), second: desk(guaranteed[1]) },
    }
}

#[test]
fn a_desk_gets_its_guaranteed_room() {
    let (mut bytes, mut entries, mut owners) = ([0; 8], [Entry::default(); 4], [9; 4]);
    let mut pool = shared(&mut bytes, &mut entries, &mut owners, [counts(1, 2), counts(1, 2)]);
    // The first desk takes all that is common, and its guarantee.
    assert_eq!(desk_add_string(Which::First, b"ab", &mut pool), Added::Index(0));
    assert_eq!(desk_add_string(Which::First, b"cd", &mut pool), Added::Index(1));
    assert_eq!(desk_add_string(Which::First, b"ef", &mut pool), Added::Index(2));
    assert_eq!(desk_add_string(Which::First, b"g", &mut pool), Added::PoolFull);
    // A string that is there costs nobody, and the other desk has what it is guaranteed.
    assert_eq!(desk_add_string(Which::Second, b"cd", &mut pool), Added::Index(1));
    assert_eq!(pool.desks.second.charged, counts(0, 0));
    assert_eq!(desk_add_string(Which::Second, b"gh", &mut pool), Added::Index(3));
    assert_eq!(desk_add_string(Which::Second, b"", &mut pool), Added::PoolFull);
    assert_eq!(pool.desks.first.charged, counts(3, 6));
    assert_eq!(pool.desks.second.charged, counts(1, 2));
    assert_eq!(pool.owners, [0, 0, 0, 1]);
    assert_eq!(pool.pool.bytes, b"abcdefgh");
}

#[test]
fn a_parse_for_a_desk_is_charged_to_it() {
    let file = include_bytes!("../../../crates/replay_cluster/data/full.kpt");
    let mut table = [0; TABLE_MOST];
    let TableFile::Read(runs) = read_table(file, &mut table) else { panic!("the table is refused") };
    let (mut bytes, mut entries, mut owners) = ([0; 8], [Entry::default(); 4], [9; 4]);
    let mut pool = shared(&mut bytes, &mut entries, &mut owners, [counts(0, 0), counts(1, 2)]);
    let parsed = desk_parse(Which::Second, b"x<05", &table[..runs], Edition::WITH_GB9C, &mut pool);
    let Parsed::Read(options) = parsed else { panic!("{parsed:?}") };
    // The zero before the width is a fill too, and the last one counts.
    assert_eq!(options.fill.map(|fill| fill.index), Some(1));
    assert_eq!(pool.desks.second.charged, counts(2, 2));
    assert_eq!(pool.owners, [1, 1, 9, 9]);
    // An addition that charges nobody leaves desks that are unfit.
    assert_eq!(add_string(b"y", &mut pool.pool), Added::Index(2));
    assert_eq!(desk_add_string(Which::First, b"z", &mut pool), Added::BadState);
}

#[test]
fn a_compaction_keeps_what_either_desk_marks() {
    let (mut bytes, mut entries, mut owners) = ([0; 8], [Entry::default(); 4], [9; 4]);
    let mut pool = shared(&mut bytes, &mut entries, &mut owners, [counts(1, 2), counts(1, 2)]);
    for (which, string) in [(Which::First, b"ab"), (Which::Second, b"cd"), (Which::First, b"ef")] {
        assert!(matches!(desk_add_string(which, string, &mut pool), Added::Index(_)));
    }
    let mut moved = [7; 4];
    assert_eq!(compact(&[3], &[], &mut pool, &mut moved), Compaction::BadMark);
    assert_eq!(compact(&[0], &[], &mut pool, &mut moved[..2]), Compaction::BadMark);
    assert_eq!(moved, [7; 4]);
    // The first desk keeps what the second one added, twice marked, and the second what the first one added.
    assert_eq!(compact(&[1, 1], &[2], &mut pool, &mut moved), Compaction::Kept);
    assert_eq!(moved, [GONE, 0, 1, 7]);
    assert_eq!(&pool.pool.bytes[..4], b"cdef");
    assert_eq!(pool.owners[..2], [1, 0]);
    assert_eq!((pool.desks.first.charged, pool.desks.second.charged), (counts(1, 2), counts(1, 2)));
    // The freed room is used again.
    assert_eq!(desk_add_string(Which::Second, b"gh", &mut pool), Added::Index(2));
}
