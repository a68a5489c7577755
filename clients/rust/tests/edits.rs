//! A list after one edit, and each refusal of `rescan`.

mod common;

use common::full_table;
use koto_lexer::*;

const WITH: Edition = Edition::WITH_GB9C;
const SCRIPT: &[u8] = b"x = 1\n# note\ny = 'a{x}'\nprint y\n";

/// A scan of a script into a list of its own
fn scanned(source: &[u8]) -> (Vec<u32>, Scanned) {
    let mut list = vec![0; room_for(source.len())];
    let scanned = scan(source, &full_table(), WITH, &mut list);
    (list, scanned)
}

/// A rescan after an edit of SCRIPT, whose list is this one
fn edited(list: &[u32], count: usize, edit: Edit, source: &[u8], to: &mut [u32]) -> Rescanned {
    rescan(Old { source: SCRIPT, list, count }, edit, source, &full_table(), WITH, to)
}

#[test]
fn an_edit_of_each_line() {
    let (list, old) = scanned(SCRIPT);
    for place in 0..=SCRIPT.len() {
        for put_in in ["", "z", "\n", "'", "#-", "\r\n", "{"] {
            let source = [&SCRIPT[..place], put_in.as_bytes(), &SCRIPT[place..]].concat();
            let (fresh, answer) = scanned(&source);
            let mut new = vec![0; fresh.len()];
            let edit = Edit { place, removed: 0, put_in: put_in.len() };
            assert_eq!(edited(&list, old.count(), edit, &source, &mut new), Rescanned::AsScan(answer));
            assert_eq!(new, fresh, "{put_in:?} at {place}");
        }
    }
}

#[test]
fn kept_records_are_not_read_again() {
    let (mut list, old) = scanned(SCRIPT);
    // A kept record that says another kind is kept as it is; the last one of the line before is asked.
    list[0] = 80;
    let edit = Edit { place: 7, removed: 1, put_in: 0 };
    let source = [&SCRIPT[..7], &SCRIPT[8..]].concat();
    let mut new = vec![0; room_for(source.len())];
    assert!(matches!(edited(&list, old.count(), edit, &source, &mut new), Rescanned::AsScan(Scanned::End { .. })));
    assert_eq!(new[0], 80);
    // With no chain from zero none is kept.
    list[1] = 1;
    assert!(matches!(edited(&list, old.count(), edit, &source, &mut new), Rescanned::AsScan(Scanned::End { .. })));
    assert_eq!(new[..8], scanned(&source).0[..8]);
}

#[test]
fn refusals_of_a_rescan() {
    let (list, old) = scanned(SCRIPT);
    let mut to = [7; 24];
    let none = Edit { place: 0, removed: 0, put_in: 0 };
    let count = old.count();
    assert_eq!(edited(&list, count, none, b"\xFF", &mut to), Rescanned::AsScan(Scanned::BadUtf8(0)));
    assert_eq!(edited(&list, count, none, b"ab\xE6", &mut to), Rescanned::AsScan(Scanned::CutUtf8(2)));
    assert_eq!(edited(&list, count, none, &SCRIPT[1..], &mut to), Rescanned::BadEdit);
    for edit in [
        Edit { place: SCRIPT.len() + 1, ..none },
        Edit { place: usize::MAX, removed: 1, put_in: 1 },
        Edit { removed: usize::MAX, put_in: usize::MAX, ..none },
        Edit { put_in: usize::MAX, ..none },
        Edit { removed: 1, ..none },
    ] {
        assert_eq!(edited(&list, count, edit, SCRIPT, &mut to), Rescanned::BadEdit);
    }
    assert_eq!(edited(&list[..8 * count - 1], count, none, SCRIPT, &mut to), Rescanned::BadState);
    assert_eq!(edited(&list, usize::MAX, none, SCRIPT, &mut to), Rescanned::BadState);
    assert_eq!(to, [7; 24]);
    // Three records have room, all of them kept ones.
    let last = Edit { place: SCRIPT.len(), ..none };
    assert_eq!(
        edited(&list, count, last, SCRIPT, &mut to),
        Rescanned::AsScan(Scanned::ListFull { count: 3, byte: 3 })
    );
    assert_eq!(to[..], list[..24]);
}

#[test]
fn an_editor() {
    let mut editor = Editor::new(SCRIPT.to_vec(), full_table(), WITH);
    assert_eq!(editor.edit(SCRIPT.len() + 1, 0, b""), None);
    for (place, removed, put_in) in [(6, 0, "#- "), (13, 0, "-#"), (0, 5, ""), (20, 1, "\""), (3, 0, "\u{6F22}\n"), (4, 1, "")] {
        let scanned = editor.edit(place, removed, put_in.as_bytes()).unwrap();
        assert_eq!(scanned, editor.scanned());
        let mut list = vec![0; editor.list().len()];
        assert_eq!(scan(editor.source(), &full_table(), WITH, &mut list), scanned);
        assert_eq!(editor.list()[..8 * scanned.count()], list[..8 * scanned.count()]);
    }
    assert!(matches!(editor.scanned(), Scanned::BadUtf8(_)));
}
