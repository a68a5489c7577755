//! The script editor of the examples, over thousands of edits: after each its list is that of a fresh scan, and its folds are what the depths say.

mod common;
#[path = "../examples/script_editor/folds.rs"]
mod folds;
#[path = "../examples/script_editor/session.rs"]
mod session;

use common::full_table;
use folds::{folded, folds, records, Fold};
use koto_lexer::*;
use session::Session;

const EDITS: usize = 6_000;
const PIECES: [&str; 26] = [
    "'",
    "\"",
    "{",
    "}",
    "'{",
    "}'",
    "{x}",
    "\"{",
    ":",
    ":>5}",
    "#",
    "#-",
    "-#",
    "r'",
    "r#\"",
    "\"#",
    "\\",
    "x",
    " = ",
    "1.5",
    " ",
    "\n",
    "\r\n",
    "\u{6F22}",
    "e\u{301}",
    "{ {a: 1} }",
];
const SCRIPT: &str =
    "engines = ['DX5', 'DX9']\nfor engine in engines\n  print 'engine {engine:>8} has {power_of\n    engine} kW'\n\n\
    # idle codes\nidle = \"{off or\n  'none {engines.size()\n    + 1}'} of {\n  {a: 1, b: '{idle}'}}\"\n";

/// Numbers that look random, the same at each run (Marsaglia's xorshift64)
struct Random(u64);

impl Random {
    fn below(&mut self, n: usize) -> usize {
        self.0 ^= self.0 << 13;
        self.0 ^= self.0 >> 7;
        self.0 ^= self.0 << 17;
        (self.0 % n as u64) as usize
    }
}

/// A single-line edit at a random place: a piece of a script in, or characters out
fn edit_somewhere(session: &mut Session, random: &mut Random) {
    let source = session.editor.source();
    let is_long = source.len() > 1_500;
    let line = random.below(source.iter().filter(|byte| **byte == b'\n').count() + 1);
    let (start, end) = session.line(line).expect("the script has so many lines");
    let text = std::str::from_utf8(&source[start..end]).expect("every edit but half a character leaves text");
    let places: Vec<usize> = text.char_indices().map(|(at, _)| at).chain([text.len()]).collect();
    let from = random.below(places.len());
    let to = (from + random.below(if is_long { 60 } else { 4 })).min(places.len() - 1);
    let put_in = if is_long || random.below(3) == 0 { "" } else { PIECES[random.below(PIECES.len())] };
    let (from, removed) = (places[from], places[to] - places[from]);
    assert!(session.edit_line(line, from, removed, put_in.as_bytes()).is_some());
}

/// Half a character, as where a script is still arriving, at the end of the first line; and it is taken out again.
fn edit_half_a_character(session: &mut Session, is_put_in: bool) {
    let (start, end) = session.line(0).expect("a script has a first line");
    let (place, removed, put_in): (_, _, &[u8]) =
        if is_put_in { (end - start, 0, b"\xE6\xBC") } else { (end - start - 2, 2, b"") };
    assert!(session.edit_line(0, place, removed, put_in).is_some());
}

/// A fresh scan
fn scanned(source: &[u8], table: &[u32]) -> (Vec<u32>, Scanned) {
    let mut list = vec![0; room_for(source.len())];
    let scanned = scan(source, table, Edition::WITH_GB9C, &mut list);
    list.truncate(RECORD_WORDS * scanned.count());
    (list, scanned)
}

/// The folds told by the depths alone: of each depth, each longest run of records that are so deep, with the one before it
fn folds_by_runs(records: &[Record]) -> Vec<(u32, u32, u32)> {
    let mut found = vec![];
    for depth in 1..=64 {
        let mut opening = None;
        for (i, record) in records.iter().enumerate() {
            if record.depth < depth {
                opening = None;
                continue;
            }
            let first = *opening.get_or_insert(i - 1);
            let is_last = records.get(i + 1).map_or(true, |after| after.depth < depth);
            if is_last && records[first].kind != 11 {
                found.push((depth, records[first].start, record.end));
            }
        }
    }
    found.sort_unstable();
    found
}

#[test]
fn thousands_of_edits() {
    let table = full_table();
    let mut session = Session::new(SCRIPT.as_bytes().to_vec(), table.clone());
    let mut random = Random(20_261_116);
    let (mut ends, mut stuck, mut refused, mut folding, mut deepest) = (0, 0, 0, 0, 0);
    for edit in 0..EDITS {
        // A script that nothing more is read of would stay so for long.
        if edit % 300 == 0 {
            session = Session::new(SCRIPT.as_bytes().to_vec(), table.clone());
        }
        match edit % 50 {
            48 => edit_half_a_character(&mut session, true),
            49 => edit_half_a_character(&mut session, false),
            _ => edit_somewhere(&mut session, &mut random),
        }
        let editor = &session.editor;
        let (list, answer) = scanned(editor.source(), &table);
        assert_eq!(editor.scanned(), answer, "edit {edit}");
        assert_eq!(editor.list()[..list.len()], list[..], "edit {edit}");
        let records = records(editor);
        assert_eq!(records.len(), answer.count(), "edit {edit}");
        let mut told: Vec<_> = folds(&records).iter().map(|fold| (fold.depth, fold.start, fold.end)).collect();
        told.sort_unstable();
        assert_eq!(told, folds_by_runs(&records), "edit {edit}");
        match answer {
            Scanned::End { .. } => ends += 1,
            Scanned::Stuck { .. } => stuck += 1,
            _ => refused += 1,
        }
        folding += usize::from(folds(&records).iter().any(Fold::has_lines));
        deepest = deepest.max(records.iter().map(|record| record.depth).max().unwrap_or(0));
    }
    println!(
        "{EDITS} edits: {ends} end, {stuck} stuck, {refused} refused; {folding} with lines that fold; depth {deepest}"
    );
    assert!(ends > 1_000 && stuck > 100 && refused > 10 && folding > 1_000 && deepest > 5);
}

#[test]
fn commands() {
    let mut session = Session::new(b"x = 'a{\n  b\n}c'\n".to_vec(), full_table());
    let commands =
        "folds\nshow 2\nshow 1\nedit 1 2 1 '{y}' + {\nfolds\nedit 1 10 1 \nshow 2\nedit 9 0 0 x\nedit 0 0 99 x\nsave\n";
    let mut said = vec![];
    session.serve(commands.as_bytes(), &mut said).unwrap();
    let wanted = [
        "depth 2, lines 0 to 2, bytes 6 to 13",
        "depth 1, lines 0 to 2, bytes 4 to 15",
        "x = 'a{\u{2026}}c'",
        "x = '\u{2026}'",
        // A map is open in the template: its brace takes the template's, and the string's quote opens another that has no end.
        "Stuck { count: 23, byte: 23 }",
        "depth 3, lines 1 to 2, bytes 18 to 21",
        "depth 2, lines 0 to 2, bytes 6 to 23",
        "depth 1, lines 0 to 2, bytes 4 to 23",
        "End { count: 22, byte: 23 }",
        "x = 'a{\u{2026}}c'",
        "no such place",
        "no such place",
        "edit LINE BYTE REMOVED TEXT, folds, or show DEPTH",
    ];
    let said = String::from_utf8(said).unwrap();
    assert_eq!(said.lines().collect::<Vec<_>>(), wanted);
    // Nothing is so deep.
    let folds = folds(&records(&session.editor));
    assert_eq!(folded(session.editor.source(), &folds, 9), session.editor.source());
}
