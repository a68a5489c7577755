//! Tables cut down by tools/cut_table: scripts, format strings and texts of the code points that were asked for have the same answers with them
//! as with the full table, and a table for other code points answers otherwise.

mod common;

use common::full_table;
use koto_lexer::*;
use std::path::{Path, PathBuf};
use std::process::Command;

const EDITIONS: [Edition; 2] = [Edition::WITHOUT_GB9C, Edition::WITH_GB9C];

const FORMATS: [&str; 9] = [
    "",
    "_>8.3e",
    "e\u{301}^8",
    "\u{6F22}<5",
    "\u{1F468}\u{200D}\u{1F469}>4",
    "\u{915}\u{94D}\u{937}^7",
    "\u{1F1E9}\u{1F1EA}<2",
    "0\u{E9}",
    "\u{1100}\u{1161}\u{11A8}.2",
];

fn top() -> PathBuf {
    Path::new(env!("CARGO_MANIFEST_DIR")).join("../..")
}

/// The scripts of tools/scripts
fn scripts() -> Vec<PathBuf> {
    let folder = std::fs::read_dir(top().join("tools/scripts")).unwrap();
    folder.map(|entry| entry.unwrap().path()).collect()
}

/// The table for these files, and the size of its file
fn cut(files: &[PathBuf]) -> (Vec<u32>, usize) {
    let full = top().join("crates/replay_cluster/data/full.kpt");
    let done = Command::new("python3").arg(top().join("tools/cut_table")).arg(full).args(files).output().unwrap();
    assert!(done.status.success(), "{}", String::from_utf8_lossy(&done.stderr));
    let mut row = vec![0; TABLE_MOST];
    let TableFile::Read(count) = read_table(&done.stdout, &mut row) else { panic!("the file is unfit") };
    row.truncate(count);
    (row, done.stdout.len())
}

/// Every word that a source's scan leaves, by the profile too, and its first cluster
fn of_source(source: &[u8], table: &[u32], edition: Edition) -> (Vec<u32>, Profiled, Scanned, Cluster) {
    let mut list = vec![7; room_for(source.len()) + 3];
    let profiled = scan_profile(source, table, edition, &mut list);
    let scanned = scan(source, table, edition, &mut list);
    (list, profiled, scanned, first_cluster(source, table, edition))
}

/// A format string's options and its pool, and a text padded with it
fn of_format(format: &str, table: &[u32], edition: Edition) -> (Parsed, Vec<u8>, Counts, Padded, Vec<u8>) {
    let (mut bytes, mut entries, mut buffer) = ([7; 40], [Entry::default(); 4], [7; 200]);
    let mut pool = Pool { bytes: &mut bytes, entries: &mut entries, counts: Counts::default() };
    let parsed = parse(format.as_bytes(), table, edition, &mut pool);
    let counts = pool.counts;
    let padding = Padding { alignment: Alignment::Center, width: Some(9), fill: None };
    let padded = pad(format.as_bytes(), padding, table, edition, &mut buffer);
    (parsed, bytes.to_vec(), counts, padded, buffer.to_vec())
}

#[test]
fn a_table_for_scripts_and_format_strings() {
    let formats = std::env::temp_dir().join(format!("koto_formats_{}", std::process::id()));
    std::fs::write(&formats, FORMATS.concat()).unwrap();
    let (small, size) = cut(&[scripts(), vec![formats.clone()]].concat());
    std::fs::remove_file(formats).unwrap();
    let full = full_table();
    println!("{size} bytes of {}", 8 + 4 * full.len());
    assert!(size < 13_012 / 10 && 8 + 4 * full.len() == 13_012, "{size}");
    for edition in EDITIONS {
        for path in scripts() {
            let source = std::fs::read(&path).unwrap();
            assert!(of_source(&source, &small, edition) == of_source(&source, &full, edition), "{}", path.display());
        }
        for format in FORMATS {
            assert_eq!(of_format(format, &small, edition), of_format(format, &full, edition), "{format}");
            assert!(of_source(format.as_bytes(), &small, edition) == of_source(format.as_bytes(), &full, edition), "{format}");
        }
    }
}

#[test]
fn a_table_for_other_code_points() {
    let (ascii, size) = cut(&[PathBuf::from("/dev/null")]);
    assert_eq!((size, full_table().len()), (8 + 4 * ascii.len(), 3251));
    for source in ["\u{6F22}\u{5B57}", "'{x:}\u{301}<5}'"] {
        let [small, full] = [&ascii, &full_table()].map(|table| of_source(source.as_bytes(), table, Edition::WITH_GB9C));
        assert!(small != full, "{source}");
    }
    assert_ne!(of_format("e\u{301}^8", &ascii, Edition::WITH_GB9C), of_format("e\u{301}^8", &full_table(), Edition::WITH_GB9C));
}
