//! Both sides on the same inputs: the proved library, and koto's Rust. Prints tables; README.md beside this folder says what is measured.

mod clock;
mod inputs;
mod stack;

use clock::{Side, medians};
use koto_lexer::{Alignment, Checked, Counts, Edition, Entry, Given, Padded, Padding, Parsed, Pool, Scanned};
use std::hint::black_box;

const MEBIBYTE: usize = 1 << 20;
const FORMATS: usize = 20_000;
const EDITION: Edition = Edition::WITH_GB9C;

fn main() {
    let table = full_table();
    println!(
        "processor time of the thread, medians of {} interleaved runs; MB/s are of 1,000,000 bytes\n",
        clock::ROUNDS
    );
    scans(&table);
    growth(&table);
    engines(&table);
    rescans(&table);
    checks(&table);
    lists(&table);
    walks(&table);
    formats(&table);
    paddings(&table);
    stacks(&table);
}

/// The full table, from the file that is named first on the command line
fn full_table() -> Vec<u32> {
    let path = std::env::args().nth(1).expect("which table file?");
    let file = std::fs::read(path).expect("the table file");
    let mut row = vec![0; koto_lexer::TABLE_MOST];
    let koto_lexer::TableFile::Read(count) = koto_lexer::read_table(&file, &mut row) else {
        panic!("an unfit table file");
    };
    row.truncate(count);
    row
}

fn scan(source: &[u8], table: &[u32], list: &mut [u32]) -> usize {
    match koto_lexer::scan(source, table, EDITION, list) {
        Scanned::End { count, .. } | Scanned::Stuck { count, .. } => count,
        refused => panic!("the input was refused: {refused:?}"),
    }
}

fn scan_fast(source: &[u8], table: &[u32], list: &mut [u32]) -> usize {
    match koto_lexer::scan_fast(source, table, EDITION, list) {
        Scanned::End { count, .. } | Scanned::Stuck { count, .. } => count,
        refused => panic!("the input was refused: {refused:?}"),
    }
}

/// Seconds for one scan of a source: by the first engine and the second one, by koto's lexer without keeping tokens, and into a vector
fn time_scan(source: &[u8], table: &[u32]) -> [f64; 4] {
    let mut list = vec![1; koto_lexer::room_for(source.len())];
    let mut second = list.clone();
    let count = scan(source, table, &mut list);
    scan_fast(source, table, &mut second);
    assert_eq!(list, second);
    let mut tokens = Vec::with_capacity(count + 1);
    // Both sides read the same number of tokens.
    assert_eq!(count, koto_rust::collect(source, &mut tokens));
    assert_eq!(count, koto_rust::iterate(source));
    let sides: [Side; 4] = [
        &mut || scan(source, table, &mut list),
        &mut || scan_fast(source, table, &mut second),
        &mut || koto_rust::iterate(source),
        &mut || koto_rust::collect(source, &mut tokens),
    ];
    medians(sides, (MEBIBYTE / source.len()).clamp(1, 200))
}

fn scans(table: &[u32]) {
    println!("scan of 1 MiB         tokens  library  rust, into a vector  ratio  rust, none kept  ratio   (MB/s)");
    for (kind, (name, _)) in inputs::KINDS.iter().enumerate() {
        let source = inputs::input(kind, MEBIBYTE);
        let tokens = koto_rust::iterate(&source);
        let [ours, _, none, vector] = time_scan(&source, table);
        let speed = |seconds: f64| source.len() as f64 / seconds / 1e6;
        println!(
            "{name:<18} {tokens:>9} {:>8.1} {:>20.1} {:>6.2} {:>16.1} {:>6.2}",
            speed(ours),
            speed(vector),
            vector / ours,
            speed(none),
            none / ours
        );
    }
}

fn growth(table: &[u32]) {
    println!("\nnanoseconds a byte    library at 1 KiB   64 KiB    1 MiB     rust (vector) at 1 KiB   64 KiB    1 MiB");
    for (kind, (name, _)) in inputs::KINDS.iter().enumerate() {
        let times = [1 << 10, 1 << 16, MEBIBYTE].map(|len| {
            let source = inputs::input(kind, len);
            time_scan(&source, table).map(|seconds| seconds * 1e9 / len as f64)
        });
        println!(
            "{name:<18} {:>19.2} {:>8.2} {:>8.2} {:>26.2} {:>8.2} {:>8.2}",
            times[0][0], times[1][0], times[2][0], times[0][3], times[1][3], times[2][3]
        );
    }
}

/// The second engine at each size, beside the first one and the Rust into a vector
fn engines(table: &[u32]) {
    println!("\nsecond engine         ns a byte at 1 KiB   64 KiB    1 MiB    to the first: 1 KiB 64 KiB  1 MiB    to the Rust: 1 KiB 64 KiB  1 MiB");
    for (kind, (name, _)) in inputs::KINDS.iter().enumerate() {
        let times = [1 << 10, 1 << 16, MEBIBYTE].map(|len| {
            let source = inputs::input(kind, len);
            time_scan(&source, table).map(|seconds| seconds * 1e9 / len as f64)
        });
        print!("{name:<18} {:>21.2} {:>8.2} {:>8.2}", times[0][1], times[1][1], times[2][1]);
        print!("   {:>17.2} {:>6.2} {:>6.2}", times[0][0] / times[0][1], times[1][0] / times[1][1], times[2][0] / times[2][1]);
        println!("   {:>16.2} {:>6.2} {:>6.2}", times[0][3] / times[0][1], times[1][3] / times[1][1], times[2][3] / times[2][1]);
    }
}

/// One letter put into the first, a middle and the last line of scripts: a rescan, a scan, and what is the least of a rescan, comparing both sources
/// and copying the records before the line
fn rescans(table: &[u32]) {
    println!("\none letter put in       kept   rescan    scan  ratio  compare and copy   (microseconds)");
    for size in [64 * 1024, MEBIBYTE - 1] {
        let old = inputs::input(0, size);
        let mut old_list = vec![1; koto_lexer::room_for(old.len())];
        let old_count = scan(&old, table, &mut old_list);
        for (name, near) in [("first line", 0), ("middle line", size / 2), ("last line", old.len() - 1)] {
            // Behind a NewLine of depth 0, or at the start
            let newline = |r: &&[u32]| r[0] == 2 && r[2] as usize <= near;
            let place = old_list.chunks(8).take(old_count).filter(newline).next_back().map_or(0, |r| r[2] as usize);
            let kept = old_list.chunks(8).take(old_count).filter(|r| r[2] as usize <= place).count();
            let source = [&old[..place], b"x", &old[place..]].concat();
            let mut list = vec![1; koto_lexer::room_for(source.len())];
            let mut second = list.clone();
            let mut third = list.clone();
            let sides: [Side; 3] = [
                &mut || {
                    let old = koto_lexer::Old { source: &old, list: &old_list, count: old_count };
                    let edit = koto_lexer::Edit { place, removed: 0, put_in: 1 };
                    match koto_lexer::rescan(old, edit, &source, table, EDITION, &mut list) {
                        koto_lexer::Rescanned::AsScan(scanned) => scanned.count(),
                        refused => panic!("the edit was refused: {refused:?}"),
                    }
                },
                &mut || scan(&source, table, &mut second),
                &mut || {
                    let same = old[..place] == source[..place] && old[place..] == source[place + 1..];
                    third[..8 * kept].copy_from_slice(&old_list[..8 * kept]);
                    kept + usize::from(same)
                },
            ];
            let [ours, fresh, least] = medians(sides, (MEBIBYTE / size).clamp(1, 200));
            assert_eq!(list, second);
            println!(
                "{:>7} B {name:<12} {kept:>7} {:>8.1} {:>7.1} {:>6.2} {:>17.1}",
                source.len(),
                ours * 1e6,
                fresh * 1e6,
                fresh / ours,
                least * 1e6
            );
        }
    }
}

/// What every call begins with
fn checks(table: &[u32]) {
    let fit = || usize::from(koto_lexer::check_table(table) == koto_lexer::TableCheck::Fit);
    let [seconds] = medians([&mut || fit()], 200);
    println!("\ncheck of the full table ({} runs): {:.2} microseconds a call", table.len(), seconds * 1e6);
    println!("check of UTF-8        library   rust's from_utf8   (MB/s)");
    for (kind, (name, _)) in inputs::KINDS.iter().enumerate() {
        let source = inputs::input(kind, MEBIBYTE);
        let fine = || usize::from(koto_lexer::check_utf8(&source) == koto_lexer::Utf8Check::Fine);
        let rust = || usize::from(std::str::from_utf8(black_box(&source)).is_ok());
        let [ours, theirs] = medians([&mut || fine(), &mut || rust()], 2);
        println!("{name:<18} {:>10.0} {:>18.0}", source.len() as f64 / ours / 1e6, source.len() as f64 / theirs / 1e6);
    }
}

/// Whether a list is the source's; here it always is, so that every record is compared to its last number.
fn check(source: &[u8], table: &[u32], list: &[u32], of: koto_lexer::Cursor) -> usize {
    let checked = koto_lexer::check_list(source, table, EDITION, list, of.count, of.status.number());
    assert_eq!(checked, Checked::Same);
    of.count
}

/// The check of the list that a scan wrote, beside the scan
fn lists(table: &[u32]) {
    println!("\ncheck of a list, 1 MiB   check    scan  ratio   (MB/s)");
    for (kind, (name, _)) in inputs::KINDS.iter().enumerate() {
        let source = inputs::input(kind, MEBIBYTE);
        let mut list = vec![1; koto_lexer::room_for(source.len())];
        let mut again = list.clone();
        let cursor = koto_lexer::scan(&source, table, EDITION, &mut list).cursor().expect("a list");
        let sides: [Side; 2] =
            [&mut || check(&source, table, &list, cursor), &mut || scan(&source, table, &mut again)];
        let [checked, scanned] = medians(sides, 1);
        let speed = |seconds: f64| source.len() as f64 / seconds / 1e6;
        println!("{name:<22} {:>7.1} {:>7.1} {:>6.2}", speed(checked), speed(scanned), scanned / checked);
    }
}

/// `next` over tokens that were read before, a list or koto's queue filled by `peek`; and from the source on, so that koto reads at each `next`
fn walks(table: &[u32]) {
    let source = inputs::input(0, 1 << 16);
    let mut list = vec![0; koto_lexer::room_for(source.len())];
    let cursor = koto_lexer::scan(&source, table, EDITION, &mut list).cursor().expect("a list");
    let full = koto_rust::queued(std::str::from_utf8(&source).expect("a script"));
    let queue = || full.clone().map(|lexed| lexed.source_bytes.end).sum();
    let copy = || usize::from(black_box(full.clone()).source().is_empty());
    let [ours, theirs, copy] = medians([&mut || walk(&list, cursor), &mut || queue(), &mut || copy()], 20);
    let mut both = || {
        scan(&source, table, &mut list);
        walk(&list, cursor)
    };
    let [scanned, read] = medians([&mut || both(), &mut || koto_rust::iterate(&source)], 20);
    let each = |seconds: f64| seconds * 1e9 / cursor.count as f64;
    let show = |what: &str, ours: f64, theirs: f64| {
        println!("{what:<42} {:>7.2} {:>7.2} {:>6.2}", each(ours), each(theirs), theirs / ours);
    };
    println!("\nnanoseconds a token, {} tokens          library    rust  ratio", cursor.count);
    show("next over a list, next from a queue", ours, theirs - copy);
    show("scan and next over all, next from a source", scanned, read);
}

fn walk(list: &[u32], start: koto_lexer::Cursor) -> usize {
    let (mut cursor, mut sum) = (start, 0);
    while let Given::Token(record) = koto_lexer::next(list, &mut cursor) {
        sum += record.end as usize;
    }
    sum
}

fn formats(table: &[u32]) {
    let formats = inputs::formats(FORMATS);
    let formats: Vec<&[u8]> = formats.iter().map(Vec::as_slice).collect();
    let bytes: usize = formats.iter().map(|format| format.len()).sum();
    let (mut row, mut entries) = (vec![0; 1 << 10], vec![Entry::default(); 1 << 7]);
    let small = koto_lexer_small();
    let mut ours = |table: &[u32]| {
        let mut pool = Pool { bytes: &mut row, entries: &mut entries, counts: Counts::default() };
        let read = |format: &&&[u8]| matches!(koto_lexer::parse(format, table, EDITION, &mut pool), Parsed::Read(_));
        formats.iter().filter(read).count()
    };
    let rust = || koto_rust::parse_all(&formats);
    assert_eq!(ours(table), rust());
    let [full] = medians([&mut || ours(table)], 1);
    let [small, theirs] = medians([&mut || ours(&small), &mut || rust()], 1);
    let each = |seconds: f64| seconds * 1e9 / formats.len() as f64;
    println!("\n{} format strings of {bytes} bytes in all, nanoseconds each:", formats.len());
    println!(
        "library, full table {:.0} (ratio {:.3}); library, small table {:.0} (ratio {:.2}); rust {:.0}",
        each(full),
        theirs / full,
        each(small),
        theirs / small,
        each(theirs)
    );
    long_formats(table);
}

/// Format strings at the limit of length: a fill and zeros
fn long_formats(table: &[u32]) {
    let format = [b"_<".as_slice(), &vec![b'0'; 60_000]].concat();
    let (mut row, mut entries) = (vec![0; 1 << 10], vec![Entry::default(); 1 << 7]);
    let mut ours = || {
        let mut pool = Pool { bytes: &mut row, entries: &mut entries, counts: Counts::default() };
        usize::from(matches!(koto_lexer::parse(&format, table, EDITION, &mut pool), Parsed::Read(_)))
    };
    let formats = [format.as_slice()];
    let rust = || koto_rust::parse_all(&formats);
    let [ours, theirs] = medians([&mut || ours(), &mut || rust()], 2);
    let speed = |seconds: f64| format.len() as f64 / seconds / 1e6;
    println!(
        "a format string of {} bytes: library {:.1} MB/s, rust {:.1} MB/s, ratio {:.2}",
        format.len(),
        speed(ours),
        speed(theirs),
        theirs / ours
    );
}

fn pad(text: &[u8], width: usize, table: &[u32], buffer: &mut [u8]) -> usize {
    let padding = Padding { alignment: Alignment::Center, width: Some(width as u32), fill: Some(b"-") };
    match koto_lexer::pad(text, padding, table, EDITION, buffer) {
        Padded::Length(len) => len,
        refused => panic!("the text was refused: {refused:?}"),
    }
}

/// A text that is counted and copied, and one that gets as many fills as it has bytes
fn paddings(table: &[u32]) {
    const BYTES: usize = 60_000;
    println!(
        "\npadding of 60,000 bytes   copied: library    rust  ratio   with 60,000 fills: library    rust  ratio   (MB/s)"
    );
    let (mut ours, mut theirs) = (vec![0; 2 * BYTES], vec![0; 2 * BYTES]);
    for (kind, (name, _)) in inputs::KINDS.iter().enumerate() {
        let text = inputs::input(kind, BYTES);
        let clusters = koto_rust::clusters(&text);
        let times = [0, clusters + BYTES].map(|width| {
            let len = pad(&text, width, table, &mut ours);
            assert_eq!(koto_rust::pad(&text, width, "-", &mut theirs), len);
            assert_eq!(ours[..len], theirs[..len]);
            medians(
                [&mut || pad(&text, width, table, &mut ours), &mut || koto_rust::pad(&text, width, "-", &mut theirs)],
                10,
            )
            .map(|seconds| BYTES as f64 / seconds / 1e6)
        });
        println!(
            "{name:<18} {:>22.1} {:>7.1} {:>6.2} {:>27.1} {:>7.1} {:>6.2}",
            times[0][0],
            times[0][1],
            times[0][0] / times[0][1],
            times[1][0],
            times[1][1],
            times[1][0] / times[1][1]
        );
    }
    let small = koto_lexer_small();
    let text = b"idle_code";
    let [full] = medians([&mut || pad(text, 20, table, &mut ours)], 2_000).map(|seconds| seconds * 1e9);
    let [few, rust] =
        medians([&mut || pad(text, 20, &small, &mut ours), &mut || koto_rust::pad(text, 20, "-", &mut theirs)], 2_000)
            .map(|seconds| seconds * 1e9);
    println!(
        "nine bytes padded to 20, nanoseconds: library, full table {full:.0} (ratio {:.3}); library, small table {few:.0} (ratio {:.2}); rust {rust:.0}",
        rust / full,
        rust / few
    );
}

/// Document 01's small table
fn koto_lexer_small() -> Vec<u32> {
    const RUNS: [(u32, u32); 22] = [
        (0x0, 48),
        (0xA, 32),
        (0xB, 48),
        (0xD, 16),
        (0xE, 48),
        (0x20, 4),
        (0x30, 6),
        (0x3A, 4),
        (0x41, 7),
        (0x5B, 4),
        (0x5F, 6),
        (0x60, 4),
        (0x61, 7),
        (0x7B, 4),
        (0x7F, 48),
        (0xA0, 4),
        (0xE9, 7),
        (0xEA, 4),
        (0x300, 1090),
        (0x370, 4),
        (0x4E00, 11),
        (0xA000, 4),
    ];
    RUNS.map(|(start, properties)| start * 2048 + properties).to_vec()
}

fn stacks(table: &[u32]) {
    println!(
        "\nstack, by a thread whose stack was filled with a pattern before: bytes below the calling function's frame"
    );
    for (kind, (name, _)) in inputs::KINDS.iter().enumerate() {
        let source = inputs::input(kind, 1 << 16);
        let mut list = vec![0; koto_lexer::room_for(source.len())];
        println!("koto_scan, {name:<18} {:>6}", stack::used(&mut || black_box(scan(&source, table, &mut list))));
        println!("koto_scan_fast, {name:<13} {:>6}", stack::used(&mut || black_box(scan_fast(&source, table, &mut list))));
        let cursor = koto_lexer::scan(&source, table, EDITION, &mut list).cursor().expect("a list");
        let mut checks = || black_box(check(&source, table, &list, cursor));
        println!("koto_check_list, {name:<12} {:>6}", stack::used(&mut checks));
    }
    let (mut row, mut entries) = (vec![0; 1 << 10], vec![Entry::default(); 1 << 7]);
    let mut parse = |format: &[u8]| {
        let mut pool = Pool { bytes: &mut row, entries: &mut entries, counts: Counts::default() };
        usize::from(matches!(koto_lexer::parse(format, table, EDITION, &mut pool), Parsed::Read(_)))
    };
    println!("koto_parse                    {:>6}", stack::used(&mut || black_box(parse("e\u{301}<08.3x".as_bytes()))));
    let file = std::fs::read(std::env::args().nth(1).expect("a table file")).expect("the table file");
    let mut row = vec![0; koto_lexer::TABLE_MOST];
    let mut read = || usize::from(matches!(koto_lexer::read_table(&file, &mut row), koto_lexer::TableFile::Read(_)));
    println!("koto_read_table               {:>6}", stack::used(&mut || black_box(read())));
    println!("an empty function             {:>6}", stack::used(&mut || black_box(0)));
}
