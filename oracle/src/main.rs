//! The oracle: koto's own Rust, asked by command. README.md beside this folder says what each command answers.

mod agree;
mod batch;
mod kpt;
mod rich;

use answers::{Call, Judge, Options, Parse, Pool, Scan, Shown, Status, text_of};
use std::fmt::Write as _;
use std::io::{Read, Write};
use std::process::exit;

const SOURCE_MOST: usize = 1_048_576;
const FORMAT_MOST: usize = 65_535;

/// What came on the command line after the command
struct Asked {
    judge: Judge,
    host: Host,
    /// The edition of the cluster rules: 1 without GB9c, 2 with it
    edition: u32,
    /// Refusal 2's place, if a table was lent that is unfit
    bad_table: Option<usize>,
    room: usize,
    pool: Pool,
    words: Vec<String>,
}

/// Whose Unicode crates answer where no table is lent
#[derive(Clone, Copy, PartialEq)]
enum Host {
    Newer,
    Older,
}

fn main() {
    let mut words = std::env::args().skip(1);
    let Some(command) = words.next() else {
        fail("which command? README.md lists them");
    };
    let asked = asked(words);
    match command.as_str() {
        "tokens" => put(&show_scan(&tokens(&asked, &input()))),
        "format" => put(&show_parse(&format(&asked, &input()))),
        "walk" => put(&walk(&asked, &input(), &asked.words.join(" "))),
        "cluster" => put(&match cluster(&asked, &input()) {
            Ok(length) => format!("{length}\n"),
            Err((number, place)) => format!("refused {number} {place}\n"),
        }),
        "utf8" => put(&match utf8(&input()) {
            (0, _) => "fine\n".to_string(),
            (1, place) => format!("bad {place}\n"),
            (_, place) => format!("cut {place}\n"),
        }),
        "file" => put(&match kpt::read(&input(), asked.room) {
            Ok(row) => format!("fine {}\n", row.len()),
            Err((number, place)) => format!("refused {number} {place}\n"),
        }),
        "table" => write_file(&asked, &checked(host_table(&asked))),
        "small" => write_file(&asked, &kpt::small()),
        "rich" => some_texts(&asked, rich::Kinds::text),
        "conjuncts" => some_texts(&asked, rich::Kinds::conjuncts),
        "published" => published_texts(&asked),
        "agree" => agree::agree(&asked),
        "batch" => batch::batch(&asked),
        _ => fail("an unknown command: README.md lists them"),
    }
}

fn fail(why: &str) -> ! {
    eprintln!("oracle: {why}");
    exit(2)
}

fn put(text: &str) {
    // Whoever reads may have stopped reading.
    let _ = std::io::stdout().write_all(text.as_bytes());
}

fn input() -> Vec<u8> {
    let mut bytes = vec![];
    if std::io::stdin().read_to_end(&mut bytes).is_err() {
        fail("standard input can't be read");
    }
    bytes
}

fn asked(words: impl Iterator<Item = String>) -> Asked {
    let mut asked = Asked {
        judge: koto_real::JUDGE,
        host: Host::Newer,
        edition: 2,
        bad_table: None,
        room: usize::MAX,
        pool: Pool { strings: vec![], entries: usize::MAX, bytes: usize::MAX },
        words: vec![],
    };
    let (mut words, mut table, mut edition) = (words, None, None);
    while let Some(word) = words.next() {
        if !word.starts_with("--") {
            asked.words.push(word);
            continue;
        }
        let value = words.next().unwrap_or_else(|| fail("an option without a value"));
        match word.as_str() {
            "--table" => table = Some(value),
            "--edition" => edition = Some(number(&value) as u32),
            "--host" if value == "older" => asked.host = Host::Older,
            "--room" => asked.room = number(&value),
            "--entries" => asked.pool.entries = number(&value),
            "--bytes" => asked.pool.bytes = number(&value),
            "--pool" => asked.pool.strings = value.split(',').map(pool_string).collect(),
            _ => fail("an unknown option: README.md lists them"),
        }
    }
    asked.edition = edition.unwrap_or(if asked.host == Host::Older { 1 } else { 2 });
    match (&table, asked.host, asked.edition) {
        (Some(path), ..) => lend(&mut asked, path),
        (None, Host::Older, 2) => fail("the older crates have no GB9c"),
        (None, Host::Older, _) => asked.judge = koto_older::JUDGE,
        (None, Host::Newer, 1) => asked.judge = koto_left_out::JUDGE,
        (None, Host::Newer, _) => {}
    }
    asked
}

fn lend(asked: &mut Asked, path: &str) {
    match kpt::read(&read_file(path), usize::MAX) {
        Ok(row) => lent::lend(&row, asked.edition),
        Err((2, place)) => asked.bad_table = Some(place),
        Err(_) => fail("the table's file is unfit"),
    }
    asked.judge = koto_lent::JUDGE;
}

/// The table of what the host's crates say
fn host_table(asked: &Asked) -> Vec<u32> {
    if asked.host == Host::Older { kpt::older() } else { kpt::full() }
}

fn read_file(path: &str) -> Vec<u8> {
    std::fs::read(path).unwrap_or_else(|_| fail("a file can't be read"))
}

fn write_file(asked: &Asked, row: &[u32]) {
    let [path] = asked.words.as_slice() else {
        fail("which file?");
    };
    if std::fs::write(path, kpt::file_of(row)).is_err() {
        fail("the file can't be written");
    }
    put(&format!("{} runs\n", row.len()));
}

fn number(word: &str) -> usize {
    word.parse().unwrap_or_else(|_| fail("a number was expected"))
}

fn pool_string(hex: &str) -> String {
    let bytes = from_hex(hex.as_bytes());
    String::from_utf8(bytes).unwrap_or_else(|_| fail("the Rust's pool holds well-formed strings only"))
}

fn from_hex(hex: &[u8]) -> Vec<u8> {
    if hex == b"-" {
        return vec![];
    }
    let digit = |c: u8| (c as char).to_digit(16).unwrap_or_else(|| fail("hex was expected")) as u8;
    if hex.len() % 2 == 1 {
        fail("hex was expected");
    }
    hex.chunks_exact(2).map(|two| digit(two[0]) * 16 + digit(two[1])).collect()
}

fn put_hex(out: &mut String, bytes: &[u8]) {
    if bytes.is_empty() {
        out.push('-');
    }
    for byte in bytes {
        let _ = write!(out, "{byte:02x}");
    }
}

/// Refusals 1, 17, 2 and 3 or 15 in their order
fn text<'a>(asked: &Asked, bytes: &'a [u8], most: usize) -> Result<&'a str, (u32, usize)> {
    if bytes.len() > most {
        return Err((1, 0));
    }
    if !(1..=2).contains(&asked.edition) {
        return Err((17, 0));
    }
    if let Some(place) = asked.bad_table {
        return Err((2, place));
    }
    text_of(bytes)
}

fn tokens(asked: &Asked, source: &[u8]) -> Scan {
    match text(asked, source, SOURCE_MOST) {
        Ok(source) => (asked.judge.scan)(source, asked.room),
        Err((number, place)) => Scan { status: Status::Refused(number), records: vec![], place, forbidden: None },
    }
}

fn show_scan(scan: &Scan) -> String {
    let mut out = String::new();
    for record in &scan.records {
        put_numbers(&mut out, record);
        out.push('\n');
    }
    let (count, place) = (scan.records.len(), scan.place);
    let _ = match scan.status {
        Status::End => writeln!(out, "end {count} {place}"),
        Status::Stuck => writeln!(out, "stuck {count} {place}"),
        Status::Refused(number) => writeln!(out, "refused {number} {place}"),
    };
    out
}

fn put_numbers(out: &mut String, numbers: &[u32]) {
    for (i, number) in numbers.iter().enumerate() {
        let space = if i == 0 { "" } else { " " };
        let _ = write!(out, "{space}{number}");
    }
}

fn format(asked: &Asked, format_string: &[u8]) -> Parse {
    let pool = &asked.pool;
    let refused = |answer| Parse { answer: Err(answer), strings: pool.strings.clone() };
    match text(asked, format_string, FORMAT_MOST) {
        Err((number, place)) => refused((number, place as u64)),
        Ok(_) if is_over_its_room(pool) => refused((8, 0)),
        Ok(format_string) => (asked.judge.parse)(format_string, pool),
    }
}

fn is_over_its_room(pool: &Pool) -> bool {
    let bytes: usize = pool.strings.iter().map(String::len).sum();
    pool.strings.len() > pool.entries || bytes > pool.bytes
}

/// The seven numbers of a parse's answer: alignment, width, precision, representation, then the fill's
fn option_numbers(options: &Options) -> [Option<u32>; 7] {
    let fill = options.fill.as_ref();
    [
        Some(options.alignment),
        options.width,
        options.precision,
        options.representation,
        fill.map(|fill| fill.place as u32),
        fill.map(|fill| fill.length as u32),
        fill.map(|fill| fill.index),
    ]
}

fn show_parse(parse: &Parse) -> String {
    let mut out = match &parse.answer {
        Ok(options) => {
            let shown = option_numbers(options).map(|n| n.map_or("-".to_string(), |n| n.to_string()));
            format!("options {}\n", shown.join(" "))
        }
        Err((number, value)) => format!("refused {number} {value}\n"),
    };
    out.push_str("pool");
    for string in &parse.strings {
        out.push(' ');
        put_hex(&mut out, string.as_bytes());
    }
    out.push('\n');
    out
}

/// `calls` are separated by spaces.
fn walk(asked: &Asked, source: &[u8], calls: &str) -> String {
    // A walk is over the list of a scan that wasn't refused.
    let scan = tokens(asked, source);
    if let Status::Refused(number) = scan.status {
        return format!("refused {number} {}\n", scan.place);
    }
    let source = std::str::from_utf8(source).expect("a source that was scanned");
    let calls: Vec<Call> = calls.split_whitespace().flat_map(some_calls).collect();
    let (shown, queued) = (asked.judge.walk)(source, &calls);
    let mut out = String::new();
    for shown in shown {
        match shown {
            Shown::Record(record) => put_numbers(&mut out, &record),
            Shown::Nothing => out.push_str("none"),
            Shown::Refused(number) => {
                let _ = write!(out, "refused {number} 0");
            }
        }
        out.push('\n');
    }
    let _ = writeln!(out, "queued {queued}");
    out
}

/// `n`, `p3`, `l3`, or one of these with `*TIMES`
fn some_calls(word: &str) -> Vec<Call> {
    let (call, times) = word.split_once('*').unwrap_or((word, "1"));
    let call = match call.split_at_checked(1) {
        Some(("n", "")) => Call::Next,
        Some(("p", n)) => Call::Peek(number(n)),
        Some(("l", n)) => Call::LookAhead(number(n)),
        _ => fail("a call is n, or p or l with a number"),
    };
    vec![call; number(times)]
}

fn cluster(asked: &Asked, bytes: &[u8]) -> Result<usize, (u32, usize)> {
    text(asked, bytes, SOURCE_MOST).map(asked.judge.first_cluster)
}

/// 0 for well-formed bytes, 1 for bad and 2 for cut ones with the offset
fn utf8(bytes: &[u8]) -> (u32, usize) {
    match text_of(bytes) {
        Ok(_) => (0, 0),
        Err((number, place)) => (if number == 3 { 1 } else { 2 }, place),
    }
}

/// A table of what crates say, which must be fit
fn checked(table: Vec<u32>) -> Vec<u32> {
    let small = kpt::small();
    for c in 0..128 {
        let (by_crates, by_paper) = (kpt::properties(&table, c), kpt::properties(&small, c));
        if by_crates != by_paper {
            fail(&format!("code point {c} has {by_crates} by the crates and {by_paper} by document 01"));
        }
    }
    if let Some(place) = kpt::bad_table(&table) {
        fail(&format!("the crates' table is unfit at {place}"));
    }
    table
}

/// `rich SEED COUNT MOST` and `conjuncts SEED COUNT MOST`: so many random texts of at most so many bytes, in hex
fn some_texts(asked: &Asked, text: fn(&rich::Kinds, &mut rich::Dice, usize) -> String) {
    let [seed, count, most] = asked.words.iter().map(|word| number(word)).collect::<Vec<_>>()[..] else {
        fail("a seed, a count and a number of bytes were expected");
    };
    let kinds = rich::Kinds::of(&kpt::full());
    let mut dice = rich::Dice::new(seed as u64);
    let mut out = String::new();
    for _ in 0..count {
        put_hex(&mut out, text(&kinds, &mut dice, most).as_bytes());
        out.push('\n');
    }
    put(&out);
}

/// `published FILE`: each text of GraphemeBreakTest.txt, and what follows each of its breaks, in hex
fn published_texts(asked: &Asked) {
    let mut out = String::new();
    for (text, clusters) in published(&asked.words) {
        let mut rest = text.as_bytes();
        for length in clusters {
            put_hex(&mut out, rest);
            out.push('\n');
            rest = &rest[length..];
        }
    }
    put(&out);
}

fn published(words: &[String]) -> Vec<(String, Vec<usize>)> {
    let [path, ..] = words else {
        fail("where is GraphemeBreakTest.txt?");
    };
    let file = read_file(path);
    rich::published(std::str::from_utf8(&file).unwrap_or_else(|_| fail("the tests are ill-formed")))
}
