//! Format strings with their pools: empty, part full, full and unfit.

use crate::Run;
use crate::calls::FORMAT_MOST;
use crate::damage::damaged;
use crate::hosts::{self, Host};
use crate::pools::{Rows, some_pool};
use crate::rich::Dice;
use answers::{Parse, Pool};
use koto_lexer::raw::{NONE, Options};

const LETTERS: [&str; 13] = ["0", "5", ".", "<", "^", ">", "_", "x", "?", "E", "\u{301}", "\u{6F22}", "}"];
const FILLS: [&str; 12] = [
    "",
    "",
    "_",
    "0",
    "<",
    "\u{E9}",
    "e\u{301}",
    "\u{6F22}",
    "\u{1F468}\u{200D}\u{1F469}",
    "\u{1F1E9}\u{1F1EA}",
    "\r\n",
    "\u{915}\u{94D}\u{937}",
];
const NUMBERS: [&str; 12] = [
    "",
    "",
    "0",
    "5",
    "08",
    "000",
    "4294967295",
    "4294967296",
    "99999999999999999999",
    "12345678901234567890123",
    "007",
    "31",
];
const ENDS: [&str; 12] = ["", "", "", "?", "x", "X", "b", "o", "e", "E", "q", "xx"];
const DEFAULT: Options = Options {
    alignment: NONE,
    width: NONE,
    precision: NONE,
    representation: NONE,
    fill_place: NONE,
    fill_len: NONE,
    fill_index: NONE,
};

pub fn compare(run: &mut Run, dice: &mut Dice, count: usize) {
    let mut done = [0; 3];
    for format in long() {
        done[0] += one(run, dice, &format);
    }
    for format in short() {
        done[1] += one(run, dice, &format);
    }
    while done.iter().sum::<usize>() < count {
        let fill = match dice.below(4) {
            0 => run.kinds.text(dice, 20),
            1 => one_cluster(&run.kinds.text(dice, 20)),
            _ => FILLS[dice.below(FILLS.len())].to_string(),
        };
        let format = (fill + &shape(dice)).into_bytes();
        done[2] += one(run, dice, &format);
        if dice.below(3) == 0 {
            let format = damaged(dice, &format);
            done[2] += one(run, dice, &format);
        }
    }
    let [long, short, random] = done;
    println!(
        "format strings: {} ({long} at the limit of length, {short} short, {random} random)",
        done.iter().sum::<usize>()
    );
}

fn one_cluster(text: &str) -> String {
    text[..(koto_real::JUDGE.first_cluster)(text)].to_string()
}

/// A number that matters, or any of up to eleven digits
fn number(dice: &mut Dice) -> String {
    if dice.below(2) == 0 {
        return NUMBERS[dice.below(NUMBERS.len())].to_string();
    }
    (0..dice.below(12)).map(|_| char::from(b'0' + dice.below(10) as u8)).collect()
}

/// What stands after a fill
pub fn shape(dice: &mut Dice) -> String {
    let alignment = ["<", "^", ">", "<", ">", "", ">>"][dice.below(7)];
    let width = number(dice);
    let precision = if dice.below(2) == 0 { ".".to_string() + &number(dice) } else { String::new() };
    format!("{alignment}{width}{precision}{}", ENDS[dice.below(ENDS.len())])
}

/// Every string of up to five of the letters
fn short() -> Vec<Vec<u8>> {
    let mut all: Vec<Vec<u8>> = vec![vec![]];
    let mut first = 0;
    for _ in 0..5 {
        let last = all.len();
        for i in first..last {
            all.extend(LETTERS.map(|letter| [&all[i], letter.as_bytes()].concat()));
        }
        first = last;
    }
    all
}

fn long() -> Vec<Vec<u8>> {
    let mut all = vec![];
    for fill in ["0", "<", "\u{301}", "5", "0\u{301}"] {
        for len in [FORMAT_MOST - 1, FORMAT_MOST, FORMAT_MOST + 1] {
            let text = fill.repeat(len / fill.len() + 1);
            all.push(text.as_bytes()[..len].to_vec());
            all.push([b"_<".as_slice(), &text.as_bytes()[..len - 2]].concat());
        }
    }
    all
}

/// 1 for a format string that was not tried before, and now is
pub fn one(run: &mut Run, dice: &mut Dice, format: &[u8]) -> usize {
    if !run.tally.is_new("format", format) {
        return 0;
    }
    let (pool, rows) = some_pool(dice, format);
    for host in hosts::some(run, dice) {
        by_host(run, format, pool.as_ref(), &rows, &host);
    }
    1
}

/// The parse of a format string with a pool, as one host has it; its number, options and value
pub fn by_host(run: &mut Run, format: &[u8], pool: Option<&Pool>, rows: &Rows, host: &Host) -> (u32, Options, u64) {
    run.library.source.fill(format);
    rows.lend(&mut run.library);
    run.tally.count("format strings", host.name);
    let said = run.library.parse(host.table, host.edition, rows.counts);
    let (number, options, value, after) = wanted(run, format, host, pool, rows);
    let got = (said.number, said.answer);
    run.tally.note("parse", said.number, &got, &(number, (options, value, after.counts)), format);
    if !said.whole || run.library.source.get() != format || !after.stands_in(&run.library) {
        run.tally.spoiled("parse", format);
    }
    (number, options, value)
}

/// The answer by koto's parser, and the rows after it
fn wanted(run: &Run, format: &[u8], host: &Host, pool: Option<&Pool>, rows: &Rows) -> (u32, Options, u64, Rows) {
    let text = match host.text(run, format, FORMAT_MOST) {
        Ok(text) => text,
        Err((number, place)) => return (number, DEFAULT, place as u64, rows.clone()),
    };
    let Some(pool) = pool else {
        return (8, DEFAULT, 0, rows.clone());
    };
    let Parse { answer, strings } = (host.judge.parse)(text, pool);
    let after = rows.with(&strings);
    match answer {
        Err((number, value)) => (number, DEFAULT, value, after),
        Ok(read) => {
            let number = |n: Option<u32>| n.map_or(NONE, u64::from);
            let fill = read.fill.as_ref();
            let options = Options {
                alignment: read.alignment.into(),
                width: number(read.width),
                precision: number(read.precision),
                representation: number(read.representation),
                fill_place: fill.map_or(NONE, |fill| fill.place as u64),
                fill_len: fill.map_or(NONE, |fill| fill.length as u64),
                fill_index: fill.map_or(NONE, |fill| fill.index.into()),
            };
            (0, options, 0, after)
        }
    }
}
