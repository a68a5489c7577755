//! What writing must answer, by koto's own parser: a string is right where the parser reads it back as what was asked, and no string that it
//! reads so is shorter, or as long and before it. Where all strings are too many, those that a dialog's options could be written as are tried.

use crate::kpt;
use answers::{Judge, Pool};
use std::str::from_utf8;

pub const NONE: u64 = u64::MAX;
pub const FORMAT_MOST: usize = 65_535;

/// The options as numbers, and the fill's bytes
#[derive(Clone, Debug, PartialEq, Eq, Hash)]
pub struct Options {
    pub alignment: u64,
    pub width: u64,
    pub precision: u64,
    pub representation: u64,
    pub fill: Option<Vec<u8>>,
}

/// Whose koto judges, with which table, in which edition
#[derive(Clone, Copy)]
pub struct Host {
    pub name: &'static str,
    judge: &'static Judge,
    pub table: fn() -> Vec<u32>,
    pub edition: u32,
}

pub const NEWER: Host = Host { name: "newer", judge: &koto_real::JUDGE, table: kpt::full, edition: 2 };
pub const LEFT_OUT: Host =
    Host { name: "newer without GB9c", judge: &koto_left_out::JUDGE, table: kpt::full, edition: 1 };
pub const OLDER: Host = Host { name: "older", judge: &koto_older::JUDGE, table: kpt::older, edition: 1 };
pub const HOSTS: [Host; 3] = [NEWER, LEFT_OUT, OLDER];

impl Host {
    /// What koto's parser reads a format string as, with an empty pool that has room
    pub fn read(&self, format: &str) -> Option<Options> {
        if format.len() > FORMAT_MOST {
            return None;
        }
        let pool = Pool { strings: vec![], entries: 2, bytes: FORMAT_MOST + 1 };
        let read = (self.judge.parse)(format, &pool).answer.ok()?;
        let number = |n: Option<u32>| n.map_or(NONE, u64::from);
        Some(Options {
            alignment: read.alignment.into(),
            width: number(read.width),
            precision: number(read.precision),
            representation: number(read.representation),
            fill: read.fill.map(|fill| format.as_bytes()[fill.place..fill.place + fill.length].to_vec()),
        })
    }

    /// The first of the strings that are read back
    pub fn first(&self, options: &Options) -> Option<Vec<u8>> {
        let read_back = |s: &String| self.read(s).as_ref() == Some(options);
        strings(options)?.into_iter().filter(read_back).map(String::into_bytes).min_by(|a, b| order(a, b))
    }
}

/// Shorter first, and then by bytes
pub fn order(a: &[u8], b: &[u8]) -> std::cmp::Ordering {
    a.len().cmp(&b.len()).then(a.cmp(b))
}

/// The fill in front, behind the sign, or left out; each number with up to two zeros before it. None for a fill that is no text
fn strings(options: &Options) -> Option<Vec<String>> {
    let fill = from_utf8(options.fill.as_deref().unwrap_or(b"")).ok()?;
    let sign = ["", "<", "^", ">"].get(options.alignment as usize).copied().unwrap_or("");
    let letter = ["?", "x", "X", "b", "o", "e", "E"].get(options.representation as usize).copied().unwrap_or("");
    let number = |n: u64| if n == NONE { String::new() } else { n.to_string() };
    let (width, precision) = (number(options.width), number(options.precision));
    let dot = if options.precision == NONE { "" } else { "." };
    let mut all = vec![];
    for zeros in ["", "0", "00"] {
        for more in ["", "0", "00"] {
            let tail = format!("{zeros}{width}{dot}{more}{precision}{letter}");
            all.push(format!("{fill}{sign}{tail}"));
            all.push(format!("{sign}{fill}{tail}"));
            all.push(format!("{sign}{tail}"));
        }
    }
    Some(all)
}
