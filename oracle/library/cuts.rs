//! Characters that the end cuts, and bytes that look so and are not: at the end and before more bytes, in sources, slices, format strings and
//! strings for a pool.

use crate::rich::Dice;
use crate::{Run, formats, pools, scans};
use std::collections::BTreeSet;

/// Alone; at the end of code, of comments, of a name, a literal, a raw string and format options; behind what would be stuck or refused
const BEFORE_SOURCES: [&str; 11] =
    ["", "x = ", "# c ", "#- \u{E9} ", "na", "\u{6F22}", "'a{b} ", "r#'", "'{x:", "\r", "x\n\u{1F600} "];
const BEFORE_FORMATS: [&str; 5] = ["", "<", "x<0", "5.2", "e\u{301}"];
const BEFORE_STRINGS: [&str; 3] = ["", "a", "\u{6F22}"];
const MORE: [&[u8]; 8] = [b"z", b"\n", b"'", b" ", b"\0", b"\xC3\xA9", b"\xC3", b"\xFF"];

pub fn compare(run: &mut Run, dice: &mut Dice) {
    let (cut, wrong) = (beginnings(), look_alikes());
    let mut done = [0; 3];
    for piece in cut.iter().chain(&wrong) {
        // Each stands at the end, and once before more bytes.
        let more = MORE[dice.below(MORE.len())];
        for (before, after) in stands(dice, &BEFORE_SOURCES, more) {
            let source = [before.as_bytes(), piece, after].concat();
            done[0] += scans::one(run, dice, &source);
            scans::char_at(run, &source, before.len());
        }
        for (before, after) in stands(dice, &BEFORE_FORMATS, more) {
            done[1] += formats::one(run, dice, &[before.as_bytes(), piece, after].concat());
        }
        for (before, after) in stands(dice, &BEFORE_STRINGS, more) {
            pools::one(run, dice, &[before.as_bytes(), piece, after].concat());
            done[2] += 1;
        }
    }
    println!(
        "cut characters: {} beginnings and {} that look so, in {} sources, {} format strings and {} strings",
        cut.len(),
        wrong.len(),
        done[0],
        done[1],
        done[2]
    );
}

/// What stands before and after a piece
fn stands<'a>(dice: &mut Dice, before: &[&'a str], more: &'a [u8]) -> Vec<(&'a str, &'a [u8])> {
    let mut all: Vec<(&str, &[u8])> = before.iter().map(|&before| (before, b"".as_slice())).collect();
    all.push((before[dice.below(before.len())], more));
    all
}

/// Every cut of every character of two bytes and more, each once
fn beginnings() -> BTreeSet<Vec<u8>> {
    let mut all = BTreeSet::new();
    for c in '\u{80}'..=char::MAX {
        let mut bytes = [0; 4];
        for n in 1..c.encode_utf8(&mut bytes).len() {
            if !all.contains(&bytes[..n]) {
                all.insert(bytes[..n].to_vec());
            }
        }
    }
    all
}

/// Bytes that no character begins with: lone continuations, leads that are none, overlong forms, surrogates, what is over 10FFFF; and each with
/// continuation bytes behind it
fn look_alikes() -> Vec<Vec<u8>> {
    let lone = (0x80..=0xC1).chain(0xF5..=0xFF).map(|byte| vec![byte]);
    let seconds = [(0xE0, 0x80..=0x9F), (0xED, 0xA0..=0xBF), (0xF0, 0x80..=0x8F), (0xF4, 0x90..=0xBF)];
    let pairs = seconds.into_iter().flat_map(|(lead, second)| second.map(move |byte| vec![lead, byte]));
    let heads: Vec<Vec<u8>> = lone.chain(pairs).collect();
    let tails: [&[u8]; 5] = [b"", b"\x80", b"\xBF", b"\x80\x80", b"\xBF\xBF"];
    heads.iter().flat_map(|head| tails.map(|tail| [head, tail].concat())).collect()
}
