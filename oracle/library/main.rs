//! The proved library against koto's Rust with its real Unicode crates, call by call, at scale. README.md of the oracle says what is tried.

mod calls;
mod conjuncts;
mod cursors;
mod cuts;
mod damage;
mod engines;
mod foreign;
mod formats;
mod hosts;
#[allow(dead_code)]
#[path = "../src/kpt.rs"]
mod kpt;
mod memory;
mod odd;
mod pools;
#[allow(dead_code)]
#[path = "../src/rich.rs"]
mod rich;
mod scans;
mod scripts;
mod tables;
mod tally;

use calls::Library;
use rich::{Dice, Kinds};
use std::process::exit;
use tally::Tally;

/// What the groups share
pub struct Run {
    library: Library,
    table: Vec<u32>,
    kinds: Kinds,
    tally: Tally,
}

fn main() {
    let words: Vec<String> = std::env::args().skip(1).collect();
    let number = |i: usize, else_: u64| words.get(i).map_or(else_, |word| word.parse().expect("a number"));
    let (seed, count) = (number(0, 50), number(1, 1_000_000) as usize);
    let table = kpt::full();
    let library = Library::new(&table, &kpt::older());
    let mut run = Run { library, kinds: Kinds::of(&table), table, tally: Tally::default() };
    let mut dice = Dice::new(seed);
    scans::compare(&mut run, &mut dice, count);
    formats::compare(&mut run, &mut dice, count);
    conjuncts::compare(&mut run, &mut dice, count / 8);
    odd::compare(&mut run, &mut dice, count / 10_000);
    cuts::compare(&mut run, &mut dice);
    cursors::compare(&mut run, &mut dice, count / 5);
    tables::compare(&mut run, &mut dice, count / 50);
    pools::compare(&mut run, &mut dice, count / 5);
    exit(if run.tally.report() { 0 } else { 1 })
}
