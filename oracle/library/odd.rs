//! Fit tables that no Unicode data have, in both editions: any class with any InCB, so that a cluster may hold both a conjunct and "}". The judge is
//! koto over the table that is lent.

use crate::calls::Table;
use crate::hosts::Host;
use crate::pools::some_pool;
use crate::rich::Dice;
use crate::{Run, formats, kpt, scans};

/// So many code points from 128 on have properties of their own: consonants, linkers, consonants that join what follows, and any others
const CHARS: u32 = 48;
const GROUP: u32 = 8;
const CONSONANT: u32 = 512;
const LINKER: u32 = 3 * 512 + 4 * 16;
const JOINING: u32 = 512 + 7 * 16;
/// So many sources and format strings with each table
const TRIED: usize = 1000;

pub fn compare(run: &mut Run, dice: &mut Dice, tables: usize) {
    let mut differ = [0; 3];
    for _ in 0..tables {
        let table = some_table(dice);
        run.library.table.fill(&table);
        let sources: Vec<String> = (0..TRIED).map(|_| some_source(dice)).collect();
        let formats: Vec<String> = (0..TRIED).map(|_| text(dice) + &formats::shape(dice)).collect();
        let pools: Vec<_> = formats.iter().map(|format| some_pool(dice, format.as_bytes())).collect();
        let [without, with] = [1, 2].map(|edition| {
            lent::lend(&table, edition);
            let name = ["odd table, edition 1", "odd table, edition 2"][edition as usize - 1];
            let host = Host { name, judge: &koto_lent::JUDGE, table: Table::Lent, edition };
            let parse = |run: &mut Run, i: usize| {
                formats::by_host(run, formats[i].as_bytes(), pools[i].0.as_ref(), &pools[i].1, &host)
            };
            // The same dice for both editions, so that the lists have the same room
            let scan =
                |run: &mut Run, i: usize| scans::by_host(run, &mut Dice::new(i as u64), sources[i].as_bytes(), &host);
            let lists: Vec<_> = (0..TRIED).map(|i| scan(run, i)).collect();
            let parses: Vec<_> = (0..TRIED).map(|i| parse(run, i)).collect();
            (lists, parses)
        });
        for (old, new) in without.0.iter().zip(&with.0) {
            differ[0] += usize::from(old.1 != new.1);
            differ[1] += usize::from(old.0 != new.0);
        }
        differ[2] += without.1.iter().zip(&with.1).filter(|(old, new)| old != new).count();
    }
    let [clusters, lists, parses] = differ;
    println!(
        "odd tables: {tables}, each with {TRIED} sources and {TRIED} format strings in both editions: {clusters} first clusters,"
    );
    println!("            {lists} lists and {parses} parses differ between the two");
}

/// ASCII as it must be, and then characters that no Unicode data have
fn some_table(dice: &mut Dice) -> Vec<u32> {
    let mut table: Vec<u32> = kpt::small().into_iter().filter(|run| run / 2048 < 128).collect();
    for i in 0..CHARS {
        let any = 16 * dice.below(14) as u32 + 256 * dice.below(8) as u32;
        let clusters = *[CONSONANT, LINKER, JOINING].get((i / GROUP) as usize).unwrap_or(&any);
        let others = [0, 2, 3][dice.below(3)] + 4 * dice.below(4) as u32;
        table.push((128 + i) * 2048 + others + clusters);
    }
    table.push((128 + CHARS) * 2048 + 4);
    table
}

/// Some of the table's own characters, conjuncts among them, and of what format options look at
fn text(dice: &mut Dice) -> String {
    let mut text = String::new();
    for _ in 0..dice.below(6) {
        let group = [0, 0, 1, 1, 1, 2, 3, 4, 5, 6][dice.below(10)];
        match group {
            6 => text.push(['}', '<', '^', 'a'][dice.below(4)]),
            _ => text.extend(char::from_u32(128 + GROUP * group + dice.below(GROUP as usize) as u32)),
        }
    }
    text
}

fn some_source(dice: &mut Dice) -> String {
    match dice.below(4) {
        0 => text(dice),
        1 => format!("'{{x:{}}}<{}}}'", text(dice), text(dice)),
        _ => format!("'{{x:{}}}{}}}'", text(dice), ["<", "^5", ">"][dice.below(3)]),
    }
}
