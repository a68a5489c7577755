//! Whose koto judges, over which table and in which edition of the cluster rules.

use crate::Run;
use crate::calls::Table;
use crate::kpt;
use crate::rich::Dice;
use answers::{Judge, text_of};

#[derive(Clone, Copy)]
pub struct Host {
    pub name: &'static str,
    pub judge: &'static Judge,
    pub table: Table,
    pub edition: u32,
}

/// koto over the newer crates
pub const NEWER: Host = Host { name: "newer", judge: &koto_real::JUDGE, table: Table::Full, edition: 2 };
/// koto over the newer crates, with GB9c left out of their rules
pub const LEFT_OUT: Host =
    Host { name: "newer without GB9c", judge: &koto_left_out::JUDGE, table: Table::Full, edition: 1 };
/// koto over the older crates
pub const OLDER: Host = Host { name: "older", judge: &koto_older::JUDGE, table: Table::Older, edition: 1 };

pub const ALL: [Host; 3] = [NEWER, LEFT_OUT, OLDER];

/// The newer host, or seldom one with an unfit table, an edition that is none, or both; and every second time one of the two in edition 1
pub fn some(run: &mut Run, dice: &mut Dice) -> Vec<Host> {
    let mut all = vec![spoiled(run, dice)];
    match dice.below(4) {
        0 => all.push(LEFT_OUT),
        1 => all.push(OLDER),
        _ => {}
    }
    all
}

fn spoiled(run: &mut Run, dice: &mut Dice) -> Host {
    let how = dice.below(400);
    let edition = if how < 4 { [0, 3, 17, 256, 257, 258, 1 << 31, u32::MAX][dice.below(8)] } else { 2 };
    let table = if (2..6).contains(&how) { bad_table(run, dice) } else { Table::Full };
    let name = if how < 6 { "refused" } else { NEWER.name };
    Host { name, table, edition, ..NEWER }
}

/// Lends a damaged copy of the full table.
fn bad_table(run: &mut Run, dice: &mut Dice) -> Table {
    let mut table = run.table.clone();
    match dice.below(4) {
        0 => table.clear(),
        1 => table[0] += 1,
        2 => table.swap(100, 200),
        _ => table.resize(8001, 0),
    }
    run.library.table.fill(&table);
    Table::Lent
}

impl Host {
    /// Refusals 1, 17, 2 and 3 or 15 in their order, or the text
    pub fn text<'a>(&self, run: &Run, bytes: &'a [u8], most: usize) -> Result<&'a str, (u32, usize)> {
        if bytes.len() > most {
            return Err((1, 0));
        }
        if self.edition != 1 && self.edition != 2 {
            return Err((17, 0));
        }
        if let Some(place) = (self.table == Table::Lent).then(|| kpt::bad_table(run.library.table.get())).flatten() {
            return Err((2, place));
        }
        text_of(bytes)
    }
}
