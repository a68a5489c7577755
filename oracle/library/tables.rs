//! Property tables and their files, whole and damaged, against the oracle's own check.

use crate::calls::Table;
use crate::damage::damaged;
use crate::rich::Dice;
use crate::{Run, kpt};

const OLD: u32 = 0xDEAD_BEEF;

pub fn compare(run: &mut Run, dice: &mut Dice, count: usize) {
    for _ in 0..count {
        let table = some_table(run, dice);
        run.library.table.fill(&table);
        check(run, &table);
        let mut file = kpt::file_of(&table);
        if dice.below(2) == 0 {
            file = match dice.below(3) {
                0 => damaged(dice, &file[..file.len().min(40)]),
                1 => file[..dice.below(file.len())].to_vec(),
                _ => [file[..8].to_vec(), damaged(dice, &file[8..])].concat(),
            };
        }
        let room = match dice.below(4) {
            0 => dice.below(table.len() + 1),
            1 => table.len(),
            _ => table.len() + dice.below(20),
        };
        read(run, &file, room);
    }
    let said = run.library.check_table(Table::Full);
    run.tally.note("check_table", said.number, &(said.number, said.answer), &(0, 0), &[]);
    println!("tables and table files: {count}");
}

fn some_table(run: &Run, dice: &mut Dice) -> Vec<u32> {
    let mut table = match dice.below(8) {
        0 => run.table.clone(),
        1 => vec![],
        2 => (0..8000 + dice.below(3) as u32).map(|i| i * 2048 + 4).collect(),
        _ => kpt::small(),
    };
    for _ in 0..dice.below(4) {
        if table.is_empty() {
            return table;
        }
        let at = dice.below(table.len());
        match dice.below(5) {
            0 => table[at] ^= 1 << dice.below(32),
            1 => table[at] = table[at].wrapping_add(2048),
            2 => table.insert(at, table[at]),
            3 => drop(table.remove(at)),
            _ => table.push(table[table.len() - 1] + 2048 * dice.below(3) as u32),
        }
    }
    table
}

fn check(run: &mut Run, table: &[u32]) {
    let said = run.library.check_table(Table::Lent);
    let wanted = kpt::bad_table(table).map_or((0, 0), |place| (2, place));
    let input: Vec<u8> = table.iter().flat_map(|word| word.to_le_bytes()).collect();
    run.tally.note("check_table", said.number, &(said.number, said.answer), &wanted, &input);
    if !said.whole || run.library.table.get() != table {
        run.tally.spoiled("check_table", &input);
    }
}

fn read(run: &mut Run, file: &[u8], room: usize) {
    let mut row = vec![OLD; room];
    run.library.source.fill(file);
    run.library.table.fill(&row);
    let said = run.library.read_table();
    let wanted = match kpt::read(file, room) {
        Err((number, place)) => (number, (0, place)),
        Ok(table) => {
            row[..table.len()].copy_from_slice(&table);
            (0, (table.len(), 0))
        }
    };
    run.tally.note("read_table", said.number, &(said.number, said.answer), &wanted, file);
    if !said.whole || run.library.source.get() != file || run.library.table.get() != row {
        run.tally.spoiled("read_table", file);
    }
}
