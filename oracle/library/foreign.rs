//! Lists that another lexer may have made, right and wrong, against document 02's C-9 over koto's own records.

use crate::Run;
use crate::calls::SOURCE_MOST;
use crate::hosts::Host;
use crate::rich::Dice;
use crate::scans::put;
use answers::Status;

/// A list as somebody hands it over
struct Foreign {
    list: Vec<u32>,
    count: usize,
    status: u32,
}

/// What is wanted of a check: its number, and then same, differs and place
type Answer = (u32, (u32, usize, usize));

/// A list for a source, mostly its own with something changed, checked as one host has it
pub fn one(run: &mut Run, dice: &mut Dice, source: &[u8], host: &Host) {
    let text = host.text(run, source, SOURCE_MOST);
    // Every source has room for its records here, so that koto's scan is refused by 5 alone.
    let scan = text.ok().map(|text| (host.judge.scan)(text, source.len() + source.len() / 3 + 1));
    let mut ours = vec![0; 8 * scan.as_ref().map_or(0, |scan| scan.records.len())];
    put(&mut ours, scan.as_ref().map_or(&[], |scan| &scan.records));
    let (status, deep) = match scan.as_ref().map(|scan| (&scan.status, scan.place)) {
        None | Some((Status::End, _)) => (0, None),
        Some((Status::Stuck, _)) => (1, None),
        Some((Status::Refused(_), place)) => (dice.below(3) as u32, Some(place)),
    };
    let foreign = changed(dice, Foreign { count: ours.len() / 8, list: ours.clone(), status });
    let (kind, wanted) = match text {
        Err((number, place)) => ("refused before the work", (number, (0, 0, place))),
        Ok(_) => judged(&ours, status, deep, &foreign),
    };
    run.tally.count("lists", kind);
    run.library.list.fill(&foreign.list);
    let said = run.library.check_list(host.table, host.edition, foreign.count, foreign.status);
    run.tally.note("check_list", said.number, &(said.number, said.answer), &wanted, source);
    if !said.whole || run.library.source.get() != source || run.library.list.get() != foreign.list {
        run.tally.spoiled("check_list", source);
    }
}

/// Changes a list as its maker may have: in one word or two, in its length, its count or its status, or not at all.
fn changed(dice: &mut Dice, mut foreign: Foreign) -> Foreign {
    match dice.below(9) {
        0 => {}
        1 => foreign.status = [0, 1, 2, 3, 1 << 31, u32::MAX][dice.below(6)],
        // A shorter count, with the other records still there or not
        2 => foreign.count = dice.below(foreign.count + 1),
        3 => {
            foreign.count = dice.below(foreign.count + 1);
            foreign.list.truncate(8 * foreign.count);
        }
        // More records: zeros, or the last ones again
        4 => {
            let from = foreign.list.len().saturating_sub(8 * dice.below(3));
            foreign.list.extend_from_within(from..);
            foreign.list.resize(foreign.list.len() + 8 * dice.below(3), 0);
            foreign.count = foreign.list.len() / 8;
        }
        // A count without room, by one word or by far
        5 => {
            foreign.list.truncate((8 * foreign.count).saturating_sub(dice.below(2)));
            foreign.count = [foreign.count + 1, usize::MAX, 1 << 61, foreign.count][dice.below(4)];
        }
        // Words behind the records, which are nobody's
        6 => foreign.list.resize(foreign.list.len() + dice.below(17), 7),
        n => {
            for _ in 0..n - 6 {
                change_word(dice, &mut foreign.list);
            }
        }
    }
    foreign
}

fn change_word(dice: &mut Dice, list: &mut [u32]) {
    if !list.is_empty() {
        // The first and the last record are tried often, and each field of a record as often as another.
        let record = [0, list.len() / 8 - 1, dice.below(list.len() / 8)][dice.below(3)];
        let word = &mut list[8 * record + dice.below(8)];
        *word = [word.wrapping_add(1), *word ^ 1 << dice.below(32), 0, u32::MAX, dice.below(100) as u32][dice.below(5)];
    }
}

/// Document 02's C-9, word by word over both lists: `ours` has koto's records, and `deep` is the place where it would push a 65th mode.
fn judged(ours: &[u32], status: u32, deep: Option<usize>, foreign: &Foreign) -> (&'static str, Answer) {
    let Some(theirs) = foreign.count.checked_mul(8).and_then(|len| foreign.list.get(..len)) else {
        return ("shorter than their count", (8, (0, 0, 0)));
    };
    let first = ours.iter().zip(theirs).position(|(our, their)| our != their);
    if let Some(place) = deep {
        let kind = if first.is_some() { "5 after a difference" } else { "5 and no difference before it" };
        return (kind, (5, (0, 0, place)));
    }
    let least = ours.len().min(theirs.len());
    let kind = match first {
        Some(_) => "with a record that differs",
        None if ours.len() != theirs.len() => "of another length alone",
        None if status != foreign.status => "with another status alone",
        None => return ("the source's own", (0, (1, 0, 0))),
    };
    (kind, (0, (0, first.unwrap_or(least) / 8, 0)))
}
