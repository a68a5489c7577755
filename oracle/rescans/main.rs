//! `koto_rescan` against `koto_scan` and koto's lexer after every edit of long sessions, and against a judge by document 02 over old lists of every
//! kind. README.md of the oracle says what is tried.

mod calls {
    pub use crate::judge::SOURCE_MOST;
}
#[path = "../library/damage.rs"]
mod damage;
mod edits;
mod judge;
#[allow(dead_code)]
#[path = "../src/kpt.rs"]
mod kpt;
#[allow(dead_code)]
#[path = "../library/memory.rs"]
mod memory;
#[allow(dead_code)]
#[path = "../src/rich.rs"]
mod rich;
#[allow(dead_code)]
#[path = "../library/scripts.rs"]
mod scripts;

use answers::Judge;
use damage::damaged;
use judge::{Asked, SOURCE_MOST, Wanted};
use koto_lexer::raw;
use memory::{Answers, Arena};
use rich::Dice;
use std::collections::BTreeMap;
use std::process::exit;

const WANTED: [u32; 10] = [0, 1, 2, 3, 4, 5, 8, 15, 16, 17];
const SHOWN_MOST: usize = 10;
/// What stands in a list before a call
const BEFORE: u32 = 0xDEAD_BEEF;
const SOURCE_ROOM: usize = SOURCE_MOST + 64;
const LIST_ROOM: usize = 8 * (SOURCE_ROOM + SOURCE_ROOM / 3) + 64;
/// A session's script gets new lines below so many bytes, and loses some above.
const SESSION_MOST: usize = 6000;
const SESSION_EDITS: usize = 5000;

struct Run {
    table: Vec<u32>,
    /// What is lent
    old: Arena<u8>,
    old_list: Arena<u32>,
    source: Arena<u8>,
    lent_table: Arena<u32>,
    list: Arena<u32>,
    answers: BTreeMap<u32, u64>,
    /// How many calls kept a record, how many of them after an edit of a session, and how many kept records there were
    keeping: u64,
    in_sessions: u64,
    kept: u64,
    edits: u64,
    differences: usize,
}

fn judge_of(edition: u32) -> &'static Judge {
    if edition == 1 { &koto_left_out::JUDGE } else { &koto_real::JUDGE }
}

fn room_for(source: &[u8]) -> usize {
    source.len() + source.len() / 3
}

fn main() {
    let words: Vec<String> = std::env::args().skip(1).collect();
    let number = |i: usize, else_: u64| words.get(i).map_or(else_, |word| word.parse().expect("a number"));
    let (seed, count) = (number(0, 230), number(1, 1_000_000) as usize);
    let mut run = Run {
        table: kpt::full(),
        old: Arena::new(SOURCE_ROOM),
        old_list: Arena::new(LIST_ROOM),
        source: Arena::new(SOURCE_ROOM),
        lent_table: Arena::new(8064),
        list: Arena::new(LIST_ROOM),
        answers: BTreeMap::new(),
        keeping: 0,
        in_sessions: 0,
        kept: 0,
        edits: 0,
        differences: 0,
    };
    let mut dice = Dice::new(seed);
    run.limits(&mut dice);
    while run.edits < count as u64 / 20 {
        run.session(&mut dice);
    }
    for _ in 0..count {
        run.random(&mut dice);
    }
    exit(if run.report() { 0 } else { 1 })
}

impl Run {
    /// The library's own scan of a source: the number, status, count and byte, and the list
    fn scan(&mut self, source: &[u8], edition: u32, room: usize) -> ((u32, (u32, usize, usize)), Vec<u32>) {
        self.source.fill(source);
        self.list.fill(&vec![BEFORE; 8 * room]);
        self.lent_table.fill(&self.table);
        let mut said = Answers::new();
        // SAFETY: each slice stands in an arena, the list is lent to be written, and the answer words are watched ones.
        let number = unsafe {
            raw::koto_scan(
                self.source.get().as_ptr(),
                source.len(),
                self.lent_table.get().as_ptr(),
                self.table.len(),
                edition,
                self.list.get_mut().as_mut_ptr(),
                8 * room,
                said.narrow(0),
                said.size(1),
                said.size(2),
            )
        };
        ((number, (said.as_narrow(0), said.as_size(1), said.as_size(2))), self.list.get().to_vec())
    }

    /// Calls with a second list of so many words, and compares all that it answers and leaves.
    fn ask(&mut self, asked: &Asked, len: usize, wanted: &Wanted) {
        let row = if asked.fit { self.table.clone() } else { vec![] };
        self.old.fill(&asked.old);
        self.old_list.fill(&asked.list);
        self.source.fill(&asked.source);
        self.lent_table.fill(&row);
        let mut after = vec![BEFORE; len];
        self.list.fill(&after);
        let mut said = Answers::new();
        // SAFETY: as in `scan`
        let number = unsafe {
            raw::koto_rescan(
                self.old.get().as_ptr(),
                asked.old.len(),
                self.old_list.get().as_ptr(),
                asked.list.len(),
                asked.count,
                asked.place,
                asked.removed,
                asked.put_in,
                self.source.get().as_ptr(),
                asked.source.len(),
                self.lent_table.get().as_ptr(),
                row.len(),
                asked.edition,
                self.list.get_mut().as_mut_ptr(),
                len,
                said.narrow(0),
                said.size(1),
                said.size(2),
            )
        };
        *self.answers.entry(number).or_default() += 1;
        after[..wanted.words.len()].copy_from_slice(&wanted.words);
        let kept = self.old.get() == asked.old
            && self.old_list.get() == asked.list
            && self.source.get() == asked.source
            && self.lent_table.get() == row;
        let whole = self.old.is_whole()
            && self.old_list.is_whole()
            && self.source.is_whole()
            && self.lent_table.is_whole()
            && self.list.is_whole()
            && said.is_whole(&[0]);
        let got = (number, (said.as_narrow(0), said.as_size(1), said.as_size(2)));
        if got == wanted.said && self.list.get() == after && kept && whole {
            return;
        }
        self.differences += 1;
        if self.differences <= SHOWN_MOST {
            let words = if self.list.get() == after { "the words" } else { "other words" };
            println!("differs on {:.900}, room {len}", format!("{asked:?}"));
            println!("    library {got:?}, wanted {:?}, {words}, kept {kept}, whole {whole}", wanted.said);
        }
    }

    /// By the judge; how many records it keeps is counted
    fn by_judge(&mut self, asked: &Asked, len: usize) {
        let edition = if asked.edition == 1 { 1 } else { 2 };
        let wanted = judge::answer(asked, judge_of(edition), len / 8);
        if !matches!(wanted.said.0, 1 | 2 | 3 | 8 | 15 | 16 | 17) {
            let kept = judge::kept(asked) as u64;
            self.keeping += u64::from(kept > 0);
            self.kept += kept;
        }
        self.ask(asked, len, &wanted);
    }

    /// An editor's session: thousands of edits in a row, each list made from the one before, against a fresh scan and against koto.
    fn session(&mut self, dice: &mut Dice) {
        let edition = 1 + dice.below(2) as u32;
        let mut text = edits::script(dice, 150);
        let room = room_for(&text);
        let (first, mut list) = self.scan(&text, edition, room);
        let mut count = first.1.1;
        // What undoes the last edits, newest last: what is typed amiss is put right again after some edits, and what stays are whole lines.
        let mut undo: Vec<edits::Edit> = vec![];
        for _ in 0..SESSION_EDITS {
            let edit = if undo.len() > dice.below(5) {
                undo.pop().expect("an edit to undo")
            } else if undo.is_empty() && dice.below(4) == 0 {
                edits::lines(dice, &text, text.len() < SESSION_MOST)
            } else {
                let edit = edits::typed(dice, &text);
                undo.push((edit.0, edit.2.len(), text[edit.0..edit.0 + edit.1].to_vec()));
                edit
            };
            let source = edits::made(&text, &edit);
            let room = room_for(&source);
            let (fresh, words) = self.scan(&source, edition, room);
            let asked = Asked {
                old: text,
                list,
                count,
                place: edit.0,
                removed: edit.1,
                put_in: edit.2.len(),
                source,
                edition,
                fit: true,
            };
            let wanted = Wanted { said: fresh, words: words[..8 * fresh.1.1].to_vec() };
            self.ask(&asked, 8 * room, &wanted);
            self.in_sessions += u64::from(judge::kept(&asked) > 0);
            self.by_judge(&asked, 8 * room);
            // koto's own list of the whole new source, with nothing kept
            let whole = judge::answer(&Asked { count: 0, ..asked.clone() }, judge_of(edition), room);
            if whole.said != fresh || whole.words != wanted.words {
                self.differences += 1;
                println!("koto's lexer has another list after an edit of a session");
            }
            self.edits += 1;
            (text, list, count) = (asked.source, words, fresh.1.1);
        }
    }

    /// One call: two sources by an edit, and an old list that is the old source's, short of room, another's, or damaged
    fn random(&mut self, dice: &mut Dice) {
        let edition = if dice.below(50) == 0 { [0, 3, u32::MAX][dice.below(3)] } else { 1 + dice.below(2) as u32 };
        let mut old = scripts::script(dice);
        if dice.below(8) == 0 {
            old = damaged(dice, &old);
        }
        let text = String::from_utf8(old.clone()).is_ok();
        let edit = if text { edits::typed(dice, &old) } else { (dice.below(old.len() + 1), 0, b"x".to_vec()) };
        let mut source = edits::made(&old, &edit);
        if dice.below(12) == 0 {
            source = damaged(dice, &source);
        }
        let mut room = room_for(&old);
        if dice.below(6) == 0 {
            room = dice.below(room + 1);
        }
        let from = if dice.below(8) == 0 { scripts::script(dice) } else { old.clone() };
        let (said, mut list) = self.scan(&from, 1 + dice.below(2) as u32, room);
        let mut count = said.1.1;
        match dice.below(12) {
            0 => count = dice.below(count + 3),
            1 => list.truncate(dice.below(list.len() + 1)),
            2 => list = (0..dice.below(80)).map(|_| dice.below(5) as u32).collect(),
            3..=6 if count > 0 => spoil(dice, &mut list, count),
            _ => (),
        }
        let mut asked = Asked {
            old,
            list,
            count,
            place: edit.0,
            removed: edit.1,
            put_in: edit.2.len(),
            source,
            edition,
            fit: dice.below(60) > 0,
        };
        if dice.below(20) == 0 {
            let number = [&mut asked.place, &mut asked.removed, &mut asked.put_in];
            for n in number {
                *n = match dice.below(6) {
                    0 => n.wrapping_sub(1),
                    1 => n.wrapping_add(1),
                    2 => usize::MAX - dice.below(3),
                    _ => *n,
                };
            }
        }
        let most = room_for(&asked.source);
        let len = match dice.below(6) {
            0 => dice.below(8 * most + 9),
            1 => 8 * most + dice.below(8),
            _ => 8 * most,
        };
        self.by_judge(&asked, len);
    }

    /// Sources at the limits: of 1 MiB and a byte more, edited first, in the middle and last; the most modes; lines of nothing
    fn limits(&mut self, dice: &mut Dice) {
        let mut long = vec![];
        while long.len() < SOURCE_MOST - 2000 {
            long.extend(scripts::script(dice));
        }
        let newlines = vec![b'\n'; SOURCE_MOST - 1];
        let deep = [b"x\n".as_slice(), &b"'{".repeat(32), b"'\n", b"y\n"].concat();
        for old in [long, newlines, deep, b"\n".to_vec(), b"\r\n".to_vec(), vec![]] {
            let (said, list) = self.scan(&old, 2, room_for(&old));
            for place in [0, old.len() / 2, old.len().saturating_sub(1), old.len()] {
                let place = (0..=place).rev().find(|&at| old.get(at).is_none_or(|byte| byte & 0xC0 != 0x80)).unwrap_or(0);
                for put_in in ["", "z", "\n", "#-", "'"] {
                    let source = edits::made(&old, &(place, 0, put_in.into()));
                    let len = 8 * room_for(&source);
                    let asked = Asked {
                        old: old.clone(),
                        list: list.clone(),
                        count: said.1.1,
                        place,
                        removed: 0,
                        put_in: put_in.len(),
                        source,
                        edition: 2,
                        fit: true,
                    };
                    self.by_judge(&asked, len);
                    self.by_judge(&asked, len / 2);
                }
            }
        }
        let asked = Asked {
            old: vec![b'a'; SOURCE_MOST],
            list: vec![],
            count: 0,
            place: 0,
            removed: 0,
            put_in: 1,
            source: vec![b'a'; SOURCE_MOST + 1],
            edition: 3,
            fit: false,
        };
        self.by_judge(&asked, 8);
    }

    /// Prints the counts. Were all answers given, and all as wanted?
    fn report(&self) -> bool {
        let mut fine = self.differences == 0;
        let shown = WANTED.iter().map(|number| {
            let count = self.answers.get(number).copied().unwrap_or(0);
            fine &= count > 0;
            format!("{number}: {count}")
        });
        println!("koto_rescan: {}", shown.collect::<Vec<_>>().join(", "));
        let calls: u64 = self.answers.values().sum();
        println!("{} edits in sessions, of which {} kept records", self.edits, self.in_sessions);
        println!("{} calls kept records, {} in all", self.keeping, self.kept);
        println!("{calls} calls, {}", if fine { "no difference" } else { "DIFFERENT" });
        fine
    }
}

/// Changes some numbers of a list: mostly one of a record's eight by a little, or a record's span as a whole
fn spoil(dice: &mut Dice, list: &mut [u32], count: usize) {
    for _ in 0..=dice.below(2) {
        let record = dice.below(count);
        let word = 8 * record + dice.below(8);
        match dice.below(6) {
            0 => list[word] = dice.below(1 << 31) as u32 * 2 + 1,
            1 => list[word] = list[word].wrapping_sub(1),
            2 => list[word] |= 1 << (20 + dice.below(12)),
            // A chain that goes on: this end, and the next one's start
            3 if record + 1 < count => {
                let end = [2, 5, 6][dice.below(3)];
                let by = dice.below(3) as u32;
                list[8 * record + end] = list[8 * record + end].wrapping_add(by);
                let start = [0, 0, 1, 0, 0, 3, 4][end];
                list[8 * record + 8 + start] = list[8 * record + end];
            }
            4 => list[8 * record] = [2, 2 + 128, 2 + (1 << 20), 2 + (1 << 28), 80, 200][dice.below(6)],
            _ => list[word] = list[word].wrapping_add(1),
        }
    }
}
