//! The calls over a pool that two desks share, against a judge by document 02, C-12 and C-13. README.md of the oracle says what is tried.

mod judge;
#[allow(dead_code)]
#[path = "../library/memory.rs"]
mod memory;

use judge::State;
use koto_lexer::raw;
use memory::{Answers, Arena};
use std::collections::BTreeMap;
use std::process::exit;

const SHOWN_MOST: usize = 10;
/// Strings that come again and again, so that some are there
const STRINGS: [&[u8]; 14] = [
    b"",
    b"a",
    b"b",
    b"0",
    b"<",
    b"ab",
    b"abc",
    "\u{e9}".as_bytes(),
    "e\u{301}".as_bytes(),
    "\u{1F468}\u{200D}\u{1F469}".as_bytes(),
    b"long enough to be too long",
    b"a\xff",
    b"ab\xe2\x82",
    b"\xc3",
];
const FORMATS: [&[u8]; 20] = [
    b"",
    b"a<5",
    b"ab<",
    b"b>0",
    b"x^010",
    b"000",
    b"00",
    b"05",
    b".",
    b"5.",
    b".x",
    b"4294967296",
    b"<^>",
    "\u{e9}<5".as_bytes(),
    "e\u{301}<5".as_bytes(),
    "\u{1F468}\u{200D}\u{1F469}05".as_bytes(),
    b"a<00009.2e",
    b"a<0\xff",
    b"\xe2\x82",
    b"?a",
];
const EDITIONS: [u32; 5] = [1, 2, 2, 0, 3];

/// Xorshift, for what is random
struct Dice(u64);

impl Dice {
    fn below(&mut self, n: usize) -> usize {
        self.0 ^= self.0 << 13;
        self.0 ^= self.0 >> 7;
        self.0 ^= self.0 << 17;
        (self.0 % n as u64) as usize
    }
}

/// What is lent to a call, each row before a page that nobody may touch
struct Lent {
    bytes: Arena<u8>,
    entries: Arena<u32>,
    owners: Arena<u8>,
    counts: Arena<u32>,
    desks: Arena<u32>,
}

struct Run {
    lent: Lent,
    text: Arena<u8>,
    /// The marks of both desks, and the translation row
    marks: [Arena<u32>; 2],
    moved: Arena<u32>,
    table: Vec<u32>,
    lent_table: Arena<u32>,
    answers: BTreeMap<(&'static str, u32), u64>,
    calls: u64,
    differences: usize,
}

impl Lent {
    fn put(&mut self, state: &State) {
        self.bytes.fill(&state.bytes);
        self.entries.fill(state.entries.as_flattened());
        self.owners.fill(&state.owners);
        self.counts.fill(&state.counts);
        self.desks.fill(state.desks.as_flattened().as_flattened());
    }

    /// Is every word of it that of a state, and no byte before it touched?
    fn is(&self, state: &State) -> bool {
        self.bytes.get() == state.bytes
            && self.entries.get() == state.entries.as_flattened()
            && self.owners.get() == state.owners
            && self.counts.get() == state.counts
            && self.desks.get() == state.desks.as_flattened().as_flattened()
            && self.bytes.is_whole()
            && self.entries.is_whole()
            && self.owners.is_whole()
            && self.counts.is_whole()
            && self.desks.is_whole()
    }
}

impl Run {
    fn tell(&mut self, call: &'static str, number: u32, is_same: bool, what: impl Fn() -> String) {
        self.calls += 1;
        *self.answers.entry((call, number)).or_default() += 1;
        if !is_same {
            self.differences += 1;
            if self.differences <= SHOWN_MOST {
                println!("difference: {}", what());
            }
        }
    }

    /// An addition: the state is the judge's after it.
    fn add(&mut self, desk: u32, string: &[u8], state: &mut State) {
        let before = state.clone();
        self.lent.put(state);
        self.text.fill(string);
        let mut said = Answers::new();
        let lent = &mut self.lent;
        // SAFETY: each row stands in an arena, all but the string to be written, and the answer words are watched ones.
        let number = unsafe {
            raw::koto_desk_add_string_flat(
                desk,
                self.text.get().as_ptr(),
                string.len(),
                lent.bytes.get_mut().as_mut_ptr(),
                before.bytes.len(),
                lent.entries.get_mut().as_mut_ptr(),
                2 * before.entries.len(),
                lent.owners.get_mut().as_mut_ptr(),
                before.owners.len(),
                lent.counts.get_mut().as_mut_ptr().cast(),
                lent.desks.get_mut().as_mut_ptr().cast(),
                said.narrow(0),
                said.size(1),
            )
        };
        let wanted = judge::add_string(desk, string, state);
        let found = (number, said.as_narrow(0), said.as_size(1));
        let is_same = found == wanted && self.lent.is(state) && said.is_whole(&[0]);
        self.tell("add", number, is_same, || format!("add {desk} {string:?} to {before:?}: {found:?}, and not {wanted:?} with {state:?}"));
    }

    /// What a parse adds, in order, and how it ends, by `koto_parse` in an empty pool, which is compared with koto elsewhere
    fn alone(&self, format: &[u8], table: &[u32], edition: u32) -> (Vec<Vec<u8>>, u32, raw::Options, u64) {
        let (mut bytes, mut entries) = (vec![0; 256], [raw::Entry::default(); 16]);
        let (mut counts, mut options, mut value) = (raw::Counts::default(), raw::Options::default(), 0);
        // SAFETY: the rows are lent for the call, and each answer word is a local.
        let number = unsafe {
            raw::koto_parse(
                format.as_ptr(),
                format.len(),
                table.as_ptr(),
                table.len(),
                edition,
                bytes.as_mut_ptr(),
                bytes.len(),
                entries.as_mut_ptr(),
                entries.len(),
                &mut counts,
                &mut options,
                &mut value,
            )
        };
        let strings = entries[..counts.entries as usize].iter().map(|e| bytes[e.start as usize..][..e.len as usize].to_vec()).collect();
        (strings, number, options, value)
    }

    /// A parse: each of its strings is an addition for the desk, and the first without room ends it.
    fn parse(&mut self, desk: u32, format: &[u8], table: &[u32], edition: u32, state: &mut State) {
        let before = state.clone();
        let (strings, mut number, mut options, mut value) = self.alone(format, table, edition);
        let none = raw::Options { alignment: raw::NONE, width: raw::NONE, precision: raw::NONE, representation: raw::NONE, fill_place: raw::NONE, fill_len: raw::NONE, fill_index: raw::NONE };
        let is_early = matches!(number, 1 | 2 | 3 | 15 | 17);
        if !is_early && (desk > 1 || !state.is_fit()) {
            (number, options, value) = (8, none, 0);
        } else if !is_early {
            if !strings.iter().all(|string| state.put(desk as usize, string).is_some()) {
                (number, options, value) = (13, none, 0);
            }
            if options.fill_index != raw::NONE {
                let fill = &format[options.fill_place as usize..][..options.fill_len as usize];
                options.fill_index = state.put(desk as usize, fill).expect("the fill was added").into();
            }
        }
        self.lent.put(&before);
        self.text.fill(format);
        self.lent_table.fill(table);
        let (mut said_options, mut said) = (none, Answers::new());
        let lent = &mut self.lent;
        // SAFETY: as in `add`; the options are a local.
        let found = unsafe {
            raw::koto_desk_parse_flat(
                desk,
                self.text.get().as_ptr(),
                format.len(),
                self.lent_table.get().as_ptr(),
                table.len(),
                edition,
                lent.bytes.get_mut().as_mut_ptr(),
                before.bytes.len(),
                lent.entries.get_mut().as_mut_ptr(),
                2 * before.entries.len(),
                lent.owners.get_mut().as_mut_ptr(),
                before.owners.len(),
                lent.counts.get_mut().as_mut_ptr().cast(),
                lent.desks.get_mut().as_mut_ptr().cast(),
                &mut said_options,
                said.wide(0),
            )
        };
        let value_found = said.as_size(0) as u64;
        let is_same = (found, said_options, value_found) == (number, options, value) && self.lent.is(state) && said.is_whole(&[]);
        self.tell("parse", found, is_same, || {
            format!("parse {desk} {format:?} in {edition} over {before:?}: {found} {said_options:?} {value_found}, and not {number} {options:?} {value} with {state:?}")
        });
    }

    /// A compaction
    fn compact(&mut self, marks: [&[u32]; 2], room: usize, state: &mut State) {
        let before = state.clone();
        self.lent.put(state);
        for (arena, row) in self.marks.iter_mut().zip(marks) {
            arena.fill(row);
        }
        let mut moved: Vec<u32> = (0..room as u32).map(|i| 500 + i).collect();
        self.moved.fill(&moved);
        let lent = &mut self.lent;
        // SAFETY: as in `add`; marks are only read.
        let number = unsafe {
            raw::koto_compact_flat(
                self.marks[0].get().as_ptr(),
                marks[0].len(),
                self.marks[1].get().as_ptr(),
                marks[1].len(),
                lent.bytes.get_mut().as_mut_ptr(),
                before.bytes.len(),
                lent.entries.get_mut().as_mut_ptr(),
                2 * before.entries.len(),
                lent.owners.get_mut().as_mut_ptr(),
                before.owners.len(),
                lent.counts.get_mut().as_mut_ptr().cast(),
                lent.desks.get_mut().as_mut_ptr().cast(),
                self.moved.get_mut().as_mut_ptr(),
                room,
            )
        };
        let wanted = judge::compact(marks, state, &mut moved);
        let is_same = number == wanted && self.lent.is(state) && self.moved.get() == moved && self.moved.is_whole();
        self.tell("compact", number, is_same, || format!("compact {marks:?} of {before:?}: {number}, and not {wanted} with {state:?}, {moved:?}"));
    }

    /// Marks of a pool with so many entries: none, all, some in any order and some twice; now and then one that was never given
    fn some_marks(dice: &mut Dice, count: usize) -> Vec<u32> {
        let most = count + dice.below(10) / 9;
        match dice.below(4) {
            0 => vec![],
            1 => (0..count as u32).rev().collect(),
            _ if most == 0 => vec![],
            _ => (0..dice.below(count + 2)).map(|_| dice.below(most) as u32).collect(),
        }
    }

    /// A state that nobody has used: rows of some room, owners for it or more, guarantees that mostly fit
    fn fresh(dice: &mut Dice) -> State {
        let room = [dice.below(7), dice.below(24)];
        let mut desks = [[[0; 2]; 2]; 2];
        for kind in 0..2 {
            let most = room[kind] + dice.below(8) / 7;
            let first = dice.below(most + 1);
            let second = match dice.below(4) {
                0 => 0,
                1 => most - first,
                _ => dice.below(most - first + 1),
            };
            desks[0][0][kind] = first as u32;
            desks[1][0][kind] = second as u32;
        }
        let more = dice.below(4) / 3 * dice.below(3);
        State {
            bytes: (0..room[1]).map(|i| 200 + i as u8).collect(),
            entries: (0..room[0] as u32).map(|i| [900 + i, 700 + i]).collect(),
            owners: vec![77; room[0] + more],
            counts: [0; 2],
            desks,
        }
    }

    /// One number of a state made another one
    fn damage(dice: &mut Dice, state: &mut State) {
        let new = |dice: &mut Dice, old: u32| match dice.below(4) {
            0 => old.wrapping_add(1),
            1 => old.wrapping_sub(1),
            2 => u32::MAX,
            _ => dice.below(9) as u32,
        };
        match dice.below(6) {
            0 => {
                let i = dice.below(2);
                state.counts[i] = new(dice, state.counts[i]);
            }
            1 => {
                let (desk, what, kind) = (dice.below(2), dice.below(2), dice.below(2));
                state.desks[desk][what][kind] = new(dice, state.desks[desk][what][kind]);
            }
            2 if !state.entries.is_empty() => {
                let (i, j) = (dice.below(state.entries.len()), dice.below(2));
                state.entries[i][j] = new(dice, state.entries[i][j]);
            }
            3 if !state.owners.is_empty() => {
                let i = dice.below(state.owners.len());
                state.owners[i] = dice.below(4) as u8;
            }
            4 => {
                state.owners.pop();
            }
            _ => {
                // Charges that are exchanged still add up.
                let (one, two) = (state.desks[0][1], state.desks[1][1]);
                state.desks[0][1] = two;
                state.desks[1][1] = one;
            }
        }
    }

    /// A string: one that comes again, or a new one
    fn string(dice: &mut Dice) -> Vec<u8> {
        match dice.below(3) {
            0 => (0..dice.below(5)).map(|_| b"abcdefgh"[dice.below(8)]).collect(),
            _ => STRINGS[dice.below(STRINGS.len())].to_vec(),
        }
    }

    /// A sequence of both desks' calls over one pool, and now and then one over a damaged copy of it
    fn sequence(&mut self, dice: &mut Dice) {
        let mut state = Self::fresh(dice);
        for _ in 0..1 + dice.below(24) {
            let mut damaged = state.clone();
            let is_damaged = dice.below(8) == 0;
            if is_damaged {
                Self::damage(dice, &mut damaged);
            }
            let on = if is_damaged { &mut damaged } else { &mut state };
            let desk = if dice.below(40) == 0 { 2 + dice.below(3) as u32 * 2_000_000_000 } else { dice.below(2) as u32 };
            match dice.below(10) {
                0 => {
                    let count = on.counts[0].min(40) as usize;
                    let marks = [Self::some_marks(dice, count), Self::some_marks(dice, count)];
                    let room = if dice.below(8) == 0 { count.saturating_sub(1) } else { count + dice.below(3) };
                    self.compact([&marks[0], &marks[1]], room, on);
                }
                1..4 => {
                    let table = match dice.below(30) {
                        0 => vec![],
                        1 => self.table[1..].to_vec(),
                        _ => self.table.clone(),
                    };
                    self.parse(desk, FORMATS[dice.below(FORMATS.len())], &table, EDITIONS[dice.below(EDITIONS.len())], on);
                }
                _ => self.add(desk, &Self::string(dice), on),
            }
        }
    }
}

/// Document 01's small table
fn small_table() -> Vec<u32> {
    const RUNS: [(u32, u32); 22] = [
        (0, 48), (0xA, 32), (0xB, 48), (0xD, 16), (0xE, 48), (0x20, 4), (0x30, 6), (0x3A, 4), (0x41, 7), (0x5B, 4), (0x5F, 6), (0x60, 4),
        (0x61, 7), (0x7B, 4), (0x7F, 48), (0xA0, 4), (0xE9, 7), (0xEA, 4), (0x300, 1090), (0x370, 4), (0x4E00, 11), (0xA000, 4),
    ];
    RUNS.iter().map(|&(start, properties)| start * 2048 + properties).collect()
}

fn main() {
    let words: Vec<String> = std::env::args().skip(1).collect();
    let number = |i: usize, else_: u64| words.get(i).map_or(else_, |word| word.parse().expect("a number"));
    let (seed, count) = (number(0, 120), number(1, 100_000));
    let mut run = Run {
        lent: Lent { bytes: Arena::new(64), entries: Arena::new(64), owners: Arena::new(64), counts: Arena::new(2), desks: Arena::new(8) },
        text: Arena::new(65_600),
        marks: [Arena::new(64), Arena::new(64)],
        moved: Arena::new(64),
        table: small_table(),
        lent_table: Arena::new(64),
        answers: BTreeMap::new(),
        calls: 0,
        differences: 0,
    };
    let mut dice = Dice(seed ^ 0x9E37_79B9_7F4A_7C15);
    // What is too long is told before everything else.
    let mut state = Run::fresh(&mut dice);
    let table = run.table.clone();
    run.parse(0, &vec![b'a'; 65_536], &table, 2, &mut state);
    run.parse(5, &vec![b'a'; 65_536], &[], 9, &mut state);
    for _ in 0..count {
        run.sequence(&mut dice);
    }
    for ((call, number), times) in &run.answers {
        println!("{call} answered {number}: {times}");
    }
    let wanted: [(&str, &[u32]); 3] = [("compact", &[0, 8, 20]), ("add", &[0, 3, 8, 13, 15]), ("parse", &[0, 1, 2, 3, 8, 10, 11, 12, 13, 15, 17])];
    for (call, numbers) in wanted {
        for number in numbers {
            if !run.answers.contains_key(&(call, *number)) {
                println!("{call} never answered {number}");
                run.differences += 1;
            }
        }
    }
    println!("{} calls, {} differences", run.calls, run.differences);
    exit(if run.differences == 0 { 0 } else { 1 })
}
