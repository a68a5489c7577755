//! `koto_pad` against a judge by document 02, C-11, over the real unicode-segmentation. README.md of the oracle says what is tried.

#[path = "../library/damage.rs"]
mod damage;
mod judge;
#[allow(dead_code)]
#[path = "../src/kpt.rs"]
mod kpt;
#[allow(dead_code)]
#[path = "../library/memory.rs"]
mod memory;
#[allow(dead_code)]
#[path = "../src/rich.rs"]
mod rich;
mod store;

use damage::damaged;
use judge::{Asked, NONE, TEXT_MOST};
use koto_lexer::raw;
use memory::{Answers, Arena};
use rich::{Dice, Kinds};
use std::collections::BTreeMap;
use std::process::exit;
use unicode_segmentation::UnicodeSegmentation;

const WANTED: [u32; 8] = [0, 1, 2, 3, 15, 17, 18, 19];
/// No buffer that is lent is longer.
const ROOM_MOST: usize = 1 << 18;
const SHOWN_MOST: usize = 10;
/// Texts that one can count by hand, and fills
const TEXTS: [&str; 7] =
    ["", "abc", "e\u{301}", "\u{1F1E9}\u{1F1EA}\u{1F1E9}", "\u{915}\u{94D}\u{937}", "\r\n", "\u{301}"];
const FILLS: [&str; 6] = ["-", "\u{B7}", "\u{301}", "\u{1F468}\u{200D}\u{1F469}", "\r\n", "\u{1F1E9}"];

struct Run {
    kinds: Kinds,
    table: Vec<u32>,
    /// What is lent: the text, the fill, the table and the buffer
    text: Arena<u8>,
    fill: Arena<u8>,
    lent_table: Arena<u32>,
    buffer: Arena<u8>,
    answers: BTreeMap<u32, u64>,
    differences: usize,
}

fn main() {
    let words: Vec<String> = std::env::args().skip(1).collect();
    if words.first().is_some_and(|word| word == "--store") {
        store::print_all(&Kinds::of(&kpt::full()));
        return;
    }
    let number = |i: usize, else_: u64| words.get(i).map_or(else_, |word| word.parse().expect("a number"));
    let (seed, count) = (number(0, 110), number(1, 1_000_000) as usize);
    let table = kpt::full();
    judge::assert_consonants(&table);
    let mut run = Run {
        kinds: Kinds::of(&table),
        text: Arena::new(TEXT_MOST + 64),
        fill: Arena::new(TEXT_MOST + 64),
        lent_table: Arena::new(8064),
        buffer: Arena::new(ROOM_MOST),
        table,
        answers: BTreeMap::new(),
        differences: 0,
    };
    run.examples();
    run.short_ones();
    run.limits();
    let mut dice = Dice::new(seed);
    for _ in 0..count {
        run.random(&mut dice);
    }
    exit(if run.report() { 0 } else { 1 })
}

/// A call with the full table, edition 2, no width, and no fill
fn plain(text: &[u8]) -> Asked<'_> {
    Asked { text, alignment: 0, width: NONE, filled: 0, fill: b"", table: judge::Table::Full, edition: 2 }
}

impl Run {
    /// Calls, with a buffer of so many bytes, and compares the number, both words and every byte of the buffer.
    fn ask(&mut self, asked: &Asked, room: usize) {
        let row: Vec<u32> = match asked.table {
            judge::Table::Full => self.table.clone(),
            judge::Table::Empty => vec![],
            judge::Table::Long => vec![0; 8001],
            judge::Table::Falls => {
                let mut row = self.table.clone();
                row[7] = row[6];
                row
            }
        };
        self.text.fill(asked.text);
        self.fill.fill(asked.fill);
        self.lent_table.fill(&row);
        let before: Vec<u8> = (0..room).map(|i| (i * 7 + 3) as u8).collect();
        self.buffer.fill(&before);
        let mut said = Answers::new();
        // SAFETY: each slice stands in an arena, the buffer is lent to be written, and the answer words are watched ones.
        let number = unsafe {
            raw::koto_pad(
                self.text.get().as_ptr(),
                asked.text.len(),
                asked.alignment,
                asked.width,
                asked.filled,
                self.fill.get().as_ptr(),
                asked.fill.len(),
                self.lent_table.get().as_ptr(),
                row.len(),
                asked.edition,
                self.buffer.get_mut().as_mut_ptr(),
                room,
                said.size(0),
                said.size(1),
            )
        };
        *self.answers.entry(number).or_default() += 1;
        let (wanted, place, result) = judge::answer(asked, room);
        let mut after = before;
        after[..result.len()].copy_from_slice(&result);
        let kept = self.text.get() == asked.text && self.fill.get() == asked.fill && self.lent_table.get() == row;
        let whole =
            self.text.is_whole() && self.fill.is_whole() && self.lent_table.is_whole() && self.buffer.is_whole();
        let words = (number, said.as_size(0), said.as_size(1));
        if words == (wanted, result.len(), place) && self.buffer.get() == after && kept && whole && said.is_whole(&[]) {
            return;
        }
        self.differences += 1;
        if self.differences <= SHOWN_MOST {
            println!("differs on {:.600}, room {room}", format!("{asked:?}"));
            println!("    library {words:?}, wanted {:?}, kept {kept}, whole {whole}", (wanted, result.len(), place));
        }
    }

    /// With a buffer that has just room, one that has a byte too few, one that has more, and none
    fn ask_rooms(&mut self, asked: &Asked, more: usize) {
        let needed = judge::needed(asked).filter(|&n| n + more as u128 <= ROOM_MOST as u128 - 512).map(|n| n as usize);
        let Some(needed) = needed else {
            self.ask(asked, more);
            return;
        };
        self.ask(asked, needed);
        self.ask(asked, needed + more);
        self.ask(asked, needed.saturating_sub(1));
        self.ask(asked, 0);
    }

    /// Each alignment and some widths of texts that one can count by hand
    fn examples(&mut self) {
        for text in TEXTS {
            for fill in FILLS {
                for (alignment, width) in (0..4).flat_map(|a| (0..9).chain([NONE]).map(move |w| (a, w))) {
                    for edition in [1, 2] {
                        let given = Asked {
                            alignment,
                            width,
                            filled: 1,
                            fill: fill.as_bytes(),
                            edition,
                            ..plain(text.as_bytes())
                        };
                        self.ask_rooms(&given, 5);
                        self.ask_rooms(&Asked { filled: 0, ..given }, 5);
                    }
                }
            }
        }
    }

    /// Every text and fill of up to two and three pieces that meet at a joint
    fn short_ones(&mut self) {
        let pieces = [
            "a",
            "\u{301}",
            "\u{200D}",
            "\u{1F468}",
            "\u{1F1E9}",
            "\u{915}",
            "\u{94D}",
            "\r",
            "\n",
            "\u{1100}",
            "\u{1161}",
            "\u{600}",
        ];
        let mut texts = vec![String::new()];
        for from in 0..157 {
            for piece in pieces {
                texts.push(texts[from].clone() + piece);
            }
        }
        for text in &texts {
            for fill in &texts[..157] {
                for edition in [1, 2] {
                    let asked = Asked {
                        alignment: 2,
                        width: 4,
                        filled: 1,
                        fill: fill.as_bytes(),
                        edition,
                        ..plain(text.as_bytes())
                    };
                    self.ask(&asked, 100);
                }
            }
        }
    }

    /// Texts and fills of 65,534 to 65,536 bytes, widths around 32 bits and above, alignments and editions that are none, unfit tables
    fn limits(&mut self) {
        for len in TEXT_MOST - 1..=TEXT_MOST + 1 {
            let (long, cut) = (vec![b'x'; len], [vec![b'x'; len - 2], vec![0xE2, 0x82]].concat());
            let mut marks = vec![b'e'];
            marks.extend("\u{301}".repeat(len / 2).into_bytes());
            marks.truncate(len);
            for text in [&long, &cut, &marks] {
                for width in [0, 1, 2, len as u64 - 1, len as u64, len as u64 + 3, NONE] {
                    for (filled, fill) in [(0, &b"\xFF"[..]), (1, b"-"), (1, "\u{1F468}\u{200D}\u{1F469}".as_bytes())] {
                        self.ask_rooms(&Asked { width, filled, fill, ..plain(text) }, 9);
                    }
                }
                // The same as a fill, given and not.
                for (filled, width, edition) in [(0, 3, 2), (1, 0, 2), (1, 2, 1), (1, NONE, 2), (1, NONE, 3)] {
                    self.ask_rooms(&Asked { width, filled, fill: text, edition, ..plain(b"ab") }, 9);
                }
            }
        }
        let widths = [4_294_967_294, 4_294_967_295, 4_294_967_296, 4_294_967_297, 1 << 40, NONE - 1, NONE];
        for (alignment, width) in
            [0, 1, 2, 3, 4, 5, 1 << 32, (1 << 32) + 1, NONE].into_iter().flat_map(|a| widths.map(|w| (a, w)))
        {
            for (filled, fill) in [(0, &b""[..]), (1, b"-"), (1, b""), (1, b"ab"), (1 << 31, b"\xE2\x82"), (2, b"\xFF")]
            {
                for edition in [0, 1, 2, 3, u32::MAX] {
                    for table in [judge::Table::Full, judge::Table::Empty, judge::Table::Long, judge::Table::Falls] {
                        for text in [&b"abc"[..], b"ab\xE2", b"a\xFF"] {
                            let asked = Asked { text, alignment, width, filled, fill, table, edition };
                            self.ask_rooms(&asked, 7);
                        }
                    }
                }
            }
        }
    }

    fn random(&mut self, dice: &mut Dice) {
        let mut text = self.kinds.text(dice, 200);
        for _ in 0..dice.below(3) {
            text += &self.kinds.text(dice, 200);
        }
        let other = self.kinds.text(dice, 60);
        let fill = match dice.below(4) {
            0 => other.as_str(),
            1 => "",
            _ => other.graphemes(true).nth(dice.below(3)).unwrap_or(" "),
        };
        let text = if dice.below(12) == 0 { damaged(dice, text.as_bytes()) } else { text.clone().into_bytes() };
        let fill = if dice.below(20) == 0 { damaged(dice, fill.as_bytes()) } else { fill.as_bytes().to_vec() };
        let clusters = std::str::from_utf8(&text).map_or(9, |text| text.graphemes(true).count()) as u64;
        let width = match dice.below(8) {
            0 => NONE,
            1 => dice.below(8) as u64,
            2 => clusters,
            3 => clusters.saturating_sub(1),
            4 => clusters + 1,
            5 if dice.below(20) == 0 => (1 << 32) - 2 + dice.below(4) as u64,
            _ => clusters + dice.below(40) as u64,
        };
        let alignment = if dice.below(50) == 0 { dice.below(9) as u64 } else { dice.below(4) as u64 };
        let edition = if dice.below(50) == 0 { dice.below(5) as u32 } else { 1 + dice.below(2) as u32 };
        let filled = dice.below(3) as u32;
        let asked = Asked { alignment, width, filled, fill: &fill, edition, ..plain(&text) };
        let more = dice.below(20);
        let room = match judge::needed(&asked) {
            Some(needed) if needed < ROOM_MOST as u128 - 512 => match dice.below(5) {
                0 => (needed as usize).saturating_sub(1 + more),
                1 => needed as usize,
                _ => needed as usize + more,
            },
            _ => more,
        };
        self.ask(&asked, room);
    }

    fn report(&self) -> bool {
        let shown = WANTED.map(|number| format!("{number}: {}", self.answers.get(&number).copied().unwrap_or(0)));
        println!("koto_pad: {}", shown.join(", "));
        let fine = self.differences == 0 && WANTED.iter().all(|number| self.answers.contains_key(number));
        let calls: u64 = self.answers.values().sum();
        println!("{calls} calls, {}", if fine { "no difference" } else { "DIFFERENT" });
        fine
    }
}
