//! `koto_write_format` against koto's own parser. README.md of the oracle says what is tried.

#[path = "../library/damage.rs"]
mod damage;
mod judge;
#[allow(dead_code)]
#[path = "../src/kpt.rs"]
mod kpt;
#[allow(dead_code)]
#[path = "../library/memory.rs"]
mod memory;
#[allow(dead_code)]
#[path = "../src/rich.rs"]
mod rich;
mod store;

use damage::damaged;
use judge::{FORMAT_MOST, HOSTS, Host, NEWER, NONE, Options};
use koto_lexer::raw;
use memory::{Answers, Arena};
use rich::{Dice, Kinds};
use std::collections::{BTreeMap, HashMap};
use std::process::exit;
use unicode_segmentation::UnicodeSegmentation;

const WANTED: [u32; 5] = [0, 2, 17, 18, 19];
const SHOWN_MOST: usize = 10;
/// What decides: a zero and another digit, what the arms take, a character that takes no place of its own, one that joins what follows, a
/// letter of two bytes, and a conjunct's two
const LETTERS: [&str; 14] =
    ["0", "5", ".", "<", "^", ">", "_", "e", "?", "\u{301}", "\u{600}", "\u{E9}", "\u{915}", "\u{94D}"];
/// All strings of up to so many of them
const LETTERS_MOST: usize = 6;
/// Fills that are no text, no cluster, or two
const ODD_FILLS: [&[u8]; 8] = [b"", b"ab", b"\xFF", b"\xE2\x82", b"a\xCC", b"00", b"\r\n", b"\n\r"];

struct Run {
    kinds: Kinds,
    /// The table of each host
    tables: [Vec<u32>; 3],
    /// What is lent: the fill, the table and the buffer
    fill: Arena<u8>,
    table: Arena<u32>,
    buffer: Arena<u8>,
    answers: BTreeMap<u32, u64>,
    differences: usize,
}

/// What else is lent: `filled`, which table and which edition
struct Terms<'a> {
    filled: u32,
    /// A fill that is lent and not given
    spare: &'a [u8],
    table: &'a [u32],
    edition: u32,
}

fn main() {
    let words: Vec<String> = std::env::args().skip(1).collect();
    if words.first().is_some_and(|word| word == "--store") {
        store::print_all(&Kinds::of(&kpt::full()));
        return;
    }
    let number = |i: usize, else_: u64| words.get(i).map_or(else_, |word| word.parse().expect("a number"));
    let (seed, count) = (number(0, 100), number(1, 1_000_000) as usize);
    let mut run = Run {
        kinds: Kinds::of(&kpt::full()),
        tables: HOSTS.map(|host| (host.table)()),
        fill: Arena::new(FORMAT_MOST + 64),
        table: Arena::new(8064),
        buffer: Arena::new(2 * FORMAT_MOST),
        answers: BTreeMap::new(),
        differences: 0,
    };
    for host in HOSTS {
        run.short_ones(&host);
    }
    run.limits();
    let mut dice = Dice::new(seed);
    for _ in 0..count {
        run.random(&mut dice);
    }
    exit(if run.report() { 0 } else { 1 })
}

impl Run {
    /// Calls, with a buffer of so many bytes, and compares the number, both words and every byte of the buffer.
    fn call(&mut self, options: &Options, terms: &Terms, room: usize, wanted: (u32, usize, &[u8])) {
        let fill = options.fill.as_deref().unwrap_or(terms.spare);
        self.fill.fill(fill);
        self.table.fill(terms.table);
        let before: Vec<u8> = (0..room).map(|i| (i * 7 + 3) as u8).collect();
        self.buffer.fill(&before);
        let mut said = Answers::new();
        // SAFETY: each slice stands in an arena, the buffer is lent to be written, and the answer words are watched ones.
        let number = unsafe {
            raw::koto_write_format(
                options.alignment,
                options.width,
                options.precision,
                options.representation,
                terms.filled,
                self.fill.get().as_ptr(),
                fill.len(),
                self.table.get().as_ptr(),
                terms.table.len(),
                terms.edition,
                self.buffer.get_mut().as_mut_ptr(),
                room,
                said.size(0),
                said.size(1),
            )
        };
        *self.answers.entry(number).or_default() += 1;
        let (refusal, place, format) = wanted;
        let mut after = before;
        after[..format.len()].copy_from_slice(format);
        let kept = self.fill.get() == fill && self.table.get() == terms.table;
        let whole = self.fill.is_whole() && self.table.is_whole() && self.buffer.is_whole() && said.is_whole(&[]);
        let words = (number, said.as_size(0), said.as_size(1));
        if words == (refusal, format.len(), place) && self.buffer.get() == after && kept && whole {
            return;
        }
        self.differences += 1;
        if self.differences <= SHOWN_MOST {
            println!("differs on {:.600}, edition {}, room {room}", format!("{options:?}"), terms.edition);
            println!("    library {words:?}, wanted {:.600}, kept {kept}, whole {whole}", format!("{wanted:?}"));
        }
    }

    /// With a table and an edition that are fine, and a buffer of so many bytes
    fn ask(&mut self, options: &Options, host: &Host, table: &[u32], room: usize, first: Option<&[u8]>) {
        let terms = Terms { filled: options.fill.is_some().into(), spare: b"0", table, edition: host.edition };
        let wanted = match first {
            None => (18, 0, &b""[..]),
            Some(first) if first.len() > room => (19, 0, &b""[..]),
            Some(first) => (0, 0, first),
        };
        self.call(options, &terms, room, wanted);
    }

    /// With a buffer that has just room, one that lacks a byte, one that has more, and none
    fn ask_rooms(&mut self, options: &Options, host: &Host, table: &[u32], more: usize, first: Option<&[u8]>) {
        let needed = first.map_or(0, <[u8]>::len);
        for room in [needed, needed.saturating_sub(1), needed + more, 0] {
            self.ask(options, host, table, room, first);
        }
    }

    /// All strings of a few letters, by the options that koto's parser gives them: the first of each is what is written. And where it gives
    /// options of so few letters to none of them, nothing is written
    fn short_ones(&mut self, host: &Host) {
        let mut firsts: HashMap<Options, Vec<u8>> = HashMap::new();
        let mut strings = vec![String::new()];
        let (mut tried, mut fills) = (0, vec![]);
        for length in 0..=LETTERS_MOST {
            for string in &strings {
                tried += 1;
                let Some(options) = host.read(string) else { continue };
                let bytes = string.as_bytes();
                firsts
                    .entry(options)
                    .and_modify(|first| {
                        if judge::order(bytes, first).is_lt() {
                            *first = bytes.to_vec();
                        }
                    })
                    .or_insert_with(|| bytes.to_vec());
            }
            if length < 4 {
                fills.extend(strings.iter().map(|fill| (length, Some(fill.clone().into_bytes()))));
            }
            strings = strings.iter().flat_map(|s| LETTERS.map(|letter| s.clone() + letter)).collect();
            if length == LETTERS_MOST {
                break;
            }
        }
        fills.push((0, None));
        let table = (host.table)();
        for (options, first) in &firsts {
            self.ask_rooms(options, host, &table, 3, Some(first));
        }
        let mut without = 0;
        for (letters, fill) in fills {
            for (options, more) in few_options() {
                let options = Options { fill: fill.clone(), ..options };
                if letters + more <= LETTERS_MOST && !firsts.contains_key(&options) {
                    without += 1;
                    self.ask_rooms(&options, host, &table, 9, None);
                }
            }
        }
        println!("{}: {tried} strings, {} options with one, {without} with none", host.name, firsts.len());
    }

    /// Fills up to the length of a format string and over it, numbers around 32 bits and above, numbers, editions and fills that are none,
    /// unfit tables
    fn limits(&mut self) {
        let table = kpt::full();
        let plain = Options { alignment: 0, width: NONE, precision: NONE, representation: NONE, fill: None };
        for len in FORMAT_MOST - 15..=FORMAT_MOST + 2 {
            let marks = [b"a".to_vec(), "\u{301}".repeat(len / 2).into_bytes()].concat()[..len].to_vec();
            for fill in [marks, vec![b'x'; len]] {
                for (alignment, width, precision) in
                    [(0, NONE, NONE), (1, NONE, NONE), (2, 1234567890, NONE), (3, 0, 99)]
                {
                    let options = Options { alignment, width, precision, fill: Some(fill.clone()), ..plain };
                    self.ask_first(&options, &NEWER, &table, 2);
                }
            }
        }
        let widths = [0, 9, 10, 4_294_967_294, 4_294_967_295, 4_294_967_296, 1 << 40, NONE - 1, NONE];
        let mut falls = table.clone();
        falls[7] = falls[6];
        let long = vec![0; 8001];
        let tables: [(&[u32], Option<usize>); 4] =
            [(&table, None), (&[], Some(0)), (&long, Some(0)), (&falls, Some(7))];
        for (alignment, representation) in
            [0, 1, 2, 3, 4, 1 << 32, NONE].into_iter().flat_map(|a| [0, 6, 7, 1 << 32, NONE].map(|r| (a, r)))
        {
            for (width, precision) in widths.into_iter().flat_map(|w| widths.map(|p| (w, p))) {
                for fill in [None, Some(&b"0"[..]), Some(b"-")].into_iter().chain(ODD_FILLS.map(Some)) {
                    let fill = fill.map(<[u8]>::to_vec);
                    let options = Options { alignment, width, precision, representation, fill };
                    self.ask_first(&options, &NEWER, &table, 4);
                    if width != precision {
                        continue;
                    }
                    for edition in [0, 3, u32::MAX] {
                        for (table, _) in tables {
                            let terms = Terms { filled: 7, spare: b"\xFF", table, edition };
                            self.call(&options, &terms, 9, (17, 0, b""));
                        }
                    }
                    for (table, place) in tables {
                        if let Some(place) = place {
                            let terms = Terms { filled: 1 << 31, spare: b"", table, edition: 1 };
                            self.call(&options, &terms, 9, (2, place, b""));
                        }
                    }
                }
            }
        }
    }

    fn ask_first(&mut self, options: &Options, host: &Host, table: &[u32], more: usize) {
        let first = host.first(options);
        self.ask_rooms(options, host, table, more, first.as_deref());
    }

    fn random(&mut self, dice: &mut Dice) {
        let which = dice.below(HOSTS.len());
        let host = HOSTS[which];
        let text = self.kinds.text(dice, 60);
        let fill = match dice.below(8) {
            0 => None,
            1 => Some(text.into_bytes()),
            2 => Some(damaged(dice, text.as_bytes())),
            3 => Some(LETTERS[dice.below(LETTERS.len())].as_bytes().to_vec()),
            4 => {
                let first = LETTERS[dice.below(LETTERS.len())];
                Some((first.to_string() + text.graphemes(true).next().unwrap_or("")).into_bytes())
            }
            _ => Some(text.graphemes(true).nth(dice.below(3)).unwrap_or("0").as_bytes().to_vec()),
        };
        let number = |dice: &mut Dice| match dice.below(6) {
            0 | 1 => NONE,
            2 => dice.below(12) as u64,
            3 => 10u64.pow(dice.below(11) as u32) - dice.below(2) as u64,
            4 => (dice.below(1 << 16) as u64) << dice.below(18),
            _ => dice.below(1000) as u64,
        };
        let (width, precision) = (number(dice), number(dice));
        let some = |dice: &mut Dice, most: usize| if dice.below(60) == 0 { NONE - 9 } else { dice.below(most) as u64 };
        let representation = if dice.below(2) == 0 { NONE } else { some(dice, 7) };
        let bare = dice.below(3) == 0;
        let options = Options {
            alignment: some(dice, 4),
            width: if bare { NONE } else { width },
            precision: if bare { NONE } else { precision },
            representation: if bare { NONE } else { representation },
            fill,
        };
        let first = host.first(&options);
        let needed = first.as_ref().map_or(0, Vec::len);
        let room = match dice.below(4) {
            0 => needed.saturating_sub(1 + dice.below(4)),
            1 => needed,
            _ => needed + dice.below(40),
        };
        let table = std::mem::take(&mut self.tables[which]);
        self.ask(&options, &host, &table, room, first.as_deref());
        self.tables[which] = table;
    }

    fn report(&self) -> bool {
        let shown = WANTED.map(|number| format!("{number}: {}", self.answers.get(&number).copied().unwrap_or(0)));
        println!("koto_write_format: {}", shown.join(", "));
        let fine = self.differences == 0 && WANTED.iter().all(|number| self.answers.contains_key(number));
        let calls: u64 = self.answers.values().sum();
        println!("{calls} calls, {}", if fine { "no difference" } else { "DIFFERENT" });
        fine
    }
}

/// All options without a fill whose numbers are written with the digits 0 and 5, and how many letters their parts have together
fn few_options() -> Vec<(Options, usize)> {
    let numbers = [NONE, 0, 5, 50, 55, 500, 505];
    let letters = |n: u64| if n == NONE { 0 } else { n.to_string().len() };
    let mut all = vec![];
    for alignment in 0..4 {
        for width in numbers {
            for precision in numbers {
                for representation in [NONE, 0, 5] {
                    let dot = usize::from(precision != NONE);
                    let more = usize::from(alignment != 0)
                        + letters(width)
                        + dot
                        + letters(precision)
                        + usize::from(representation != NONE);
                    all.push((Options { alignment, width, precision, representation, fill: None }, more));
                }
            }
        }
    }
    all
}
