//! Texts rich in what cluster rules look at: random ones, and Unicode's published tests.

use crate::kpt;

/// A fixed sequence of random numbers (xorshift64*)
pub struct Dice(u64);

impl Dice {
    pub fn new(seed: u64) -> Self {
        Self(seed ^ 0x9E37_79B9_7F4A_7C15)
    }

    pub fn below(&mut self, n: usize) -> usize {
        self.0 ^= self.0 >> 12;
        self.0 ^= self.0 << 25;
        self.0 ^= self.0 >> 27;
        ((self.0.wrapping_mul(0x2545_F491_4F6C_DD1D) >> 32) * n as u64 >> 32) as usize
    }
}

/// The characters of the full table by what the cluster rules see of them: class, Extended_Pictographic, InCB
pub struct Kinds(Vec<(u32, Vec<char>)>);

// Kinds by the table's number without XID and width
const OTHER: u32 = 0;
const CR: u32 = 16;
const LF: u32 = 32;
const ZWJ: u32 = 5 * 16 + 2 * 512;
const INDICATOR: u32 = 6 * 16;
const L: u32 = 9 * 16;
const V: u32 = 10 * 16;
const T: u32 = 11 * 16;
const LV: u32 = 12 * 16;
const EXTEND: u32 = 4 * 16 + 2 * 512;
const LINKER: u32 = 4 * 16 + 3 * 512;
const CONSONANT: u32 = 512;
const PICTOGRAPH: u32 = 256;
const PREPEND: u32 = 7 * 16;
const MARK: u32 = 8 * 16;
/// Extend by its class, and nothing by InCB, so that a conjunct ends before it
const PLAIN_EXTEND: u32 = 4 * 16;

// Beginnings and middles of what the longer rules join
const PHRASES: [&[u32]; 11] = [
    &[CR, LF],
    &[L, V, T],
    &[L, L, LV, T],
    &[CONSONANT, LINKER, CONSONANT],
    &[CONSONANT, EXTEND, LINKER, EXTEND, CONSONANT],
    &[CONSONANT, LINKER, ZWJ, LINKER, CONSONANT],
    &[CONSONANT, LINKER, OTHER],
    &[PICTOGRAPH, ZWJ, PICTOGRAPH],
    &[PICTOGRAPH, EXTEND, EXTEND, ZWJ, PICTOGRAPH],
    &[INDICATOR, INDICATOR],
    &[INDICATOR, INDICATOR, INDICATOR],
];

impl Kinds {
    pub fn of(row: &[u32]) -> Self {
        let mut kinds: Vec<(u32, Vec<char>)> = vec![];
        for c in '\0'..=char::MAX {
            let kind = kpt::properties(row, c.into()) & !15;
            match kinds.iter_mut().find(|(known, _)| *known == kind) {
                Some((_, chars)) => chars.push(c),
                None => kinds.push((kind, vec![c])),
            }
        }
        Self(kinds)
    }

    fn one_of(&self, kind: u32, dice: &mut Dice) -> char {
        let (_, chars) = self.0.iter().find(|(known, _)| *known == kind).expect("a kind in the table");
        chars[dice.below(chars.len())]
    }

    /// A text of 1 to 12 pieces and at most so many bytes
    pub fn text(&self, dice: &mut Dice, most: usize) -> String {
        let mut text = String::new();
        for _ in 0..=dice.below(12) {
            match dice.below(4) {
                0 => {
                    for &kind in PHRASES[dice.below(PHRASES.len())] {
                        text.push(self.one_of(kind, dice));
                    }
                }
                1 => text.push(['<', '^', '>', 'a', '}', ' '][dice.below(6)]),
                _ => text.push(self.one_of(self.0[dice.below(self.0.len())].0, dice)),
            }
        }
        shortened(text, most)
    }

    /// A text of 1 to 5 consonants with linkers, extenders, joiners and marks behind each, and at most so many bytes: conjuncts, and what is just none
    pub fn conjuncts(&self, dice: &mut Dice, most: usize) -> String {
        let mut text = String::new();
        for _ in 0..=dice.below(5) {
            let kind =
                [CONSONANT, CONSONANT, CONSONANT, CONSONANT, CONSONANT, CONSONANT, OTHER, PREPEND][dice.below(8)];
            text.push(self.one_of(kind, dice));
            for _ in 0..dice.below(4) {
                text.push(self.one_of([LINKER, LINKER, LINKER, EXTEND, ZWJ, MARK, PLAIN_EXTEND][dice.below(7)], dice));
            }
        }
        text.push_str(["", "", "<", "^5", ">08.2", "a", "}"][dice.below(7)]);
        shortened(text, most)
    }
}

fn shortened(mut text: String, most: usize) -> String {
    while text.len() > most {
        text.pop();
    }
    text
}

/// The texts of GraphemeBreakTest.txt, each with the lengths of its clusters as published
pub fn published(file: &str) -> Vec<(String, Vec<usize>)> {
    let line = |line: &str| {
        let (mut text, mut clusters) = (String::new(), vec![]);
        for word in line.split('#').next()?.split_whitespace() {
            match word {
                "÷" => clusters.push(0),
                "×" => {}
                hex => {
                    let c = char::from_u32(u32::from_str_radix(hex, 16).ok()?)?;
                    text.push(c);
                    *clusters.last_mut()? += c.len_utf8();
                }
            }
        }
        // What stands after the last break is nothing.
        (clusters.pop() == Some(0)).then_some((text, clusters))
    };
    file.lines().filter_map(line).collect()
}
