//! Stands in for unicode_xid, unicode_width and unicode_segmentation: every answer comes from a lent property table.

use std::cell::Cell;

/// The properties of every code point, laid out flat, and whether GB9c is among the rules
struct Lent {
    flat: Vec<u16>,
    has_gb9c: bool,
}

thread_local! {
    static LENT: Cell<Option<&'static Lent>> = const { Cell::new(None) };
}

/// Lends a fit table (document 01, "The property table") and an edition of the cluster rules, 1 or 2, to all that this thread calls afterwards.
/// What was lent before is not given back.
pub fn lend(row: &[u32], edition: u32) {
    let mut flat = vec![0; 0x11_0000];
    for (i, number) in row.iter().enumerate() {
        let end = row.get(i + 1).map_or(0x11_0000, |next| next / 2048);
        flat[(number / 2048) as usize..end as usize].fill((number % 2048) as u16);
    }
    LENT.set(Some(Box::leak(Box::new(Lent { flat, has_gb9c: edition == 2 }))));
}

fn lent() -> &'static Lent {
    LENT.get().expect("no table was lent")
}

fn properties(c: char) -> u16 {
    lent().flat[c as usize]
}

pub trait UnicodeXID {
    fn is_xid_start(self) -> bool;
    fn is_xid_continue(self) -> bool;
}

impl UnicodeXID for char {
    fn is_xid_start(self) -> bool {
        properties(self) & 1 != 0
    }

    fn is_xid_continue(self) -> bool {
        properties(self) & 2 != 0
    }
}

pub trait UnicodeWidthChar {
    fn width(self) -> Option<usize>;
}

impl UnicodeWidthChar for char {
    // koto takes no width for 0, and so does the table
    fn width(self) -> Option<usize> {
        Some(usize::from(properties(self) / 4 % 4))
    }
}

pub trait UnicodeSegmentation {
    fn graphemes(&self, is_extended: bool) -> Graphemes<'_>;
}

impl UnicodeSegmentation for str {
    fn graphemes(&self, is_extended: bool) -> Graphemes<'_> {
        assert!(is_extended);
        Graphemes { rest: self }
    }
}

pub struct Graphemes<'a> {
    rest: &'a str,
}

impl<'a> Iterator for Graphemes<'a> {
    type Item = &'a str;

    // No rule looks back over a break, so each cluster is the first one of what is left.
    fn next(&mut self) -> Option<&'a str> {
        let mut chars = self.rest.char_indices();
        chars.next()?;
        let end = chars.find(|&(at, after)| is_break(&self.rest[..at], after)).map_or(self.rest.len(), |(at, _)| at);
        let (cluster, rest) = self.rest.split_at(end);
        self.rest = rest;
        Some(cluster)
    }
}

const CR: u16 = 1;
const LF: u16 = 2;
const CONTROL: u16 = 3;
const EXTEND: u16 = 4;
const ZWJ: u16 = 5;
const REGIONAL_INDICATOR: u16 = 6;
const PREPEND: u16 = 7;
const SPACING_MARK: u16 = 8;
const L: u16 = 9;
const V: u16 = 10;
const T: u16 = 11;
const LV: u16 = 12;
const LVT: u16 = 13;

fn class(c: char) -> u16 {
    properties(c) / 16 % 16
}

fn is_pictograph(c: char) -> bool {
    properties(c) & 256 != 0
}

const CONSONANT: u16 = 1;
const INCB_EXTEND: u16 = 2;
const LINKER: u16 = 3;

fn incb(c: char) -> u16 {
    properties(c) / 512
}

// UAX #29's rules in its order: is there a break between a text, which isn't empty, and the character after it?
fn is_break(text: &str, after: char) -> bool {
    let back = text.chars().rev();
    let before = class(back.clone().next().expect("a text before the place"));
    match (before, class(after)) {
        (CR, LF) => return false,              // GB3
        (CONTROL | CR | LF, _) => return true, // GB4
        (_, CONTROL | CR | LF) => return true, // GB5
        (L, L | V | LV | LVT) => return false, // GB6
        (LV | V, V | T) => return false,       // GB7
        (LVT | T, T) => return false,          // GB8
        (_, EXTEND | ZWJ) => return false,     // GB9
        (_, SPACING_MARK) => return false,     // GB9a
        (PREPEND, _) => return false,          // GB9b
        _ => {}
    }
    // GB9c
    if lent().has_gb9c && incb(after) == CONSONANT && ends_with_linked_consonant(back.clone()) {
        return false;
    }
    // GB11
    if is_pictograph(after) && before == ZWJ && ends_with_pictograph(back.clone().skip(1)) {
        return false;
    }
    // GB12, GB13
    if class(after) == REGIONAL_INDICATOR {
        let indicators = back.take_while(|&c| class(c) == REGIONAL_INDICATOR);
        return indicators.count() % 2 == 0;
    }
    // GB999
    true
}

// Consonant [Extend Linker]* Linker [Extend Linker]*, read from its end
fn ends_with_linked_consonant(back: impl Iterator<Item = char>) -> bool {
    let mut linked = false;
    for c in back {
        match incb(c) {
            LINKER => linked = true,
            INCB_EXTEND => {}
            CONSONANT => return linked,
            _ => return false,
        }
    }
    false
}

// Extended_Pictographic Extend*, read from its end; a lent table may say both of one character
fn ends_with_pictograph(mut back: impl Iterator<Item = char>) -> bool {
    back.find(|&c| is_pictograph(c) || class(c) != EXTEND).is_some_and(is_pictograph)
}
