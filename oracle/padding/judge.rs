//! What padding must answer, from document 02's sentences: the refusals in a row, each as a question of its own; then the columns of the
//! result one after the other, each a cluster of the text or a fill.

use crate::kpt;
use std::str::{Utf8Error, from_utf8};
use unicode_segmentation::UnicodeSegmentation;

pub const NONE: u64 = u64::MAX;
pub const TEXT_MOST: usize = 65_535;

/// Which table is lent: the full one, or one of those that are unfit
#[derive(Clone, Copy, Debug, PartialEq)]
pub enum Table {
    Full,
    Empty,
    /// 8,001 numbers
    Long,
    /// Run 7 starts where run 6 does.
    Falls,
}

#[derive(Clone, Copy, Debug)]
pub struct Asked<'a> {
    pub text: &'a [u8],
    pub alignment: u64,
    pub width: u64,
    pub filled: u32,
    pub fill: &'a [u8],
    pub table: Table,
    pub edition: u32,
}

/// The number, the place, and the bytes that stand in the buffer
pub fn answer(asked: &Asked, room: usize) -> (u32, usize, Vec<u8>) {
    if let Some((number, place)) = refusal(asked) {
        return (number, place, vec![]);
    }
    if needed(asked).is_some_and(|needed| needed > room as u128) {
        return (19, 0, vec![]);
    }
    (0, 0, columns(asked).concat())
}

/// How many bytes the padded text has, where nothing but room can be refused
pub fn needed(asked: &Asked) -> Option<u128> {
    if refusal(asked).is_some() {
        return None;
    }
    let fill = if asked.filled == 0 { 1 } else { asked.fill.len() };
    Some(asked.text.len() as u128 + lacking(asked) * fill as u128)
}

fn refusal(asked: &Asked) -> Option<(u32, usize)> {
    let fill = (asked.filled != 0).then_some(asked.fill);
    let ill = |error: Utf8Error| (if error.error_len().is_none() { 15 } else { 3 }, error.valid_up_to());
    let questions: [&dyn Fn() -> Option<(u32, usize)>; 6] = [
        &|| (asked.text.len().max(fill.map_or(0, <[u8]>::len)) > TEXT_MOST).then_some((1, 0)),
        &|| (!matches!(asked.edition, 1 | 2)).then_some((17, 0)),
        &|| match asked.table {
            Table::Full => None,
            Table::Empty | Table::Long => Some((2, 0)),
            Table::Falls => Some((2, 7)),
        },
        &|| from_utf8(asked.text).err().map(ill),
        &|| fill.and_then(|fill| from_utf8(fill).err().map(ill)),
        &|| {
            let width = asked.width == NONE || u32::try_from(asked.width).is_ok();
            let one = fill.is_none_or(|fill| clusters(fill, asked.edition).len() == 1);
            (asked.alignment > 3 || !width || !one).then_some((18, 0))
        },
    ];
    questions.iter().find_map(|question| question())
}

/// How many columns the text has too few
fn lacking(asked: &Asked) -> u128 {
    let has = clusters(asked.text, asked.edition).len() as u64;
    if asked.width == NONE { 0 } else { asked.width.saturating_sub(has).into() }
}

/// The columns of the result: the text's clusters, and a fill on the side that has fewer of them, or where the alignment says
fn columns<'a>(asked: &Asked<'a>) -> Vec<&'a [u8]> {
    let fill = if asked.filled == 0 { b" " } else { asked.fill };
    let (mut before, mut behind) = (0, 0);
    for _ in 0..lacking(asked) {
        let is_before = match asked.alignment {
            3 => true,
            2 => before < behind,
            _ => false,
        };
        *(if is_before { &mut before } else { &mut behind }) += 1;
    }
    let text = clusters(asked.text, asked.edition);
    std::iter::repeat_n(fill, before).chain(text).chain(std::iter::repeat_n(fill, behind)).collect()
}

/// The clusters of well-formed bytes by unicode-segmentation. Edition 1 has no GB9c: there a letter stands for each consonant of that rule,
/// which no other rule looks at.
fn clusters(bytes: &[u8], edition: u32) -> Vec<&[u8]> {
    let text = from_utf8(bytes).expect("well-formed bytes");
    if edition == 2 {
        return text.graphemes(true).map(str::as_bytes).collect();
    }
    let plain: String = text.chars().map(|c| if is_consonant(c) { 'x' } else { c }).collect();
    let mut characters = text.chars();
    let mut rest = bytes;
    plain
        .graphemes(true)
        .map(|cluster| {
            let len = characters.by_ref().take(cluster.chars().count()).map(char::len_utf8).sum();
            let (first, behind) = rest.split_at(len);
            rest = behind;
            first
        })
        .collect()
}

/// InCB is Consonant.
fn is_consonant(c: char) -> bool {
    unicode_segmentation::oracle_properties(c).2 == 1
}

/// The consonants of GB9c are of the class Other and no pictographs, so that a letter can stand for them.
pub fn assert_consonants(table: &[u32]) {
    let mut some = false;
    for c in ('\0'..=char::MAX).filter(|&c| is_consonant(c)) {
        assert_eq!(kpt::properties(table, c.into()) / 16 % 32, 0, "{c:?}");
        some = true;
    }
    assert!(some && !is_consonant('x'));
}
