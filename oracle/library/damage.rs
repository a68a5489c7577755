//! Damaged copies: bytes changed, taken out, put in or doubled, or the end cut off.

use crate::rich::Dice;

const SPLICES: [&[u8]; 27] = [
    b"'",
    b"\"",
    b"{",
    b"}",
    b":",
    b"\\",
    b"\r",
    b"\n",
    b"#",
    b"#-",
    b"-#",
    b"r#'",
    b"\x80",
    b"\xC0\x80",
    b"\xE2\x82",
    b"\xC3",
    b"\xF0\x9F\x98",
    b"\xED\xA0\x80",
    b"\xF4\x90\x80\x80",
    b"\xFF",
    b"\xE2\x82\xAC",
    b"\xCC\x81",
    b"\xF0\x9F\x98\x80",
    b"\0",
    b"\x7F",
    b"\xE2\x80\x8D",
    b"<",
];

pub fn damaged(dice: &mut Dice, text: &[u8]) -> Vec<u8> {
    let mut text = text.to_vec();
    for _ in 0..=dice.below(4) {
        let at = dice.below(text.len() + 1);
        let reach = |n: usize| (at + n).min(text.len());
        match dice.below(6) {
            0 if at < text.len() => text[at] = dice.below(256) as u8,
            1 => {
                let end = reach(1 + dice.below(3));
                text.drain(at..end);
            }
            4 => {
                let end = reach(1 + dice.below(20));
                let doubled = text[at..end].to_vec();
                text.splice(at..at, doubled);
            }
            5 if dice.below(3) == 0 => text.truncate(at),
            _ => {
                let put = SPLICES[dice.below(SPLICES.len())];
                text.splice(at..at, put.iter().copied());
            }
        }
    }
    text
}
