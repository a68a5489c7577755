//! The calls that the program `replay_pad` makes in the gate, each with the judge's answer (tools/README.md has the fields).

use crate::damage::damaged;
use crate::judge::{self, Asked, NONE};
use crate::rich::{Dice, Kinds};
use crate::{FILLS, TEXTS, plain};
use unicode_segmentation::UnicodeSegmentation;

fn hex(bytes: &[u8]) -> String {
    if bytes.is_empty() { "-".into() } else { bytes.iter().map(|byte| format!("{byte:02x}")).collect() }
}

fn print(asked: &Asked, room: usize) {
    let (number, place, result) = judge::answer(asked, room);
    // The width is one greater in the file, and 0 for none.
    let (width, len) = (asked.width.wrapping_add(1), result.len());
    println!(
        "{} {} {} {width} {} {} {room} {number} {len} {place} {}",
        hex(asked.text),
        hex(asked.fill),
        asked.alignment,
        asked.filled,
        asked.edition,
        hex(&result)
    );
}

/// In a buffer that has just room, and in one that lacks a byte
fn print_both(asked: &Asked) {
    let needed = judge::needed(asked).filter(|&needed| needed < 2_000).unwrap_or(9) as usize;
    print(asked, needed);
    if needed > 0 {
        print(asked, needed - 1);
    }
}

pub fn print_all(kinds: &Kinds) {
    for text in TEXTS {
        for fill in FILLS {
            for (alignment, width) in (0..4).flat_map(|a| [NONE, 1, 4, 7].map(|w| (a, w))) {
                let edition = if width == 4 { 1 } else { 2 };
                let fill = fill.as_bytes();
                print_both(&Asked { alignment, width, filled: 1, fill, edition, ..plain(text.as_bytes()) });
            }
        }
    }
    let widths = [3, 4_294_967_294, 4_294_967_295, 4_294_967_296, 1 << 40, NONE];
    for (alignment, width) in [0, 2, 3, 4, 1 << 32].into_iter().flat_map(|a| widths.map(|w| (a, w))) {
        for (filled, fill) in [(0, &b"\xFF"[..]), (1, b"-"), (1, b""), (2, b"ab"), (7, b"-\xE2\x82"), (1, b"\xFF")] {
            for (text, edition) in [(&b"abc"[..], 2), (b"", 1), (b"abc", 0), (b"abc", 3), (b"ab\xE2", 2), (b"a\xFF", 2)]
            {
                print(&Asked { alignment, width, filled, fill, edition, ..plain(text) }, 9);
            }
        }
    }
    let mut dice = Dice::new(110);
    for _ in 0..900 {
        let (text, other) = (kinds.text(&mut dice, 60), kinds.text(&mut dice, 40));
        let fill = other.graphemes(true).next().unwrap_or("").as_bytes();
        let text = if dice.below(15) == 0 { damaged(&mut dice, text.as_bytes()) } else { text.into_bytes() };
        let width = dice.below(24) as u64;
        let asked = Asked {
            alignment: dice.below(4) as u64,
            width,
            filled: dice.below(2) as u32,
            fill,
            edition: 1 + dice.below(2) as u32,
            ..plain(&text)
        };
        print(&asked, dice.below(3) * 100 + dice.below(80));
    }
}
