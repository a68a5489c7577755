//! The calls that the program `replay_write` makes in the gate, each with the answer by koto's parser (tools/README.md has the fields).

use crate::damage::damaged;
use crate::judge::{Host, LEFT_OUT, NEWER, NONE, Options};
use crate::rich::{Dice, Kinds};
use crate::{LETTERS, ODD_FILLS, few_options};
use unicode_segmentation::UnicodeSegmentation;

fn hex(bytes: &[u8]) -> String {
    if bytes.is_empty() { "-".into() } else { bytes.iter().map(|byte| format!("{byte:02x}")).collect() }
}

/// A line. Numbers that may be none are one greater in the file, and 0 for none
fn print(options: &Options, filled: u32, edition: u32, room: usize, answer: Result<&[u8], u32>) {
    let result = answer.unwrap_or_default();
    println!(
        "{} {} {} {} {} {filled} {edition} {room} {} {} 0 {}",
        hex(options.fill.as_deref().unwrap_or(b"0")),
        options.alignment,
        options.width.wrapping_add(1),
        options.precision.wrapping_add(1),
        options.representation.wrapping_add(1),
        answer.err().unwrap_or(0),
        result.len(),
        hex(result)
    );
}

/// In a buffer that has just room, and in one that lacks a byte
fn print_both(options: &Options, host: &Host) {
    let first = host.first(options);
    let filled = options.fill.is_some().into();
    let Some(first) = first else {
        print(options, filled, host.edition, 9, Err(18));
        return;
    };
    print(options, filled, host.edition, first.len(), Ok(&first));
    if !first.is_empty() {
        print(options, filled, host.edition, first.len() - 1, Err(19));
    }
}

pub fn print_all(kinds: &Kinds) {
    let some = |i: usize| i % 7 == 0;
    let fills: Vec<Option<Vec<u8>>> = LETTERS.iter().map(|letter| Some(letter.as_bytes().to_vec())).collect();
    for (i, (options, _)) in few_options().into_iter().enumerate() {
        for fill in fills.iter().skip(i % 5).step_by(5).cloned().chain([None]) {
            print_both(&Options { fill, ..options.clone() }, if some(i) { &LEFT_OUT } else { &NEWER });
        }
    }
    let plain = Options { alignment: 1, width: NONE, precision: NONE, representation: NONE, fill: None };
    for width in [9, 10, 4_294_967_294, 4_294_967_295, 4_294_967_296, 1 << 40] {
        for alignment in [0, 3, 4, 1 << 32] {
            for representation in [0, 1, 2, 3, 4, 5, 6, 7, 1 << 32] {
                for fill in ODD_FILLS {
                    let fill = Some(fill.to_vec()).filter(|_| alignment != 3);
                    print_both(&Options { alignment, width, representation, fill, ..plain.clone() }, &NEWER);
                }
            }
        }
    }
    print(&plain, 1, 0, 9, Err(17));
    print(&plain, 0, 3, 9, Err(17));
    let mut dice = Dice::new(100);
    for _ in 0..900 {
        let text = kinds.text(&mut dice, 40);
        let fill = match dice.below(4) {
            0 => damaged(&mut dice, text.as_bytes()),
            1 => text.clone().into_bytes(),
            _ => text.graphemes(true).next().unwrap_or("").as_bytes().to_vec(),
        };
        let bare = dice.below(2) == 0;
        let options = Options {
            alignment: dice.below(4) as u64,
            width: if bare { NONE } else { dice.below(1000) as u64 },
            fill: Some(fill),
            ..plain.clone()
        };
        print_both(&options, if dice.below(2) == 0 { &NEWER } else { &LEFT_OUT });
    }
}
