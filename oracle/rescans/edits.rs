//! Random edits: of one line, of several, at line starts and ends, that open and close comments, strings and templates.

use crate::rich::Dice;

const PIECES: [&str; 34] = [
    "", "", "x", " ", "  y = 1", "42", ".5", "\n", "\n\n", "\r\n", "\n  ", "#", "# note", "#-", "-#", "'", "\"", "{", "}", "'{", "}'", ":", ":>8",
    "r'", "r#\"", "'#", "\\", "\u{E9}", "\u{6F22}", "e\u{301}", "else ", "if", "\r", "\u{20AC}",
];

/// Lines as scripts have them; a session's script is made of these, so that most of its newlines have depth 0
const LINES: [&str; 28] = [
    "# Engines of the north ramp",
    "engines = []",
    "let rating = 310.5 # kW",
    "export idle_codes = (0x1f, 0b101, 7)",
    "add_engine = |name, power, idle = false|",
    "  engines.push {name, power: power * 1.05, idle}",
    "  if power > 250 and not idle",
    "    print 'large: {name:>12} {power:08.2} kW'",
    "  else if power == 0",
    "    throw \"no power for {name}\"",
    "  else",
    "    return null",
    "for engine in engines.keep |e| e.power >= 100",
    "  total += engine.power",
    "#- what follows is measured",
    "   twice a day -#",
    "path = r'C:\\shafts\\{n}'",
    "label = r#\"a \"raw\" label\"#",
    "match engine.code",
    "  1..=5 then 'idle: {if x then 'yes' else 'no'}'",
    "  else debug engine",
    "air = {co2: 0.4, no_x: '{rating}', caf\u{E9}: '\u{6F22}\u{5B57}'}",
    "text = 'two",
    "lines'",
    "x = (1 + 2) * y % 3 -> z",
    "",
    "\t@type = 'vent'",
    "while true",
];

/// A script of so many lines, some of which end in CR LF
pub fn script(dice: &mut Dice, lines: usize) -> Vec<u8> {
    let mut text = String::new();
    for _ in 0..lines {
        // Two lines belong together: a comment's and a string's.
        let at = dice.below(LINES.len());
        let whole = match LINES[at] {
            "   twice a day -#" | "lines'" => at - 1..at + 1,
            "#- what follows is measured" | "text = 'two" => at..at + 2,
            _ => at..at + 1,
        };
        for line in &LINES[whole] {
            text += line;
            text += if dice.below(6) == 0 { "\r\n" } else { "\n" };
        }
    }
    text.into_bytes()
}

/// The edit's place, how many bytes it removes, and what it puts in
pub type Edit = (usize, usize, Vec<u8>);

/// Where a character of well-formed bytes begins, at or before this place
fn whole(text: &[u8], mut at: usize) -> usize {
    while at > 0 && at < text.len() && text[at] & 0xC0 == 0x80 {
        at -= 1;
    }
    at
}

/// The end of the line that has this byte, before its newline
fn line_end(text: &[u8], at: usize) -> usize {
    text[at..].iter().position(|&byte| byte == b'\n').map_or(text.len(), |n| at + n)
}

fn line_start(text: &[u8], at: usize) -> usize {
    text[..at].iter().rposition(|&byte| byte == b'\n').map_or(0, |n| n + 1)
}

/// What one types: at a line's start, its end, or anywhere, some bytes of the line gone and a piece put in; now and then over several lines
pub fn typed(dice: &mut Dice, text: &[u8]) -> Edit {
    let somewhere = match dice.below(12) {
        0 => 0,
        1 => text.len(),
        _ => dice.below(text.len() + 1),
    };
    let at = match dice.below(4) {
        0 => line_start(text, somewhere),
        1 => line_end(text, somewhere),
        _ => whole(text, somewhere),
    };
    let gone = match dice.below(8) {
        0..=3 => 0,
        4 => line_end(text, at) - at,
        5 => (line_end(text, at) + 1 - at).min(text.len() - at),
        6 => dice.below(60),
        _ => dice.below(4),
    };
    let end = whole(text, (at + gone).min(text.len())).max(at);
    let mut put = PIECES[dice.below(PIECES.len())].to_string();
    if dice.below(6) == 0 {
        put += PIECES[dice.below(PIECES.len())];
    }
    (at, end - at, put.into_bytes())
}

/// Whole lines put in at the start or the end, or all but the first hundred lines gone
pub fn lines(dice: &mut Dice, text: &[u8], more: bool) -> Edit {
    let at = [0, text.len()][dice.below(2)];
    if more {
        return (at, 0, script(dice, 2));
    }
    let hundred = text.iter().enumerate().filter(|(_, byte)| **byte == b'\n').nth(99).map_or(text.len(), |(at, _)| at + 1);
    (hundred, text.len() - hundred, vec![])
}

pub fn made(text: &[u8], (place, removed, put_in): &Edit) -> Vec<u8> {
    [&text[..*place], put_in, &text[place + removed..]].concat()
}
