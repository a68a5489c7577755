//! Scripts to scan: at the limits, every short one over some alphabets, and random ones by a small grammar.

use crate::rich::Dice;

pub const NAMES: [&str; 13] = [
    "a",
    "x1",
    "_",
    "_y",
    "r",
    "rr",
    "iffy",
    "power",
    "\u{E9}t\u{E9}",
    "\u{6F22}\u{5B57}",
    "n\u{301}",
    "\u{3B1}\u{3B2}",
    "\u{1D4D0}",
];
const KEYWORDS: [&str; 34] = [
    "and", "as", "await", "break", "catch", "const", "continue", "debug", "else", "export", "false", "finally", "for",
    "from", "if", "import", "in", "let", "loop", "match", "not", "null", "or", "return", "self", "switch", "then",
    "throw", "true", "try", "until", "while", "yield", "else if",
];
const NUMBERS: [&str; 15] =
    ["0", "7", "42", "3.5", "1e9", "2.5e-3", "0xff", "0b101", "0o17", "1..5", "1.sin()", "1_000", "0x", "9.e", "1e+"];
const SYMBOLS: [&str; 33] = [
    "=", "==", "!=", ">=", "<=", ">", "<", "+=", "-=", "*=", "/=", "%=", "^=", "+", "-", "*", "/", "%", "^", "->",
    "..", "..=", "...", "@", "|", ",", ";", "?", ".", ":", "(", ")", "[",
];
const BREAKS: [&str; 7] = ["\n", "\n", "\n  ", "\n\t", "\r\n", "\r\n    ", "\n \u{A0}"];
const LITERALS: [&str; 15] = [
    "",
    "text ",
    "\\{",
    "\\'",
    "\\\"",
    "\\\\",
    "\\u{1F600}",
    "\\x41",
    "\u{E9}",
    "\u{6F22}",
    "\\\n ",
    "}",
    "# no comment",
    "\u{1F468}\u{200D}\u{1F469}",
    "e\u{301}",
];
const FORMATS: [&str; 16] = [
    "",
    "5",
    ">5",
    "\u{E9}<8",
    "e\u{301}^8",
    "08.3",
    ".2x",
    "}<4",
    "_>",
    "<\u{301}",
    "\u{6F22}>3",
    "?",
    "\u{1F1E9}\u{1F1EA}<2",
    "\r\n<",
    "\u{1100}\u{1161}\u{11A8}>3",
    "\u{915}\u{94D}\u{937}^7",
];

fn one_of<'a>(dice: &mut Dice, of: &[&'a str]) -> &'a str {
    of[dice.below(of.len())]
}

fn quote(dice: &mut Dice) -> &'static str {
    one_of(dice, &["'", "\""])
}

fn expression(dice: &mut Dice, depth: usize) -> String {
    match dice.below(if depth > 0 { 9 } else { 4 }) {
        0 if dice.below(3) == 0 => one_of(dice, &KEYWORDS).to_string(),
        0 => one_of(dice, &NAMES).to_string(),
        1 => one_of(dice, &NUMBERS).to_string(),
        2 => raw_string(dice),
        3 => format!(
            "{}.{}",
            one_of(dice, &NAMES),
            if dice.below(2) == 0 { one_of(dice, &NAMES) } else { one_of(dice, &KEYWORDS) }
        ),
        4..=6 => template(dice, depth - 1),
        7 => format!("{{{}: {}}}", one_of(dice, &NAMES), expression(dice, depth - 1)),
        _ => format!("{} {} {}", expression(dice, depth - 1), one_of(dice, &SYMBOLS), expression(dice, depth - 1)),
    }
}

fn raw_string(dice: &mut Dice) -> String {
    let (hashes, quote) = ("#".repeat([0, 0, 1, 2, 5][dice.below(5)]), quote(dice));
    let inside = match dice.below(5) {
        0 => String::new(),
        1 => "raw {x}".to_string(),
        2 => format!("a{quote}b"),
        3 => "\nc".to_string(),
        _ => "#".to_string(),
    };
    format!("r{hashes}{quote}{inside}{quote}{hashes}")
}

fn template(dice: &mut Dice, depth: usize) -> String {
    let quote = quote(dice);
    let mut text = quote.to_string();
    for _ in 0..dice.below(4) {
        text.push_str(one_of(dice, &LITERALS));
        if dice.below(2) == 0 {
            text.push('{');
            text.push_str(&expression(dice, depth));
            if dice.below(3) == 0 {
                text.push(':');
                text.push_str(one_of(dice, &FORMATS));
            }
            text.push('}');
        }
    }
    text + quote
}

fn statement(dice: &mut Dice) -> String {
    match dice.below(8) {
        0 => format!("# {}", one_of(dice, &["comment", "\u{6F22} #- not nested", "'", ""])),
        1 => format!("#-{}-#", one_of(dice, &[" one ", "\n two\r\n", " #- ", "'{", "-"])),
        2 => {
            let (test, then) = (expression(dice, 2), expression(dice, 1));
            let (first, second) = (one_of(dice, &BREAKS), one_of(dice, &BREAKS));
            format!("if {test}{first}{then}{second}{}", one_of(dice, &["else", "else if x", "else  if"]))
        }
        3 => format!(
            "{} = |{}, {}...| -> {}",
            one_of(dice, &NAMES),
            one_of(dice, &NAMES),
            one_of(dice, &NAMES),
            expression(dice, 2)
        ),
        4 => format!("for x in {}{}yield {}", expression(dice, 2), one_of(dice, &BREAKS), expression(dice, 2)),
        _ => format!("{} {} {}", one_of(dice, &NAMES), one_of(dice, &SYMBOLS), expression(dice, 3)),
    }
}

/// A random script of some statements
pub fn script(dice: &mut Dice) -> Vec<u8> {
    let most = [2, 4, 10][dice.below(3)];
    let mut text = String::new();
    for _ in 0..=dice.below(most) {
        text.push_str(&statement(dice));
        text.push_str(one_of(dice, &BREAKS));
    }
    text.into_bytes()
}

/// Modes in modes, down to a depth of 66 and most often less: templates, maps in their code, and beside them raw strings and format options. Most of
/// them are closed again.
pub fn nested(dice: &mut Dice) -> Vec<u8> {
    let (mut text, mut open, mut depth) = (String::new(), vec![], 0);
    let deepest = dice.below(67);
    while depth < deepest {
        match dice.below(8) {
            // Within a map a brace opens no other.
            0 | 1 if open.last().is_some_and(|close| *close != "}") => {
                text.push_str("{a: ");
                open.push("}");
                depth += 1;
            }
            2 => text.push_str(&(raw_string(dice) + " ")),
            3 => text.push_str(&(expression(dice, 1) + one_of(dice, &[" ", ", ", "\n"]))),
            _ => {
                let quote = quote(dice);
                text.push_str(quote);
                text.push_str(if dice.below(3) == 0 { one_of(dice, &LITERALS) } else { "" });
                text.push('{');
                open.push(if quote == "'" { "}'" } else { "}\"" });
                depth += 2;
            }
        }
    }
    text.push_str(&expression(dice, 1));
    let stays_open = if dice.below(4) == 0 { dice.below(open.len() + 1) } else { 0 };
    while open.len() > stays_open {
        let close = open.pop().expect("more are open");
        if close != "}" && dice.below(3) == 0 {
            text.push(':');
            text.push_str(one_of(dice, &FORMATS));
        }
        text.push_str(close);
    }
    text.into_bytes()
}

/// Every string up to a length over some letters, each after the same beginning
fn every(before: &str, letters: &[&str], longest: usize) -> Vec<Vec<u8>> {
    let mut all = vec![before.as_bytes().to_vec()];
    let mut first = 0;
    for _ in 0..longest {
        let last = all.len();
        for i in first..last {
            for letter in letters {
                all.push([&all[i], letter.as_bytes()].concat());
            }
        }
        first = last;
    }
    all
}

/// Every short string over what matters together, and every byte and pair of bytes
pub fn short() -> Vec<Vec<u8>> {
    let mut all = every("", &["#", "-", "'", "\"", "{", "}", ":", "r", "\n", "\r"], 5);
    all.extend(every("", &["0", "1", "e", "x", "b", "o", ".", "_", "+", "-", " "], 5));
    all.extend(every("'", &["'", "\\", "u", "{", "}", ":", "<", "\u{E9}", "\u{6F22}", "\u{301}", "\n"], 4));
    all.extend(every(
        "'{x:",
        &["<", ">", "}", "e", "\u{301}", "\u{200D}", "\u{1F600}", "\u{1F1E9}", "'", "\r", "\n"],
        4,
    ));
    for first in 0..=255 {
        all.push(vec![first]);
        all.extend((0..=255).map(|second| vec![first, second]));
    }
    all
}

/// At the limits of modes and hashes
pub fn limits() -> Vec<Vec<u8>> {
    let mut all = vec![];
    for n in [31, 32, 33] {
        let ends = ["", "'", "{", "x", "r'x'", "r#'x'#", "1:r", "{r'x'y", "\r", "'}'", "\n", "\"", "\u{301}"];
        for end in ends {
            for open in ["'{", "\"{"] {
                all.push((open.repeat(n) + end).into_bytes());
                all.push((open.repeat(n) + &"}".repeat(n) + end).into_bytes());
            }
        }
    }
    for n in [254, 255, 256, 257] {
        let hashes = "#".repeat(n);
        for quote in ["'", "\""] {
            for inside in ["", "x", &(quote.to_string() + &hashes[1..])] {
                all.push(format!("r{hashes}{quote}{inside}{quote}{hashes}").into_bytes());
                all.push(format!("r{hashes}{quote}{inside}").into_bytes());
            }
        }
    }
    all
}

/// Of 1 MiB, or a byte less or more: one filling, or random scripts one after the other
pub fn long(dice: &mut Dice) -> Vec<Vec<u8>> {
    const MOST: usize = crate::calls::SOURCE_MOST;
    let fills = ["a", " ", "\n", "1", "#", "{:}", "\u{6F22}", "\u{E9} ", ". ", "- #\n", "'x{y:>5}' ", "r'' ", "#- -#"];
    let mut all = vec![];
    for fill in fills {
        let fit = |len: usize| fill.repeat(len / fill.len() + 1).as_bytes()[..len - len % fill.len()].to_vec();
        all.push(fit(MOST));
        all.push([b"'".as_slice(), &fit(MOST - 1)].concat());
    }
    all.push(vec![b'a'; MOST + 1]);
    all.push(vec![0xFF; MOST + 1]);
    for _ in 0..6 {
        let mut text = vec![];
        while text.len() < MOST - 2000 {
            text.extend(script(dice));
        }
        text.truncate(MOST - 4);
        all.push(text.clone());
        let at = dice.below(text.len());
        text[at] = 0x80;
        all.push(text);
    }
    all
}
