//! The inputs, each made from a seed by a fixed rule, and cut at so many bytes or a little before.

/// A fixed sequence of random numbers (xorshift64*)
pub struct Dice(u64);

impl Dice {
    fn below(&mut self, n: usize) -> usize {
        self.0 ^= self.0 >> 12;
        self.0 ^= self.0 << 25;
        self.0 ^= self.0 >> 27;
        ((self.0.wrapping_mul(0x2545_F491_4F6C_DD1D) >> 32) * n as u64 >> 32) as usize
    }

    fn one_of<'a>(&mut self, of: &[&'a str]) -> &'a str {
        of[self.below(of.len())]
    }
}

type Piece = fn(&mut Dice, &mut String);

/// The inputs' names, and what each repeats
pub const KINDS: [(&str, Piece); 7] = [
    ("scripts", statement),
    ("ASCII names", |dice, out| name(dice, out, 'a', 26)),
    ("CJK names", |dice, out| name(dice, out, '\u{4E00}', 20_000)),
    ("long comments", comment),
    ("long strings", string),
    ("deep templates", |dice, out| template(dice, out, 15)),
    ("accented text", |dice, out| name(dice, out, '\u{C0}', 23)),
];

/// An input of this kind, of at most `len` bytes and hardly less
pub fn input(kind: usize, len: usize) -> Vec<u8> {
    let mut dice = Dice(0x9E37_79B9_7F4A_7C15 ^ (kind as u64 + 1));
    let mut out = String::new();
    loop {
        let before = out.len();
        KINDS[kind].1(&mut dice, &mut out);
        if out.len() > len {
            out.truncate(before);
            // What is left is spaces, so that no template or comment is cut.
            out.extend(std::iter::repeat_n(' ', len - before));
            return out.into_bytes();
        }
    }
}

const NAMES: [&str; 12] =
    ["engine", "power", "idle_code", "air", "x", "list", "total_flow", "rating", "n", "site", "print", "fan_2"];
const KEYWORDS: [&str; 8] = ["and", "not", "or", "return", "true", "false", "null", "self"];
const NUMBERS: [&str; 8] = ["0", "42", "3.5", "0x1F", "1e-3", "17", "250", "0b101"];
const SIGNS: [&str; 12] = ["+", "-", "*", "/", "==", "<=", "+=", "..", ">", "!=", "%", "="];

fn statement(dice: &mut Dice, out: &mut String) {
    match dice.below(8) {
        0 => {
            out.push_str("# ");
            out.push_str(dice.one_of(&NAMES));
            out.push_str(" by the maker's sheet, in kilowatts\n");
            return;
        }
        1 => {
            out.push_str("if ");
            value(dice, out);
            out.push_str("\n  ");
        }
        2 => {
            out.push_str("for ");
            out.push_str(dice.one_of(&NAMES));
            out.push_str(" in ");
            value(dice, out);
            out.push_str("\n    ");
        }
        _ => {}
    }
    out.push_str(dice.one_of(&NAMES));
    out.push_str(" = ");
    for _ in 0..=dice.below(3) {
        value(dice, out);
        out.push(' ');
        out.push_str(dice.one_of(&SIGNS));
        out.push(' ');
    }
    value(dice, out);
    out.push('\n');
}

fn value(dice: &mut Dice, out: &mut String) {
    match dice.below(7) {
        0 | 1 => out.push_str(dice.one_of(&NAMES)),
        2 => out.push_str(dice.one_of(&NUMBERS)),
        3 => out.push_str(dice.one_of(&KEYWORDS)),
        4 => {
            out.push_str(dice.one_of(&NAMES));
            out.push('.');
            out.push_str(dice.one_of(&NAMES));
            out.push_str("()");
        }
        5 => {
            out.push_str("'flow is {");
            out.push_str(dice.one_of(&NAMES));
            out.push_str(":>8.2} per {");
            out.push_str(dice.one_of(&NAMES));
            out.push_str("}'");
        }
        _ => {
            out.push_str("[1, ");
            out.push_str(dice.one_of(&NAMES));
            out.push_str(", 'off']");
        }
    }
}

/// A name of 4 to 19 letters from `first` on, and a space or a newline
fn name(dice: &mut Dice, out: &mut String, first: char, letters: usize) {
    for _ in 0..4 + dice.below(16) {
        out.extend(char::from_u32(first as u32 + dice.below(letters) as u32));
    }
    out.push(if dice.below(8) == 0 { '\n' } else { ' ' });
}

/// Words of the text of a long comment or string
fn words(dice: &mut Dice, out: &mut String, count: usize) {
    for _ in 0..count {
        out.push_str(dice.one_of(&NAMES));
        out.push(' ');
    }
}

fn comment(dice: &mut Dice, out: &mut String) {
    let is_multi = dice.below(2) == 0;
    out.push_str(if is_multi { "#- " } else { "# " });
    words(dice, out, 60);
    if is_multi {
        out.push('\n');
        words(dice, out, 60);
    }
    out.push_str(if is_multi { "-#\n" } else { "\n" });
}

fn string(dice: &mut Dice, out: &mut String) {
    let (open, close) = [("'", "'"), ("\"", "\""), ("r'", "'"), ("r#'", "'#")][dice.below(4)];
    out.push_str(open);
    words(dice, out, 100);
    out.push_str(close);
    out.push('\n');
}

/// Templates in templates
fn template(dice: &mut Dice, out: &mut String, depth: usize) {
    let quote = if dice.below(2) == 0 { '\'' } else { '"' };
    out.push(quote);
    out.push_str(dice.one_of(&NAMES));
    out.push('{');
    if depth == 0 {
        out.push_str(dice.one_of(&NAMES));
        out.push_str(":>8.2");
    } else {
        template(dice, out, depth - 1);
    }
    out.push('}');
    out.push_str(dice.one_of(&NAMES));
    out.push(quote);
    if depth == 15 {
        out.push('\n');
    }
}

/// Format strings as scripts have them
pub fn formats(count: usize) -> Vec<Vec<u8>> {
    let mut dice = Dice(0x51ED_270B);
    let fills = ["", "", "_", "0", "\u{E9}", "e\u{301}", "\u{6F22}", "*"];
    let shapes = ["5", ">8.2", "<12", "^20", ".3", "08", "x", "?", "", "10.4e"];
    let one = |dice: &mut Dice| {
        let shape = dice.one_of(&shapes);
        let fill = if shape.starts_with(['<', '^', '>']) { dice.one_of(&fills) } else { "" };
        format!("{fill}{shape}").into_bytes()
    };
    (0..count).map(|_| one(&mut dice)).collect()
}
