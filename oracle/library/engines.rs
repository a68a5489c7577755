//! Sources that the second engine reads otherwise than the first: by the class of a byte, by blocks, and by the end of a name.

/// Where a byte may stand: code, a name, a number, behind a dot, a comment, a comment of many lines, literals, raw contents, a template, a map in one,
/// format options, and behind an end quote
const STATES: [&str; 14] =
    ["", "x ", "ab", "1", "x.", "# ", "#- ", "'", "\"", "r'", "'a{", "'a{{", "'a{x:", "'a'"];

/// What may close what stands open
const ENDS: [&str; 4] = ["", "'", "}'", "-#\n"];

/// Every byte value at every state, closed and unclosed
fn bytes_at_states() -> Vec<Vec<u8>> {
    let mut sources = vec![];
    for state in STATES {
        for byte in 0..=255 {
            for end in ENDS {
                sources.push([state.as_bytes(), &[byte], end.as_bytes()].concat());
            }
        }
    }
    sources
}

/// A text of letters with one odd piece at each place, open and closed
fn with_odd(len: usize, open: &str, close: &str, odd: &[&[u8]], sources: &mut Vec<Vec<u8>>) {
    for place in 0..=len {
        for piece in odd {
            let text = [&b"a".repeat(place), *piece, &b"b".repeat(len - place)].concat();
            sources.push([open.as_bytes(), &text, close.as_bytes(), b" x\n"].concat());
        }
    }
}

const ODD: [&[u8]; 14] =
    [b"'", b"\"", b"{", b"\\", b"\\'", b"#", b"-#", b"\n", b"\r\n", b"\r", b"\x7f", b"\t", "\u{e9}".as_bytes(), "\u{6f22}".as_bytes()];

/// Blocks of 64 with the odd byte at each place: in comments, literals and raw strings, of one block and of two
fn blocks() -> Vec<Vec<u8>> {
    let mut sources = vec![];
    for (open, close) in [("# ", ""), ("#- ", "-#"), ("'", "'"), ("\"", "\""), ("r'", "'"), ("r#\"", "\"#")] {
        for len in [63, 64, 65, 130] {
            with_odd(len, open, close, &ODD, &mut sources);
        }
    }
    sources
}

/// Names of each length to 40 with the odd byte at each place, alone and behind a dot
fn names() -> Vec<Vec<u8>> {
    let mut sources = vec![];
    for len in 0..=40 {
        for open in ["a", "_", "x.a", "\u{e9}"] {
            with_odd(len, open, "", &[b"", b"_", b"0", b"-", b".", b"'", b"`", b"@", "\u{e9}".as_bytes(), "\u{301}".as_bytes()], &mut sources);
        }
    }
    sources
}

/// Templates in templates, to 64 modes and past them
fn templates() -> Vec<Vec<u8>> {
    let mut sources = vec![];
    for depth in 0..=36 {
        for (open, close) in [("'{", "}'"), ("\"a{x ", " y}b\""), ("'{{", "}}'")] {
            let inside = [open.repeat(depth), "x".into(), close.repeat(depth), "\n".into()].concat();
            sources.push(inside.into_bytes());
            sources.push(open.repeat(depth).into_bytes());
        }
    }
    sources
}

pub fn sources() -> Vec<Vec<u8>> {
    [bytes_at_states(), blocks(), names(), templates()].concat()
}
