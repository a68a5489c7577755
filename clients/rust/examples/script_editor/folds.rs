//! What a script editor can fold: strings, the templates in them, and the maps in these, by the depth of each token.

use koto_lexer::{next, Cursor, Editor, Given, Record, Status};

const STRING_END: u32 = 8;
const COLON: u32 = 11;
const CURLY_CLOSE: u32 = 21;

/// What folds: all that one token opens, up to the token that closes it, or to the end of what was read
#[derive(Clone, Copy, Debug, PartialEq, Eq)]
pub struct Fold {
    /// The depth inside: 1 in a string, 2 in a template's code, more in what is open there
    pub depth: u32,
    /// Its bytes, with the tokens that open and close it
    pub start: u32,
    pub end: u32,
    /// The bytes between these tokens; up to the end, where none closes it
    pub inner: (u32, u32),
    /// The lines on which it starts and ends
    pub lines: (u32, u32),
}

impl Fold {
    /// Whether it hides a line: what stands on one line need not fold.
    pub fn has_lines(&self) -> bool {
        self.lines.0 < self.lines.1
    }
}

/// The records of an editor's script, each once, also where the last would come for ever
pub fn records(editor: &Editor) -> Vec<Record> {
    let mut cursor = Cursor { taken: 0, queued: 0, count: editor.scanned().count(), status: Status::End };
    let mut records = Vec::with_capacity(cursor.count);
    while let Given::Token(record) = next(editor.list(), &mut cursor) {
        records.push(record);
    }
    records
}

/// The folds of a script, in the order in which they end. A token's depth is how many modes were open before it: where it is more than that of the
/// token before, that token opened one, and where it is less, that token closed one. Format options, which a colon opens, do not fold.
pub fn folds(records: &[Record]) -> Vec<Fold> {
    let mut found = vec![];
    let mut open: Vec<&Record> = vec![];
    for pair in records.windows(2) {
        if pair[0].depth < pair[1].depth {
            open.push(&pair[0]);
        } else if pair[1].depth < pair[0].depth {
            let opening = open.pop().expect("the first token has depth 0");
            found.extend(fold(pair[0].depth, opening, &pair[0]));
        }
    }
    // What is open at the last token ends with it.
    while let (Some(opening), Some(last)) = (open.pop(), records.last()) {
        found.extend(fold(open.len() as u32 + 1, opening, last));
    }
    found
}

fn fold(depth: u32, opening: &Record, last: &Record) -> Option<Fold> {
    let closes = last.depth == depth && (last.kind == STRING_END || last.kind == CURLY_CLOSE);
    (opening.kind != COLON).then_some(Fold {
        depth,
        start: opening.start,
        end: last.end,
        inner: (opening.end, if closes { last.start } else { last.end }),
        lines: (opening.start_line, last.end_line),
    })
}

/// The script with the inside of each fold of this depth left out, as an editor shows it
pub fn folded(source: &[u8], folds: &[Fold], depth: u32) -> Vec<u8> {
    let mut shown = vec![];
    let mut from = 0;
    for fold in folds.iter().filter(|fold| fold.depth == depth) {
        shown.extend_from_slice(&source[from..fold.inner.0 as usize]);
        shown.extend_from_slice("\u{2026}".as_bytes());
        from = fold.inner.1 as usize;
    }
    shown.extend_from_slice(&source[from..]);
    shown
}
