//! A script that is being edited, line by line, and the commands that do so.

use crate::folds::{folded, folds, records};
use koto_lexer::{Edition, Editor, Scanned};
use std::io::{self, BufRead, Write};

pub struct Session {
    pub editor: Editor,
}

impl Session {
    pub fn new(source: Vec<u8>, table: Vec<u32>) -> Session {
        Session { editor: Editor::new(source, table, Edition::WITH_GB9C) }
    }

    /// The bytes of a line, from 0, without its newline. None past the last line
    pub fn line(&self, line: usize) -> Option<(usize, usize)> {
        let source = self.editor.source();
        let mut start = 0;
        for _ in 0..line {
            start += source[start..].iter().position(|byte| *byte == b'\n')? + 1;
        }
        let len = source[start..].iter().position(|byte| *byte == b'\n').unwrap_or(source.len() - start);
        Some((start, start + len))
    }

    /// Removes so many bytes of a line, from a byte of it on, and puts a text in. None where the line has no such bytes; nothing changes then
    pub fn edit_line(&mut self, line: usize, byte: usize, removed: usize, put_in: &[u8]) -> Option<Scanned> {
        let (start, end) = self.line(line)?;
        if end - start < byte.checked_add(removed)? {
            return None;
        }
        self.editor.edit(start + byte, removed, put_in)
    }

    /// Obeys commands, one a line, until there are no more:
    ///
    ///     edit LINE BYTE REMOVED TEXT    edits a line, and says how a scan of the script ends now
    ///     folds                          tells what folds and hides lines: depth, lines, bytes
    ///     show DEPTH                     prints the script with all of that depth folded
    pub fn serve(&mut self, commands: impl BufRead, mut to: impl Write) -> io::Result<()> {
        for command in commands.lines() {
            let command = command?;
            let mut words = command.splitn(5, ' ');
            let (name, numbers) = (words.next(), [(); 3].map(|()| words.next().and_then(|word| word.parse().ok())));
            match (name, numbers) {
                (Some("edit"), [Some(line), Some(byte), Some(removed)]) => {
                    match self.edit_line(line, byte, removed, words.next().unwrap_or("").as_bytes()) {
                        Some(scanned) => writeln!(to, "{scanned:?}")?,
                        None => writeln!(to, "no such place")?,
                    }
                }
                (Some("folds"), _) => {
                    for fold in folds(&records(&self.editor)).iter().filter(|fold| fold.has_lines()) {
                        let (first, last) = fold.lines;
                        writeln!(
                            to,
                            "depth {}, lines {first} to {last}, bytes {} to {}",
                            fold.depth, fold.start, fold.end
                        )?;
                    }
                }
                (Some("show"), [Some(depth), ..]) => {
                    let folds = folds(&records(&self.editor));
                    to.write_all(&folded(self.editor.source(), &folds, depth as u32))?;
                }
                _ => writeln!(to, "edit LINE BYTE REMOVED TEXT, folds, or show DEPTH")?,
            }
        }
        Ok(())
    }
}
