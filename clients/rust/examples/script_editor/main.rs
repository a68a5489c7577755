//! What a script editor does with the lexer: it holds a script, rescans it after each edit of a line, and folds templates by their depth.
//!
//!     script_editor SCRIPT TABLE <COMMANDS        `Session::serve` has the commands

mod folds;
mod session;

use koto_lexer::{read_table, TableFile, TABLE_MOST};
use std::io;

fn main() -> io::Result<()> {
    let paths: Vec<String> = std::env::args().skip(1).collect();
    assert_eq!(paths.len(), 2, "usage: script_editor SCRIPT TABLE <COMMANDS");
    let (source, file) = (std::fs::read(&paths[0])?, std::fs::read(&paths[1])?);
    let mut row = vec![0; TABLE_MOST];
    match read_table(&file, &mut row) {
        TableFile::Read(runs) => row.truncate(runs),
        refused => panic!("the table's file is refused: {refused:?}"),
    }
    session::Session::new(source, row).serve(io::stdin().lock(), io::stdout().lock())
}
