//! The Rust side: koto's lexer, format options and pool as they are, over the real Unicode crates.
//! Below are the names that koto's files take from files that are not built here, and what is timed.

#[allow(dead_code)]
mod constant_pool;
#[allow(dead_code)]
mod lexer;
#[allow(dead_code)]
mod span;
#[allow(dead_code)]
mod string_format_options;

use constant_pool::{ConstantIndex, ConstantPoolBuilder};
use lexer::Token;
pub use lexer::{KotoLexer, LexedToken};
use span::{Position, Span};
use std::hint::black_box;
use string_format_options::StringFormatOptions;
use unicode_segmentation::UnicodeSegmentation;

mod error {
    pub enum InternalError {
        ConstantPoolCapacityOverflow,
    }
}

/// Named by `ConstantPool::get_string_slice`, which nothing here calls
pub struct StringSlice<T>(std::marker::PhantomData<T>);

impl<T> StringSlice<T> {
    /// # Safety
    /// Nothing is taken on trust here.
    pub unsafe fn new_unchecked(_: koto_memory::Ptr<String>, _: std::ops::Range<T>) -> Self {
        Self(std::marker::PhantomData)
    }
}

/// Is this an Error that comes again for ever?
fn is_stuck(lexed: &LexedToken, before: usize) -> bool {
    lexed.token == Token::Error && lexed.source_bytes.end <= before
}

/// Reads every token and keeps none. The count of tokens.
pub fn iterate(source: &[u8]) -> usize {
    let source = std::str::from_utf8(source).expect("a well-formed input");
    let (mut count, mut byte) = (0, 0);
    for lexed in KotoLexer::new(source) {
        count += 1;
        if is_stuck(&lexed, byte) {
            break;
        }
        byte = lexed.source_bytes.end;
        black_box(&lexed);
    }
    count
}

/// Reads every token into a vector that has room.
pub fn collect(source: &[u8], tokens: &mut Vec<LexedToken>) -> usize {
    let source = std::str::from_utf8(source).expect("a well-formed input");
    tokens.clear();
    let mut byte = 0;
    for lexed in KotoLexer::new(source) {
        let (stuck, end) = (is_stuck(&lexed, byte), lexed.source_bytes.end);
        tokens.push(lexed);
        if stuck {
            break;
        }
        byte = end;
    }
    black_box(&tokens);
    tokens.len()
}

/// A lexer that has queued all tokens of a source, by `peek(0)`
pub fn queued(source: &str) -> KotoLexer<'_> {
    let mut lexer = KotoLexer::new(source);
    let mut n = 0;
    while lexer.peek(n).is_some() {
        n += 1;
    }
    lexer
}

/// Parses each format string with one pool, empty at the start. How many had options.
pub fn parse_all(formats: &[&[u8]]) -> usize {
    let (mut fine, mut pool) = (0, ConstantPoolBuilder::default());
    for format in formats {
        let Ok(format) = std::str::from_utf8(format) else {
            continue;
        };
        if black_box(StringFormatOptions::parse(format, &mut pool)).is_ok() {
            fine += 1;
        }
    }
    fine
}

/// How many clusters a text has
pub fn clusters(text: &[u8]) -> usize {
    std::str::from_utf8(text).expect("a well-formed input").graphemes(true).count()
}

/// A text in the middle of fills, as koto would count it: the count of bytes
pub fn pad(text: &[u8], width: usize, fill: &str, out: &mut [u8]) -> usize {
    let fills = width.saturating_sub(clusters(text));
    let mut end = 0;
    let mut put = |piece: &[u8]| {
        out[end..end + piece.len()].copy_from_slice(piece);
        end += piece.len();
    };
    for _ in 0..fills / 2 {
        put(fill.as_bytes());
    }
    put(text);
    for _ in 0..fills - fills / 2 {
        put(fill.as_bytes());
    }
    end
}
