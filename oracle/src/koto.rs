//! The root of the crate that is built twice from koto's copied files: over the real Unicode crates and over a lent table.
//! Below are the names that koto's files take from files we don't have, and the questions that the oracle asks.

#[allow(dead_code)]
mod constant_pool;
mod kinds;
#[allow(dead_code)]
mod lexer;
#[allow(dead_code)]
mod span;
#[allow(dead_code)]
mod string_format_options;

use answers::{Call, Fill, Judge, Options, Parse, Pool, Record, Scan, Shown, Status};
use constant_pool::{Constant, ConstantIndex, ConstantPoolBuilder};
use lexer::{KotoLexer, LexedToken, StringQuote, StringType, Token};
use span::{Position, Span};
use string_format_options::{StringFormatError, StringFormatOptions};
use unicode_segmentation::UnicodeSegmentation;

mod error {
    pub enum InternalError {
        ConstantPoolCapacityOverflow,
    }
}

/// Named by `ConstantPool::get_string_slice`, which the oracle never calls
pub struct StringSlice<T>(std::marker::PhantomData<T>);

impl<T> StringSlice<T> {
    /// # Safety
    /// Nothing is taken on trust here.
    pub unsafe fn new_unchecked(_: koto_memory::Ptr<String>, _: std::ops::Range<T>) -> Self {
        Self(std::marker::PhantomData)
    }
}

/// The pool's room and what was added to it, for the line that stands first in the copied `add_string`
mod desk {
    use std::cell::{Cell, RefCell};

    thread_local! {
        static ROOM: Cell<(usize, usize)> = const { Cell::new((0, 0)) };
        static ADDED: RefCell<Vec<(usize, usize)>> = const { RefCell::new(vec![]) };
    }

    pub fn open(entries: usize, bytes: usize) {
        ROOM.set((entries, bytes));
        ADDED.take();
    }

    /// Notes the string, and answers whether it is there already or fits.
    pub fn admits(is_there: bool, entries: usize, bytes: usize, s: &str) -> bool {
        ADDED.with_borrow_mut(|added| added.push((s.as_ptr() as usize, s.len())));
        let room = ROOM.get();
        is_there || (entries < room.0 && bytes + s.len() <= room.1)
    }

    /// The address and length of each string that was handed to `add_string`
    pub fn added() -> Vec<(usize, usize)> {
        ADDED.take()
    }
}

pub const JUDGE: Judge = Judge {
    scan,
    walk,
    parse,
    first_cluster: |text| text.graphemes(true).next().map_or(0, str::len),
    clusters: |text| text.graphemes(true).map(str::len).collect(),
};

const MODES: usize = 64;
const QUEUE: usize = 65_535;

fn detail(token: &Token) -> u32 {
    let (quote, raw) = match token {
        Token::StringStart(StringType::Normal(quote)) => (quote, 0),
        Token::StringStart(StringType::Raw(raw)) => (&raw.quote, 2 + 2 * u32::from(raw.hash_count)),
        _ => return 0,
    };
    raw + u32::from(*quote == StringQuote::Single)
}

// `depth` is the length of the lexer's stack before the token, which it does not hand out.
fn record(lexed: &LexedToken, depth: u32) -> Record {
    let Span { start, end } = lexed.span;
    [
        kinds::kind(&lexed.token),
        detail(&lexed.token),
        lexed.source_bytes.start as u32,
        lexed.source_bytes.end as u32,
        start.line,
        start.column,
        end.line,
        end.column,
        lexed.indent as u32,
        depth,
    ]
}

fn scan(source: &str, room: usize) -> Scan {
    let mut lexer = KotoLexer::new(source);
    let (mut records, mut forbidden) = (vec![], None);
    let status = loop {
        let place = lexer.current_byte();
        let depth = lexer.mode_depth() as u32;
        let is_within_template = lexer.is_within_template();
        let refused = |number, records| Scan { status: Status::Refused(number), records, place, forbidden: None };
        let Some(lexed) = lexer.next() else {
            break Status::End;
        };
        if records.len() == room {
            return refused(4, records);
        }
        if lexer.mode_depth() > MODES {
            return refused(5, records);
        }
        if forbidden.is_none() && is_forbidden(&lexed.token, is_within_template) {
            forbidden = Some(records.len());
        }
        records.push(record(&lexed, depth));
        if lexed.token == Token::Error && lexer.current_byte() == place {
            break Status::Stuck;
        }
    };
    Scan { status, records, place: lexer.current_byte(), forbidden }
}

// Document 02, C-14: the start of a raw string, and the "{" of a template inside a template.
fn is_forbidden(token: &Token, is_within_template: bool) -> bool {
    match token {
        Token::StringStart(StringType::Raw(_)) => true,
        Token::CurlyOpen => is_within_template,
        _ => false,
    }
}

fn walk(source: &str, calls: &[Call]) -> (Vec<Shown>, usize) {
    let mut lexer = KotoLexer::new(source);
    // A token that is shown was read before, so that the stack no longer tells its depth: a second lexer has told it of every token.
    let depths: Vec<u32> = scan(source, usize::MAX).records.iter().map(|record| record[9]).collect();
    let mut taken = 0_usize;
    let shown = calls.iter().map(|call| {
        let ahead = match *call {
            Call::Next => 0,
            Call::Peek(n) | Call::LookAhead(n) => n,
        };
        match answer(&mut lexer, *call) {
            Ok(Some(lexed)) => {
                // Behind an Error that stands still comes the same again.
                let depth = depths[taken.saturating_add(ahead).min(depths.len() - 1)];
                taken += usize::from(matches!(call, Call::Next));
                Shown::Record(record(&lexed, depth))
            }
            Ok(None) => Shown::Nothing,
            Err(number) => Shown::Refused(number),
        }
    });
    let shown = shown.collect();
    (shown, lexer.queued())
}

/// The token that a call shows, if there is one, or the number of a refusal
fn answer(lexer: &mut KotoLexer, call: Call) -> Result<Option<LexedToken>, u32> {
    Ok(match call {
        Call::Next => lexer.next(),
        Call::Peek(n) => {
            let queued = lexer.queued();
            // Further on the Rust's subtraction would pass below 0.
            if n > queued + 1 {
                return Err(6);
            }
            let is_left = lexer.source().get(lexer.current_byte()..).is_some_and(|rest| !rest.is_empty());
            if n <= queued && queued == QUEUE && is_left {
                return Err(7);
            }
            lexer.peek(n).cloned()
        }
        Call::LookAhead(n) => {
            // The tokens up to that one, as far as there are any; at a lexer that is stuck no more than one too many.
            let needed = lexer.clone().take(n.saturating_add(1)).take(QUEUE + 1).count();
            if needed > QUEUE {
                return Err(7);
            }
            // A look just behind the queue queues one.
            while lexer.queued() < needed {
                lexer.peek(lexer.queued());
            }
            lexer.clone().nth(n)
        }
    })
}

fn parse(format_string: &str, pool: &Pool) -> Parse {
    let mut builder = ConstantPoolBuilder::default();
    for s in &pool.strings {
        builder.push_entry(s);
    }
    desk::open(pool.entries, pool.bytes);
    let answer = match StringFormatOptions::parse(format_string, &mut builder) {
        Ok(options) => Ok(Options {
            alignment: options.alignment as u32,
            width: options.min_width,
            precision: options.precision,
            representation: options.representation.map(|r| r as u32),
            fill: options.fill_character.map(|index| fill(format_string, index)),
        }),
        Err(StringFormatError::ExpectedNumber(c)) => Err((10, u64::from(c))),
        Err(StringFormatError::FormatNumberIsTooLarge(n)) => Err((11, n)),
        Err(StringFormatError::UnexpectedToken(c)) => Err((12, u64::from(c))),
        Err(StringFormatError::InternalError) => Err((13, 0)),
    };
    let string = |constant| match constant {
        Constant::Str(s) => s.to_string(),
        _ => unreachable!("only strings were added"),
    };
    Parse { answer, strings: builder.build().iter().map(string).collect() }
}

// The Rust keeps the fill's index alone. Its place follows from what was handed to `add_string`: a fill from the start of
// the format string is a slice of it, and comes first; each fill "0" is a literal, one for each zero in a row after the
// alignment, and the last one counts.
fn fill(format_string: &str, index: ConstantIndex) -> Fill {
    let index = u32::from(index);
    let mut added = desk::added().into_iter().peekable();
    let slice = added.next_if(|&(address, _)| address == format_string.as_ptr() as usize);
    let zeros = added.count();
    let (place, length) = match slice {
        Some((_, length)) if zeros == 0 => (0, length),
        Some((_, length)) => (length + zeros, 1),
        None => (zeros - usize::from(!format_string.starts_with(['<', '^', '>'])), 1),
    };
    assert!(slice.is_some() && zeros == 0 || format_string.as_bytes()[place] == b'0');
    Fill { place, length, index }
}
