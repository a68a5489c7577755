//! Many questions in one run: a line of hex for each case, a line of numbers for each answer.

use crate::{
    Asked, cluster, fail, format, from_hex, kpt, number, option_numbers, put, put_hex, put_numbers, tokens, utf8, walk,
};
use answers::{Parse, Scan, Status};
use std::fmt::Write;
use std::io::BufRead;

/// What stands for no number
const NONE: u32 = u32::MAX;

pub fn batch(asked: &Asked) {
    let [command] = asked.words.as_slice() else {
        fail("batch of which command?");
    };
    let answer: fn(&Asked, &[u8], &mut String) = match command.as_str() {
        "tokens" => |asked, hex, out| batch_tokens(&tokens(asked, &from_hex(hex)), out),
        "format" => |asked, hex, out| batch_format(&format(asked, &from_hex(hex)), out),
        "cluster" => |asked, hex, out| {
            let _ = match cluster(asked, &from_hex(hex)) {
                Ok(length) => write!(out, "{length}"),
                Err((number, place)) => write!(out, "{} {place}", 100 + number),
            };
        },
        "utf8" => |_, hex, out| {
            let (answer, place) = utf8(&from_hex(hex));
            let _ = write!(out, "{answer} {place}");
        },
        "walk" => |asked, line, out| {
            let (hex, calls) = split_once(line);
            out.push_str(walk(asked, &from_hex(hex), calls).trim_end().replace('\n', ";").as_str());
        },
        "file" => |_, line, out| {
            let (hex, room) = split_once(line);
            let _ = match kpt::read(&from_hex(hex), number(room)) {
                Ok(row) => write!(out, "0 0 {}", row.len()),
                Err((number, place)) => write!(out, "{number} {place} 0"),
            };
        },
        _ => fail("batch takes tokens, format, walk, cluster, utf8 or file"),
    };
    let mut out = String::new();
    for line in std::io::stdin().lock().split(b'\n') {
        let line = line.unwrap_or_else(|_| fail("standard input can't be read"));
        answer(asked, &line, &mut out);
        out.push('\n');
        if out.len() > 1 << 16 {
            put(&out);
            out.clear();
        }
    }
    put(&out);
}

/// A line's hex and what stands after it
fn split_once(line: &[u8]) -> (&[u8], &str) {
    let Some(at) = line.iter().position(|&byte| byte == b' ') else {
        fail("hex and something after it were expected");
    };
    (&line[..at], std::str::from_utf8(&line[at + 1..]).unwrap_or_default())
}

fn batch_tokens(scan: &Scan, out: &mut String) {
    let status = match scan.status {
        Status::End => 0,
        Status::Stuck => 1,
        Status::Refused(number) => 100 + number,
    };
    let _ = write!(out, "{status} {} {}", scan.records.len(), scan.place);
    for record in &scan.records {
        out.push(' ');
        put_numbers(out, record);
    }
}

fn batch_format(parse: &Parse, out: &mut String) {
    match &parse.answer {
        Ok(options) => {
            out.push_str("0 ");
            put_numbers(out, &option_numbers(options).map(|n| n.unwrap_or(NONE)));
        }
        Err((number, value)) => {
            let _ = write!(out, "{number} {value}");
        }
    }
    out.push_str(" |");
    for string in &parse.strings {
        out.push(' ');
        put_hex(out, string.as_bytes());
    }
}
