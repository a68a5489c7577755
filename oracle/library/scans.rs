//! Sources: the scan, a walk over its list, the first cluster, and the UTF-8 of each.

use crate::calls::{Cursor, SOURCE_MOST, Said};
use crate::damage::damaged;
use crate::hosts::{self, Host};
use crate::rich::Dice;
use crate::{Run, engines, foreign, scripts};
use answers::{Call, Shown, Status, text_of};
use koto_lexer::raw::Record;

/// What stands in a list before a scan
const OLD: u32 = 0xDEAD_BEEF;

/// The most tokens that may be queued
const QUEUE: usize = 65_535;

pub fn compare(run: &mut Run, dice: &mut Dice, count: usize) {
    full_queues(run);
    let mut done = [0; 5];
    for source in scripts::long(dice) {
        done[0] += one(run, dice, &source);
    }
    for source in scripts::limits() {
        done[1] += one(run, dice, &source);
    }
    for source in scripts::short() {
        done[2] += one(run, dice, &source);
    }
    for source in engines::sources() {
        done[3] += one(run, dice, &source);
    }
    while done.iter().sum::<usize>() < count {
        let source = match dice.below(10) {
            0 => run.kinds.text(dice, 200).into_bytes(),
            1 => [
                b"x = '".as_slice(),
                run.kinds.text(dice, 60).as_bytes(),
                b"{y:",
                run.kinds.text(dice, 40).as_bytes(),
                b"}'",
            ]
            .concat(),
            2..4 => scripts::script(dice),
            _ => scripts::nested(dice),
        };
        done[4] += one(run, dice, &source);
        let source = damaged(dice, &source);
        done[4] += one(run, dice, &source);
    }
    let [long, limits, short, engines, random] = done;
    println!(
        "sources: {} ({long} of about 1 MiB, {limits} at other limits, {short} short, {engines} for the second engine, {random} random)",
        done.iter().sum::<usize>()
    );
}

/// 1 for a source that was not tried before, and now is
pub fn one(run: &mut Run, dice: &mut Dice, source: &[u8]) -> usize {
    if !run.tally.is_new("source", source) {
        return 0;
    }
    for host in hosts::some(run, dice) {
        by_host(run, dice, source, &host);
    }
    texts(run, source, dice);
    1
}

/// A source's scan and its first cluster, as one host has them; what they are
pub fn by_host(run: &mut Run, dice: &mut Dice, source: &[u8], host: &Host) -> (Vec<u32>, usize) {
    run.library.source.fill(source);
    // Most lists have room for every source, and some a few words more; others are short.
    let room = match dice.below(8) {
        0 => dice.below(8 * source.len().min(400) + 9),
        1 => 8 * (source.len() + source.len() / 3) + dice.below(8),
        _ => 8 * (source.len() + source.len() / 3),
    };
    run.tally.count("sources", host.name);
    let list = scan(run, source, room, host, dice);
    if source.len() < 10_000 || source.len() > SOURCE_MOST || dice.below(4) == 0 {
        foreign::one(run, dice, source, host);
    }
    (list, first_cluster(run, source, host))
}

pub fn put(list: &mut [u32], records: &[answers::Record]) {
    for (words, record) in list.chunks_exact_mut(8).zip(records) {
        words[0] = record[0] | record[1] << 7 | record[9] << 20;
        words[1..].copy_from_slice(&record[2..9]);
    }
}

/// Document 02's C-5: a record without its start, and bit 28 on an Error that stands still
fn put_half(list: &mut [u32], records: &[answers::Record], is_stuck: bool) {
    for (i, (words, record)) in list.chunks_exact_mut(5).zip(records).enumerate() {
        let mark = u32::from(is_stuck && i + 1 == records.len());
        words[0] = record[0] | record[1] << 7 | record[9] << 20 | mark << 28;
        words[1] = record[3];
        words[2..].copy_from_slice(&record[6..9]);
    }
}

/// The list that a host has, by both engines of the scan, by the one at half the size and by the profile's
fn scan(run: &mut Run, source: &[u8], room: usize, host: &Host, dice: &mut Dice) -> Vec<u32> {
    let mut list = vec![OLD; room];
    // Room for as many records, and sometimes a few words more
    let mut half = vec![OLD; 5 * (room / 8) + dice.below(5) * dice.below(2)];
    let (wanted, forbidden) = match host.text(run, source, SOURCE_MOST) {
        Err((number, place)) => ((number, (2, 0, place)), None),
        Ok(text) => {
            let scan = (host.judge.scan)(text, room / 8);
            if host.name == hosts::NEWER.name {
                run.tally.deepest(scan.records.iter().map(|record| record[9]).max());
            }
            put(&mut list, &scan.records);
            put_half(&mut half, &scan.records, matches!(scan.status, Status::Stuck));
            let said = match scan.status {
                Status::End => (0, (0, scan.records.len(), scan.place)),
                Status::Stuck => (0, (1, scan.records.len(), scan.place)),
                Status::Refused(number) => (number, (2, scan.records.len(), scan.place)),
            };
            (said, scan.forbidden)
        }
    };
    // Record `forbidden` is the first that the profile refuses, by koto's own stack of modes.
    let by_profile = forbidden.map_or(wanted, |index| (21, (2, wanted.1.1, index)));
    run.library.list.fill(&vec![OLD; room]);
    let said = run.library.scan_profile(host.table, host.edition);
    scanned(run, "scan_profile", said, by_profile, source, &list);
    let is_walked = source.len() < 10_000 && dice.below(3) == 0;
    run.library.list.fill(&vec![OLD; half.len()]);
    let said = run.library.scan_half(host.table, host.edition);
    let by_half = match wanted {
        (0, (status, count, byte)) => (0, (status + 3, count, byte)),
        refused => refused,
    };
    walked(run, "scan_half", said, by_half, source, &half, host, is_walked.then_some(&mut *dice));
    run.library.list.fill(&vec![OLD; room]);
    let said = run.library.scan_fast(host.table, host.edition);
    scanned(run, "scan_fast", said, wanted, source, &list);
    run.library.list.fill(&vec![OLD; room]);
    let said = run.library.scan(host.table, host.edition);
    walked(run, "scan", said, wanted, source, &list, host, is_walked.then_some(dice));
    list
}

/// Notes what a scan said and left, and walks over that.
#[allow(clippy::too_many_arguments)]
fn walked(
    run: &mut Run,
    call: &'static str,
    said: Said<(u32, usize, usize)>,
    wanted: (u32, (u32, usize, usize)),
    source: &[u8],
    list: &[u32],
    host: &Host,
    dice: Option<&mut Dice>,
) {
    let (number, (status, count, _)) = (said.number, said.answer);
    scanned(run, call, said, wanted, source, list);
    if let (0, Some(dice)) = (number, dice) {
        walk(run, source, Cursor { taken: 0, queued: 0, count, status }, host, dice);
    }
}

/// Notes what a scan said, and the list that it left.
fn scanned(
    run: &mut Run,
    call: &'static str,
    said: Said<(u32, usize, usize)>,
    wanted: (u32, (u32, usize, usize)),
    source: &[u8],
    list: &[u32],
) {
    run.tally.note(call, said.number, &(said.number, said.answer), &wanted, source);
    if !said.whole || run.library.source.get() != source {
        run.tally.spoiled(call, source);
    }
    if run.library.list.get() != list {
        run.tally.note(call, said.number, &"another list", &"the records, and the rest as before", source);
    }
}

fn record_of(record: answers::Record) -> Record {
    let [kind, detail, start, end, start_line, start_column, end_line, end_column, indent, depth] = record;
    Record { kind, detail, start, end, start_line, start_column, end_line, end_column, indent, depth }
}

/// A place to look at is one that may be queued, `queued` being what is queued at most, or a little further; a look ahead now and then goes so
/// far that a lexer that is stuck has just room for it in its queue, or none.
fn some_call(dice: &mut Dice, queued: &mut usize) -> Call {
    if dice.below(3) == 0 {
        return Call::Next;
    }
    let n = if dice.below(4) == 0 { dice.below(*queued + 4) } else { dice.below(*queued + 1) };
    if dice.below(2) == 0 {
        *queued += 1;
        return Call::Peek(n);
    }
    if dice.below(200) == 0 {
        return Call::LookAhead([QUEUE - 2, QUEUE - 1, QUEUE, usize::MAX][dice.below(4)]);
    }
    *queued = (*queued).max(n + 1);
    Call::LookAhead(n)
}

/// Some calls of `next`, `peek` and `look_ahead` over the list of a scan
fn walk(run: &mut Run, source: &[u8], start: Cursor, host: &Host, dice: &mut Dice) {
    let mut at_most = 0;
    let calls: Vec<Call> = (0..dice.below(16)).map(|_| some_call(dice, &mut at_most)).collect();
    walk_by(run, source, start, host, &calls);
}

/// Sources that end after about as many tokens as may be queued, and looks that fill the queue or are one too far for it
fn full_queues(run: &mut Run) {
    let looks = [QUEUE, QUEUE - 1, QUEUE - 1, QUEUE - 2, QUEUE, QUEUE, usize::MAX].map(Call::LookAhead);
    let calls: Vec<Call> = looks.into_iter().flat_map(|look| [look, Call::Peek(0), Call::Next]).collect();
    for tokens in QUEUE - 1..QUEUE + 6 {
        let source = b"(".repeat(tokens);
        run.library.source.fill(&source);
        run.library.list.fill(&vec![OLD; 8 * tokens]);
        let (status, count, _) = run.library.scan(hosts::NEWER.table, hosts::NEWER.edition).answer;
        walk_by(run, &source, Cursor { taken: 0, queued: 0, count, status }, &hosts::NEWER, &calls);
        let (status, count, _) = run.library.scan_half(hosts::NEWER.table, hosts::NEWER.edition).answer;
        walk_by(run, &source, Cursor { taken: 0, queued: 0, count, status }, &hosts::NEWER, &calls);
    }
}

/// Calls over the list of a scan, against koto's. Koto has no `look_ahead`, but it has the tokens that follow, which its judge counts.
fn walk_by(run: &mut Run, source: &[u8], start: Cursor, host: &Host, calls: &[Call]) {
    let text = std::str::from_utf8(source).expect("a source that was scanned");
    let (shown, queued) = (host.judge.walk)(text, calls);
    let list = run.library.list.get().to_vec();
    let mut cursor = start;
    for (call, shown) in calls.iter().zip(shown) {
        let (name, said) = match call {
            Call::Next => ("next", run.library.next(cursor)),
            Call::Peek(n) => ("peek", run.library.peek(cursor, *n)),
            Call::LookAhead(n) => ("look_ahead", run.library.look_ahead(cursor, *n)),
        };
        let (is_shown, record, place, after) = said.answer;
        let wanted = match shown {
            Shown::Record(record) => (0, 1, record_of(record), 0),
            Shown::Nothing => (0, 0, Record::default(), 0),
            Shown::Refused(number) => (number, 0, Record::default(), 0),
        };
        run.tally.note(name, said.number, &(said.number, is_shown, record, place), &wanted, source);
        if !said.whole {
            run.tally.spoiled(name, source);
        }
        cursor = after;
    }
    if cursor.queued != queued || run.library.list.get() != list {
        run.tally.spoiled("a walk's cursor or list", source);
    }
}

/// The length of the first cluster that a host has
fn first_cluster(run: &mut Run, source: &[u8], host: &Host) -> usize {
    let said = run.library.first_cluster(host.table, host.edition);
    let wanted = match host.text(run, source, SOURCE_MOST) {
        Err((number, place)) => (number, (0, place)),
        Ok(text) => (0, ((host.judge.first_cluster)(text), 0)),
    };
    run.tally.note("first_cluster", said.number, &(said.number, said.answer), &wanted, source);
    if !said.whole || run.library.source.get() != source {
        run.tally.spoiled("first_cluster", source);
    }
    wanted.1.0
}

/// The check of UTF-8, and one character
fn texts(run: &mut Run, source: &[u8], dice: &mut Dice) {
    let said = run.library.check_utf8();
    let wanted = text_of(source).map_or_else(|refused| refused, |_| (0, 0));
    run.tally.note("check_utf8", said.number, &(said.number, said.answer), &wanted, source);
    if !said.whole || run.library.source.get() != source {
        run.tally.spoiled("check_utf8", source);
    }
    let at = if dice.below(50) == 0 { usize::MAX - dice.below(3) } else { dice.below(source.len() + 2) };
    char_at(run, source, at);
}

/// The character at a place of a source
pub fn char_at(run: &mut Run, source: &[u8], at: usize) {
    run.library.source.fill(source);
    let said = run.library.read_char(at);
    let rest = source.get(at..).unwrap_or_default();
    run.tally.note("read_char", said.number, &(said.number, said.answer), &first_char(rest), source);
    if !said.whole || run.library.source.get() != source {
        run.tally.spoiled("read_char", source);
    }
}

/// The first character by Rust's `from_utf8`; where nothing is left it is cut
fn first_char(rest: &[u8]) -> (u32, (u32, usize)) {
    let rest = &rest[..rest.len().min(4)];
    let (number, fine) = match text_of(rest) {
        Ok(text) => (15, text),
        Err((number, place)) => (number, text_of(&rest[..place]).expect("what stands before the place is fine")),
    };
    fine.chars().next().map_or((number, (0, 0)), |c| (0, (c.into(), c.len_utf8())))
}
