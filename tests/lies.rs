//! False records: what honest phones recorded, with something wrong in it. Some lies happen to be
//! true; only the check tells.

use crate::honest::{Honest, LATEST, text_of};
use crate::model::{Entry, KEY_MAX, Time};
use crate::prng::Prng;
use crate::records::{READ, RECORDS, Record, WRITE, value_at};

pub const SORTS: &str = "\
The sorts of lies, where one record is another:
    value, kind (a write is a read, a read a write), session (that of another record)
    time, key, position                     of a write
    read-time, read-key, read-position      of a read, whose position means nothing
    borrowed    a read's value is another key's
    newest      a read's value is the newest of the whole log
    before      a read's value is that from before the entry at its time
    stale       a read is as of an earlier entry, with the value there
    ahead       a read is as of a later entry, with the value there
    first, last a write that only the first server, or only the last, ever covered
    other-kind  the kind is neither 6 nor 11
    other-key   the key is above 15
and where the list is another:
    order       a record and the next one of its session have changed places
    shielded    as stale, right after a true record of an older write of its session
    lost        one more record, of a write that was answered and isn't in the log
    again       a record stands twice
    two         two values are others
    worse       a value is another, and the kind of another record is neither 6 nor 11
    full, over  the last record stands so often that there are 256, or 257
and where a line is no record's:
    short, long, upper, crlf, blank, byte (is no digit), joined (with the next)
    worst       as short; there are more than 256 records, and all are of other kinds
    unended     no line feed ends the last, which is a record's all the same
";

/// The texts of a sort, each with the number of its false record.
pub type Lies = Vec<(usize, Vec<u8>)>;

/// Another record instead of one, if there is such a lie about it.
type Change = fn(&mut Prng, &Honest, Record) -> Option<Record>;
/// Other records, and the number of the false one, by a number.
type List = fn(&mut Prng, &Honest, usize) -> Option<(usize, Vec<Record>)>;
/// Other lines instead of those from a number on.
type Lines = fn(&mut Prng, &[&[u8]]) -> Option<Vec<u8>>;

const CHANGES: [(&str, Change); 17] = [
    ("value", |prng, _, record| Some(with_other_value(prng, record))),
    ("time", |prng, honest, record| if_of(WRITE, with_other_time(prng, honest, record))),
    ("read-time", |prng, honest, record| if_of(READ, with_other_time(prng, honest, record))),
    ("key", |prng, _, record| if_of(WRITE, with_other_key(prng, record))),
    ("read-key", |prng, _, record| if_of(READ, with_other_key(prng, record))),
    ("position", |prng, honest, record| if_of(WRITE, with_other_position(prng, honest, record))),
    ("read-position", |prng, honest, record| {
        if_of(READ, with_other_position(prng, honest, record))
    }),
    ("kind", |_, _, record| Some(Record { kind: WRITE + READ - record.kind, ..record })),
    ("other-kind", |prng, _, record| Some(of_other_kind(prng, record))),
    ("other-key", |prng, _, record| {
        let key = [KEY_MAX + 1, 16 + record.key, 128 + record.key, 255][prng.below(4)];
        Some(Record { key, ..record })
    }),
    ("borrowed", |prng, honest, record| {
        let others = (0..=KEY_MAX).map(|key| value_at(&honest.log, key, record.time));
        shown(prng, record, others.collect())
    }),
    ("newest", |prng, honest, record| {
        shown(prng, record, vec![value_at(&honest.log, record.key, LATEST)])
    }),
    ("before", |prng, honest, record| {
        let before = honest.log.partition_point(|entry| entry.time < record.time);
        shown(prng, record, vec![value_at(&honest.log[..before], record.key, record.time)])
    }),
    ("stale", |prng, honest, record| as_of(prng, honest, record, |other, own| other < own)),
    ("ahead", |prng, honest, record| as_of(prng, honest, record, |other, own| other > own)),
    ("first", |_, honest, _| covered_alone(honest, 0)),
    ("last", |_, honest, _| covered_alone(honest, honest.reached.len() - 1)),
];

const LISTS: [(&str, List); 9] = [
    ("session", of_other_session),
    ("order", |_, honest, n| {
        let of_session = |m: &usize| honest.records[*m].session == honest.records[n].session;
        let next = (n + 1..honest.records.len()).find(of_session)?;
        let mut records = honest.records.clone();
        records.swap(n, next);
        Some((next, records))
    }),
    ("shielded", |prng, honest, n| {
        let read = as_of(prng, honest, honest.records[n], |other, own| other < own)?;
        let (_, mut records) = one_more(honest, n, last_write(honest, &read)?)?;
        records[n + 1] = read;
        Some((n + 1, records))
    }),
    ("lost", |prng, honest, n| {
        let session = honest.records[n].session;
        let lost = any_of(prng, &honest.lost)?;
        one_more(honest, n, Record { session, ..lost })
    }),
    ("again", |_, honest, n| one_more(honest, n, honest.records[n])),
    ("two", |prng, honest, n| {
        let later: Vec<usize> = (n + 1..honest.records.len()).collect();
        let second = any_of(prng, &later)?;
        let mut records = honest.records.clone();
        for place in [n, second] {
            records[place] = with_other_value(prng, records[place]);
        }
        Some((n, records))
    }),
    ("worse", |prng, honest, n| {
        let mut records = honest.records.clone();
        let outside = prng.below(records.len());
        records[n] = with_other_value(prng, records[n]);
        records[outside] = of_other_kind(prng, records[outside]);
        Some((n, records))
    }),
    ("full", |_, honest, n| repeated(honest, n, RECORDS)),
    ("over", |_, honest, n| repeated(honest, n, RECORDS + 1)),
];

const LINES: [(&str, Lines); 9] = [
    ("short", |prng, lines| Some(without_digit(prng, lines[0], &lines[1..].concat()))),
    ("long", |prng, lines| {
        let place = prng.below(lines[0].len());
        Some([&lines[0][..place], b"0", &lines[0][place..], &lines[1..].concat()].concat())
    }),
    ("upper", |_, lines| {
        let upper = lines[0].to_ascii_uppercase();
        (upper != lines[0]).then(|| [&upper, &lines[1..].concat()[..]].concat())
    }),
    ("crlf", |_, lines| {
        let end = lines[0].len() - 1;
        Some([&lines[0][..end], b"\r\n", &lines[1..].concat()].concat())
    }),
    ("blank", |_, lines| Some([b"\n", &lines.concat()[..]].concat())),
    ("byte", |prng, lines| {
        let mut text = lines.concat();
        let wrong = b"/:@ABCDEFG`g\r\0\xff\x80 \t+-x";
        text[prng.below(lines[0].len() - 1)] = wrong[prng.below(wrong.len())];
        Some(text)
    }),
    ("joined", |_, lines| {
        let end = lines[0].len() - 1;
        (lines.len() > 1).then(|| [&lines[0][..end], &lines[1..].concat()].concat())
    }),
    ("worst", |prng, lines| {
        let others = b"000107010000000000000000\n";
        Some(without_digit(prng, lines[0], &others.repeat(RECORDS)))
    }),
    ("unended", |_, lines| {
        let text = lines.concat();
        (lines.len() == 1).then(|| text[..text.len() - 1].to_vec())
    }),
];

/// Each sort and all its texts.
pub fn lies(prng: &mut Prng, honest: &Honest) -> Vec<(&'static str, Lies)> {
    let mut sorts = Vec::new();
    let (text, numbers) = (text_of(&honest.records), || 0..honest.records.len());
    let lines: Vec<&[u8]> = text.split_inclusive(|&character| character == b'\n').collect();
    for (sort, change) in CHANGES {
        let change = |n: usize| {
            let mut records = honest.records.clone();
            records[n] = change(prng, honest, records[n])?;
            Some((n, text_of(&records)))
        };
        sorts.push((sort, numbers().filter_map(change).collect()));
    }
    for (sort, list) in LISTS {
        let listed = numbers().filter_map(|n| list(prng, honest, n));
        sorts.push((sort, listed.map(|(n, records)| (n, text_of(&records))).collect()));
    }
    for (sort, other) in LINES {
        let written = |n: usize| {
            let rest = other(prng, &lines[n..])?;
            Some((n, [&lines[..n].concat(), &rest[..]].concat()))
        };
        sorts.push((sort, numbers().filter_map(written).collect()));
    }
    sorts
}

fn any_of<T: Copy>(prng: &mut Prng, from: &[T]) -> Option<T> {
    if from.is_empty() { None } else { Some(from[prng.below(from.len())]) }
}

/// The first of some drawn that is another than the one given.
fn other_than<T: PartialEq>(this: T, mut draw: impl FnMut() -> T) -> T {
    loop {
        let drawn = draw();
        if drawn != this {
            return drawn;
        }
    }
}

fn number(prng: &mut Prng) -> u16 {
    prng.below(65_536) as u16
}

/// Beside a number, of another high byte, or anything.
fn beside(prng: &mut Prng, this: u16) -> u16 {
    match prng.below(5) {
        0 => this.wrapping_add(1),
        1 => this.wrapping_sub(1),
        2 => this ^ 256,
        3 => 0,
        _ => number(prng),
    }
}

fn with_other_value(prng: &mut Prng, record: Record) -> Record {
    let value = other_than(record.value, || beside(prng, record.value));
    Record { value, ..record }
}

fn if_of(kind: u8, record: Record) -> Option<Record> {
    if record.kind == kind { Some(record) } else { None }
}

fn with_other_key(prng: &mut Prng, record: Record) -> Record {
    let key = other_than(record.key, || prng.below(usize::from(KEY_MAX) + 1) as u8);
    Record { key, ..record }
}

fn with_other_position(prng: &mut Prng, honest: &Honest, record: Record) -> Record {
    let past = honest.log.len() as u16 + 1;
    let position = other_than(record.position, || match prng.below(5) {
        0 => past,
        1 => prng.below(usize::from(past)) as u16,
        2 => record.position ^ 256,
        _ => beside(prng, record.position),
    });
    Record { position, ..record }
}

/// The time of an entry, or one that no entry needs to have.
fn with_other_time(prng: &mut Prng, honest: &Honest, record: Record) -> Record {
    let Time { p, l } = record.time;
    let time = other_than(record.time, || match prng.below(4) {
        0 => Time { p, l: beside(prng, l) },
        1 => Time { p: beside(prng, p), l },
        2 => Time { p: number(prng), l: number(prng) },
        _ => any_of(prng, &honest.log).map_or(Time { p: 1, l: 0 }, |entry| entry.time),
    });
    Record { time, ..record }
}

fn of_other_kind(prng: &mut Prng, record: Record) -> Record {
    let others = [0, 5, 7, 10, 12, 14, 15, 16, 0x26, 0x46, 0x8b, 0xff];
    Record { kind: others[prng.below(others.len())], ..record }
}

/// A read with one of these values that isn't its own.
fn shown(prng: &mut Prng, record: Record, values: Vec<u16>) -> Option<Record> {
    let others: Vec<u16> = values.into_iter().filter(|&value| value != record.value).collect();
    let value = any_of(prng, &others).filter(|_| record.kind == READ)?;
    Some(Record { value, ..record })
}

/// A read as of another time that holds against its own, with the value there.
fn as_of(
    prng: &mut Prng,
    honest: &Honest,
    record: Record,
    holds: fn(Time, Time) -> bool,
) -> Option<Record> {
    let entries = honest.log.iter().map(|entry: &Entry| entry.time);
    let times = std::iter::once(Time::ZERO).chain(entries);
    let others: Vec<Time> = times.filter(|&other| holds(other, record.time)).collect();
    let time = any_of(prng, &others).filter(|_| record.kind == READ)?;
    Some(Record { time, value: value_at(&honest.log, record.key, time), ..record })
}

/// A record under the session of another: mostly of an earlier one as of a later time.
fn of_other_session(prng: &mut Prng, honest: &Honest, n: usize) -> Option<(usize, Vec<Record>)> {
    let mut records = honest.records.clone();
    let is_later = |other: &&Record| other.time > records[n].time;
    let later: Vec<Record> = records[..n].iter().filter(is_later).copied().collect();
    let from = if prng.below(8) == 0 { &records } else { &later };
    let session = any_of(prng, from)?.session;
    records[n].session = session;
    (session != honest.records[n].session).then_some((n, records))
}

/// A record of the last write that a read could see, whatever its key, under the read's session.
fn last_write(honest: &Honest, read: &Record) -> Option<Record> {
    let is_seen = |entry: &Entry| !entry.writes_nothing() && entry.time <= read.time;
    let place = honest.log.iter().rposition(is_seen)?;
    let Entry { key, value, time, .. } = honest.log[place];
    Some(Record { kind: WRITE, key, value, position: place as u16 + 1, time, ..*read })
}

/// A record of the log's last write, if nobody but this server has ever covered it, under a session
/// that has no others, so that it is as true wherever it stands.
fn covered_alone(honest: &Honest, server: usize) -> Option<Record> {
    let others = honest.reached.iter().enumerate().filter(|(other, _)| *other != server);
    let covered = others.map(|(_, reached)| *reached).max()?;
    let is_free = |session: &u16| honest.records.iter().all(|record| record.session != *session);
    let session = (0..=u16::MAX).find(is_free)?;
    let any = Record { session, time: LATEST, ..*honest.records.first()? };
    last_write(honest, &any).filter(|write| usize::from(write.position) > covered)
}

/// One more record before another, where there is room.
fn one_more(honest: &Honest, n: usize, record: Record) -> Option<(usize, Vec<Record>)> {
    let mut records = honest.records.clone();
    records.insert(n, record);
    (records.len() <= RECORDS).then_some((n, records))
}

/// So many records; once, by the last number.
fn repeated(honest: &Honest, n: usize, length: usize) -> Option<(usize, Vec<Record>)> {
    let mut records = honest.records.clone();
    records.resize(length, *records.last()?);
    (n + 1 == honest.records.len()).then_some((length - 1, records))
}

fn without_digit(prng: &mut Prng, line: &[u8], rest: &[u8]) -> Vec<u8> {
    let place = prng.below(line.len() - 1);
    [&line[..place], &line[place + 1..], rest].concat()
}
