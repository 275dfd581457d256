//! The check of what phones saw, from request [6] of document 02 and docs/HISTORIES.md alone: the
//! rules one after the other, each as its sentence says it. Tests are in `histories_tests.rs`.

use crate::lines::read_bytes;
use crate::model::{COMMITTED_ENTRIES, Entry, KEY_MAX, Time, are_in_order};
use crate::records::{READ, RECORD, RECORDS, Record, WRITE, is_written, value_at};
use std::fmt;

/// What comes of a check. Lines count from 1, records from 0.
#[derive(Clone, Copy, PartialEq, Eq, Debug)]
pub enum Verdict {
    /// All of so many records.
    Accepted(usize),
    BadLine(usize),
    BadLog,
    BadRecords,
    /// The first record that breaks a rule.
    Breaks(usize),
}

/// The words that a script compares; each line is a record, so the nth record is in line n + 1.
impl fmt::Display for Verdict {
    fn fmt(&self, to: &mut fmt::Formatter) -> fmt::Result {
        match *self {
            Verdict::Accepted(records) => write!(to, "accepted {records}"),
            Verdict::BadLine(line) => write!(to, "refusal 1 at line {line}"),
            Verdict::BadLog => write!(to, "refusal 2"),
            Verdict::BadRecords => write!(to, "refusal 3"),
            Verdict::Breaks(record) => write!(to, "record {record} at line {}", record + 1),
        }
    }
}

/// A text of records against a committed log.
pub fn check_text(log: &[Entry], text: &[u8]) -> Verdict {
    match read_records(text) {
        Ok(records) => check(log, &records),
        Err(line) => Verdict::BadLine(line),
    }
}

/// All records of a text, or else the number of its first bad line.
fn read_records(text: &[u8]) -> Result<Vec<Record>, usize> {
    let lines = text.split_inclusive(|&character| character == b'\n').enumerate();
    let read = |line: &[u8]| read_record(line.strip_suffix(b"\n").unwrap_or(line));
    lines.map(|(before, line)| read(line).ok_or(before + 1)).collect()
}

/// A record in a line without its line feed.
fn read_record(line: &[u8]) -> Option<Record> {
    let [s0, s1, kind, key, v0, v1, n0, n1, p0, p1, l0, l1] = read_bytes::<RECORD>(line).ok()?;
    let number = |high: u8, low: u8| u16::from_be_bytes([high, low]);
    Some(Record {
        session: number(s0, s1),
        kind,
        key,
        value: number(v0, v1),
        position: number(n0, n1),
        time: Time { p: number(p0, p1), l: number(l0, l1) },
    })
}

/// Records against a committed log.
pub fn check(log: &[Entry], records: &[Record]) -> Verdict {
    if log.len() > COMMITTED_ENTRIES || !are_in_order(log) {
        return Verdict::BadLog;
    }
    if records.len() > RECORDS || !records.iter().all(is_in_range) {
        return Verdict::BadRecords;
    }
    let breaks = |&number: &usize| !keeps_rules(log, &records[..number], &records[number]);
    match (0..records.len()).find(breaks) {
        Some(number) => Verdict::Breaks(number),
        None => Verdict::Accepted(records.len()),
    }
}

fn is_in_range(record: &Record) -> bool {
    [WRITE, READ].contains(&record.kind) && record.key <= KEY_MAX
}

/// Whether a record keeps the rules of its kind, after all the records before it.
fn keeps_rules(log: &[Entry], earlier: &[Record], record: &Record) -> bool {
    if record.kind == WRITE {
        return is_written(log, record);
    }
    let of_its_session = || earlier.iter().filter(|other| other.session == record.session);
    is_some_time(log, record.time)
        && record.value == value_at(log, record.key, record.time)
        && !of_its_session().any(|other| record.time < other.time)
}

/// Whether a read could have been as of this time.
fn is_some_time(log: &[Entry], time: Time) -> bool {
    time == Time::ZERO || log.iter().any(|entry| entry.time == time)
}

#[cfg(test)]
#[path = "histories_tests.rs"]
mod tests;
