//! Tests of what phones record: honest records are accepted, histories show what they should, and
//! lies of each sort come to what they must, or often enough to what they may.

use self::End::*;
use super::*;
use crate::histories::{Verdict, check, check_text};
use crate::honest::{Honest, LATEST};
use crate::lines::read_line;
use crate::model::{COMMITTED_ENTRIES, Cluster, step};
use crate::records::{Covered, READ, RECORDS, Record, WRITE, value_at};

/// How many runs there are.
const RUNS: u64 = 70;

/// A run by its seed, some longer than others, and what honest phones recorded of it.
fn recorded(seed: u64) -> (Run, Honest) {
    let mut run = Run::new(seed);
    run.diaries(if seed % 16 == 0 { 3_000 } else { 150 + 4 * seed as usize });
    let honest = honest(&mut run.prng, &run.text);
    (run, honest)
}

#[track_caller]
fn is_accepted(honest: &Honest) {
    let Honest { records, log, .. } = honest;
    assert_eq!(check(log, records), Verdict::Accepted(records.len()));
    assert_eq!(check_text(log, &text_of(records)), Verdict::Accepted(records.len()));
}

#[test]
fn honest_records_are_accepted() {
    (0..RUNS).for_each(|seed| is_accepted(&recorded(seed).1));
}

/// Where phones have no part in the steps, and of many starts the last one counts.
#[test]
fn honest_records_of_any_session_are_accepted() {
    let mut run = Run::new(3);
    for _ in 0..RUNS {
        run.session(usize::MAX);
        run.session(usize::MAX);
        is_accepted(&honest(&mut run.prng, &run.text));
        run.text.clear();
    }
}

/// Whatever is covered anywhere is a beginning of the longest so far.
#[test]
fn covered_beginnings_are_comparable() {
    for (run, honest) in (0..RUNS).map(recorded) {
        let (mut cluster, mut covered) = (Cluster::ZERO, Covered::default());
        for line in run.text.split(|&character| character == b'\n') {
            let Ok(read) = read_line(line) else { continue };
            let answer = step(&mut cluster, &read);
            covered.follow(&read, answer, &cluster);
            for server in cluster.counted() {
                let own = &server.log.entries[..server.commit_point];
                assert!(covered.entries.starts_with(own));
            }
        }
        assert_eq!(covered.entries, honest.log);
    }
}

/// A pair of records, the first of which is the earlier, that is as asked.
fn has_pair(honest: &Honest, is_asked: fn(&Record, &Record) -> bool) -> bool {
    let later = |n: usize| honest.records[n + 1..].iter();
    let mut earlier = honest.records.iter().enumerate();
    earlier.any(|(n, one)| later(n).any(|other| is_asked(one, other)))
}

fn has_read(honest: &Honest, is_asked: fn(&Honest, &Record) -> bool) -> bool {
    honest.records.iter().any(|record| record.kind == READ && is_asked(honest, record))
}

/// What is to be seen in histories: without it, a wrong check would accept the same.
const SIGHTS: [(&str, fn(&Run, &Honest) -> bool); 13] = [
    ("256 records", |_, honest| honest.records.len() == RECORDS),
    ("a log of 128", |_, honest| honest.log.len() == COMMITTED_ENTRIES),
    ("more than is covered in the end", |run, honest| {
        run.cluster.counted().iter().all(|server| server.commit_point < honest.log.len())
    }),
    ("a lost write in whose place another stands", |_, honest| {
        honest.lost.iter().any(|lost| usize::from(lost.position) <= honest.log.len())
    }),
    ("a read of nothing", |_, honest| has_read(honest, |_, read| read.time == Time::ZERO)),
    ("a read as of what writes nothing", |_, honest| {
        has_read(honest, |honest, read| {
            honest.log.iter().any(|entry| entry.writes_nothing() && entry.time == read.time)
        })
    }),
    ("a read of what isn't newest", |_, honest| {
        has_read(honest, |honest, read| {
            let newest = value_at(&honest.log, read.key, LATEST);
            read.value != 0 && read.value != newest
        })
    }),
    ("a read as of its own entry", |_, honest| {
        has_read(honest, |honest, read| {
            honest.log.iter().any(|entry| (entry.key, entry.time) == (read.key, read.time))
        })
    }),
    ("a read as of the same time", |_, honest| {
        has_pair(honest, |one, other| {
            other.kind == READ && (one.session, one.time) == (other.session, other.time)
        })
    }),
    ("a read before another session's", |_, honest| {
        has_pair(honest, |one, other| other.kind == READ && other.time < one.time)
    }),
    ("a write before its session's read", |_, honest| {
        has_pair(honest, |one, other| {
            other.kind == WRITE && one.session == other.session && other.time < one.time
        })
    }),
    ("a write again", |_, honest| has_pair(honest, |one, other| one.kind == WRITE && one == other)),
    ("a write under two sessions", |_, honest| {
        has_pair(honest, |one, other| {
            one.kind == WRITE && *one == Record { session: one.session, ..*other } && one != other
        })
    }),
];

#[test]
fn histories_show_all_that_a_check_could_get_wrong() {
    let histories: Vec<(Run, Honest)> = (0..RUNS).map(recorded).collect();
    for (sight, is_seen) in SIGHTS {
        assert!(histories.iter().any(|(run, honest)| is_seen(run, honest)), "never: {}", sight);
    }
}

/// How a lie ends: named itself, or for it another record; refused by its line, or with all others;
/// or accepted.
#[derive(Clone, Copy, PartialEq, Eq, Debug)]
enum End {
    Named,
    Otherwise,
    Line,
    Records,
    Accepted,
}

fn end_of(number: usize, verdict: Verdict) -> End {
    match verdict {
        Verdict::Breaks(named) if named == number => Named,
        Verdict::Breaks(_) => Otherwise,
        Verdict::BadLine(line) => {
            assert_eq!(line, number + 1);
            Line
        }
        Verdict::BadRecords => Records,
        Verdict::Accepted(_) => Accepted,
        Verdict::BadLog => unreachable!("a run's log is in order"),
    }
}

/// How many of a hundred of a sort end so at least.
const ENDS: [(&str, End, usize); 35] = [
    ("value", Named, 100),
    ("time", Named, 100),
    ("key", Named, 100),
    ("position", Named, 100),
    ("borrowed", Named, 100),
    ("newest", Named, 100),
    ("before", Named, 100),
    ("lost", Named, 100),
    ("two", Named, 100),
    ("read-time", Named, 80),
    ("read-key", Named, 55),
    ("kind", Named, 65),
    ("stale", Named, 50),
    ("shielded", Named, 35),
    ("order", Named, 25),
    ("session", Named, 5),
    ("ahead", Otherwise, 35),
    ("other-kind", Records, 100),
    ("other-key", Records, 100),
    ("worse", Records, 100),
    ("over", Records, 100),
    ("short", Line, 100),
    ("long", Line, 100),
    ("upper", Line, 100),
    ("crlf", Line, 100),
    ("blank", Line, 100),
    ("byte", Line, 100),
    ("joined", Line, 100),
    ("worst", Line, 100),
    ("again", Accepted, 100),
    ("read-position", Accepted, 100),
    ("full", Accepted, 100),
    ("first", Accepted, 100),
    ("last", Accepted, 100),
    ("unended", Accepted, 100),
];

#[test]
fn lies_of_each_sort_come_to_what_they_must() {
    let mut ends = ENDS.map(|_| Vec::new());
    for (mut run, honest) in (1..=31).filter(|seed| seed % 16 > 0).map(recorded) {
        for (sort, texts) in lies(&mut run.prng, &honest) {
            let place = ENDS.iter().position(|end| end.0 == sort).expect(sort);
            let checked = texts.iter().map(|(n, text)| end_of(*n, check_text(&honest.log, text)));
            ends[place].extend(checked);
        }
    }
    for ((sort, end, share), ends) in ENDS.iter().zip(&ends) {
        let times = ends.iter().filter(|other| *other == end).count();
        assert!(
            times > 0 && 100 * times >= share * ends.len(),
            "{sort}: {times} of {}",
            ends.len()
        );
    }
}
