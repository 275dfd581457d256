//! Each rule of the check at its edges, each refusal, and their order.

use super::*;

const fn time(p: u16, l: u16) -> Time {
    Time { p, l }
}

const fn entry(term: u16, key: u8, value: u16, time: Time) -> Entry {
    Entry { term, key, value, time }
}

/// Two entries for key 5 at times that differ in l alone, and one at position 3 that writes nothing.
const LOG: [Entry; 5] = [
    entry(1, 5, 41, time(1, 0)),
    entry(1, 6, 40, time(1, 1)),
    entry(2, 255, 0, time(2, 0)),
    entry(2, 5, 42, time(9, 1)),
    entry(4, 5, 43, time(9, 2)),
];

const fn write(session: u16, position: u16, key: u8, value: u16, time: Time) -> Record {
    Record { session, kind: WRITE, key, value, position, time }
}

const fn read(session: u16, key: u8, value: u16, time: Time) -> Record {
    Record { session, kind: READ, key, value, position: 0, time }
}

/// The write that has made the entry at a position of the log.
fn of_entry(session: u16, position: u16) -> Record {
    let Entry { key, value, time, .. } = LOG[usize::from(position) - 1];
    write(session, position, key, value, time)
}

/// A good read of key 5.
fn read_at(session: u16, p: u16, l: u16) -> Record {
    read(session, 5, value_at(&LOG, 5, time(p, l)), time(p, l))
}

#[track_caller]
fn accepts(records: &[Record]) {
    assert_eq!(check(&LOG, records), Verdict::Accepted(records.len()));
}

/// The last record, and it alone, breaks a rule.
#[track_caller]
fn names_last(records: &[Record]) {
    let last = records.len() - 1;
    assert_eq!(check(&LOG, records), Verdict::Breaks(last));
    accepts(&records[..last]);
}

#[test]
fn a_line_is_read_byte_by_byte() {
    let time = time(0x0708, 0x090a);
    let record = Record { session: 0x0102, kind: 6, key: 5, value: 0x0304, position: 0x0506, time };
    assert_eq!(read_record(b"01020605030405060708090a"), Some(record));
    let any = Record { session: 0xffff, kind: 0xab, key: 0xcd, ..record };
    assert_eq!(read_record(b"ffffabcd030405060708090a"), Some(any));
}

#[test]
fn lines_are_counted_and_a_bad_one_is_refused_by_its_number() {
    let short = "00010b05000000000000000";
    let good = format!("{short}0\n");
    let verdict = |text: &str| check_text(&LOG, text.as_bytes()).to_string();
    assert_eq!(verdict(""), "accepted 0");
    assert_eq!(verdict(&good), "accepted 1");
    assert_eq!(verdict(&good.repeat(3)), "accepted 3");
    assert_eq!(verdict((good.clone() + &good).trim_end()), "accepted 2");
    assert_eq!(verdict("\n"), "refusal 1 at line 1");
    assert_eq!(verdict(&(good.clone() + "\n")), "refusal 1 at line 2");
    assert_eq!(verdict(&format!("{good}\n{good}")), "refusal 1 at line 2");
    let ends = ["\n", "00\n", "A\n", "g\n", " \n", "\0\n", "0\r\n", "0 \n", "\r", "x", "0\t", ""];
    for end in ends {
        let text = format!("{good}{good}{short}{end}");
        assert_eq!(verdict(&text), "refusal 1 at line 3", "{end:?}");
    }
    for wrong in [good.to_ascii_uppercase(), format!(" {short}\n"), format!("{}\n", &short[1..])] {
        assert_eq!(verdict(&(good.clone() + &wrong + &good)), "refusal 1 at line 2", "{wrong:?}");
    }
    let bytes = [good.as_bytes(), &[0xff; 24]].concat();
    assert_eq!(check_text(&LOG, &bytes), Verdict::BadLine(2));
    assert_eq!(check_text(&LOG, &[b'0'; 100_000]), Verdict::BadLine(1));
}

#[test]
fn a_write_is_the_entry_at_its_position() {
    for position in [1, 2, 4, 5] {
        let right = of_entry(1, position);
        accepts(&[right]);
        let Record { key, value, time, .. } = right;
        let l = if time.l == 0 { 1 } else { time.l - 1 };
        names_last(&[Record { key: key + 1, ..right }]);
        names_last(&[Record { key: key - 5, ..right }]);
        names_last(&[Record { value: value + 1, ..right }]);
        names_last(&[Record { value: value + 256, ..right }]);
        names_last(&[Record { value: 0, ..right }]);
        names_last(&[Record { time: Time { l, ..time }, ..right }]);
        names_last(&[Record { time: Time { p: time.p + 1, ..time }, ..right }]);
        for other in (0..=7).chain([256 + position, u16::MAX]).filter(|&n| n != position) {
            names_last(&[Record { position: other, ..right }]);
        }
    }
}

#[test]
fn a_write_has_no_position_0_and_none_past_the_log() {
    names_last(&[write(1, 0, 5, 41, time(1, 0))]);
    names_last(&[write(1, 0, 0, 0, Time::ZERO)]);
    names_last(&[write(1, 6, 0, 0, Time::ZERO)]);
    names_last(&[write(1, 6, 5, 43, time(9, 2))]);
    names_last(&[write(1, 129, 5, 43, time(9, 2))]);
    assert_eq!(check(&[], &[write(1, 1, 5, 41, time(1, 0))]), Verdict::Breaks(0));
    assert_eq!(check(&[], &[write(1, 0, 0, 0, Time::ZERO)]), Verdict::Breaks(0));
}

/// No key that can be recorded is that of an entry that writes nothing.
#[test]
fn what_writes_nothing_is_nobody_s_write() {
    names_last(&[write(1, 3, 0, 0, time(2, 0))]);
    names_last(&[write(1, 3, 15, 0, time(2, 0))]);
    assert_eq!(check(&LOG, &[write(1, 3, 255, 0, time(2, 0))]), Verdict::BadRecords);
}

/// A record doesn't tell a term, so a write that was lost is taken for the equal one that wasn't.
#[test]
fn a_term_is_not_compared() {
    let mut log = LOG;
    log[4].term = 3;
    assert_eq!(check(&log, &[of_entry(1, 5)]), Verdict::Accepted(1));
}

#[test]
fn a_read_shows_the_last_entry_not_after_its_time() {
    accepts(&[read(1, 5, 41, time(1, 0)), read(1, 5, 41, time(1, 1)), read(1, 5, 41, time(2, 0))]);
    accepts(&[read(1, 5, 42, time(9, 1)), read(1, 5, 43, time(9, 2))]);
    accepts(&[read(1, 6, 0, time(1, 0)), read(1, 6, 40, time(1, 1)), read(1, 6, 40, time(9, 2))]);
    accepts(&[read(1, 7, 0, time(1, 0)), read(1, 0, 0, time(9, 2)), read(1, 15, 0, time(9, 2))]);
}

/// From the newest entry in the whole log, from those before its time only, or of another key.
#[test]
fn a_read_shows_no_other_entry() {
    names_last(&[read(1, 5, 43, time(9, 1))]);
    names_last(&[read(1, 5, 43, time(1, 0))]);
    names_last(&[read(1, 5, 41, time(9, 1))]);
    names_last(&[read(1, 5, 42, time(9, 2))]);
    names_last(&[read(1, 5, 0, time(1, 0))]);
    names_last(&[read(1, 5, 40, time(1, 1))]);
    names_last(&[read(1, 6, 40, time(1, 0))]);
    names_last(&[read(1, 7, 41, time(9, 2))]);
    names_last(&[read(1, 5, 43 + 256, time(9, 2))]);
}

#[test]
fn a_read_is_as_of_an_entry_or_of_nothing() {
    let before = [time(0, 1), time(0, 9), time(1, 2), time(2, 1), time(8, 1), time(9, 0)];
    let after = [time(9, 3), time(10, 2), time(u16::MAX, u16::MAX)];
    for time in [&before[..], &after].concat() {
        names_last(&[read(1, 5, value_at(&LOG, 5, time), time)]);
        names_last(&[read(1, 7, 0, time)]);
    }
}

/// The entry that writes nothing stands at a time like any other.
#[test]
fn a_read_may_be_as_of_what_writes_nothing() {
    accepts(&[read(1, 5, 41, time(2, 0)), read(2, 6, 40, time(2, 0)), read(3, 7, 0, time(2, 0))]);
    names_last(&[read(1, 6, 0, time(2, 0))]);
    names_last(&[read(1, 5, 0, time(2, 0))]);
}

#[test]
fn a_read_of_nothing_shows_nothing() {
    accepts(&[read(1, 5, 0, Time::ZERO), read(1, 6, 0, Time::ZERO)]);
    names_last(&[read(1, 5, 41, Time::ZERO)]);
    assert_eq!(check(&[], &[read(1, 5, 0, Time::ZERO)]), Verdict::Accepted(1));
    assert_eq!(check(&[], &[read(1, 5, 1, Time::ZERO)]), Verdict::Breaks(0));
    assert_eq!(check(&[], &[read(1, 5, 0, time(1, 0))]), Verdict::Breaks(0));
}

/// No run has such a log, but a well-formed record may.
#[test]
fn an_entry_at_the_zero_time_is_read_there() {
    let log = [entry(1, 5, 41, Time::ZERO), entry(1, 6, 40, time(0, 1))];
    assert_eq!(check(&log, &[read(1, 5, 41, Time::ZERO)]), Verdict::Accepted(1));
    assert_eq!(check(&log, &[read(1, 5, 0, Time::ZERO)]), Verdict::Breaks(0));
    assert_eq!(check(&log, &[read(1, 6, 0, Time::ZERO)]), Verdict::Accepted(1));
}

#[test]
fn a_read_s_position_means_nothing() {
    for position in [0, 1, 5, 6, 129, u16::MAX] {
        accepts(&[Record { position, ..read_at(1, 9, 1) }]);
    }
}

#[test]
fn a_read_is_not_before_any_earlier_record_of_its_session() {
    accepts(&[read_at(1, 9, 1), read_at(1, 9, 1), read_at(1, 9, 2)]);
    names_last(&[read_at(1, 9, 2), read_at(1, 9, 1)]);
    names_last(&[read_at(1, 9, 1), read_at(1, 2, 0)]);
    names_last(&[read_at(1, 1, 0), read_at(1, 0, 0)]);
    accepts(&[of_entry(1, 5), read_at(1, 9, 2)]);
    names_last(&[of_entry(1, 5), read_at(1, 9, 1)]);
    names_last(&[of_entry(1, 1), read_at(1, 0, 0)]);
}

/// Not the last record of the session, nor the last of all.
#[test]
fn the_latest_earlier_record_counts_wherever_it_stands() {
    names_last(&[of_entry(1, 4), of_entry(1, 1), read_at(1, 2, 0)]);
    names_last(&[read_at(1, 9, 1), of_entry(1, 1), of_entry(1, 2), read_at(1, 2, 0)]);
    names_last(&[read_at(1, 9, 1), read_at(2, 1, 0), read_at(3, 0, 0), read_at(1, 2, 0)]);
    accepts(&[of_entry(1, 4), of_entry(1, 1), read_at(1, 9, 1)]);
}

#[test]
fn sessions_have_no_order_among_each_other() {
    accepts(&[
        read_at(1, 9, 2),
        read_at(2, 9, 1),
        read_at(3, 1, 0),
        of_entry(2, 5),
        read_at(3, 1, 0),
    ]);
    accepts(&[read_at(0x0100, 9, 2), read_at(0x0001, 1, 0), read_at(0x0101, 0, 0)]);
    accepts(&[of_entry(0, 5), read_at(u16::MAX, 1, 0), read_at(0, 9, 2)]);
}

#[test]
fn writes_have_no_order_and_may_be_recorded_again() {
    accepts(&[of_entry(1, 5), of_entry(1, 4), of_entry(1, 1), of_entry(1, 2)]);
    accepts(&[read_at(1, 9, 2), of_entry(1, 4), of_entry(1, 1)]);
    accepts(&[of_entry(1, 4), of_entry(1, 4), of_entry(2, 4), read_at(1, 9, 1), of_entry(1, 4)]);
}

#[test]
fn the_first_that_breaks_a_rule_is_named() {
    let (good, wrong) = (of_entry(1, 4), read(2, 5, 1, time(1, 0)));
    assert_eq!(check(&LOG, &[good, wrong, good, wrong]), Verdict::Breaks(1));
    assert_eq!(check(&LOG, &[wrong, good, wrong]), Verdict::Breaks(0));
    let of_order = [read_at(1, 9, 2), read_at(1, 1, 0), wrong];
    assert_eq!(check(&LOG, &of_order), Verdict::Breaks(1));
}

#[test]
fn so_many_records_are_checked_and_no_more() {
    let (good, wrong) = (of_entry(1, 4), write(1, 0, 5, 41, time(1, 0)));
    accepts(&[good; 256]);
    assert_eq!(check(&LOG, &[good; 257]), Verdict::BadRecords);
    assert_eq!(check(&LOG, &[wrong; 257]), Verdict::BadRecords);
    let mut last_wrong = [good; 256];
    last_wrong[255] = wrong;
    names_last(&last_wrong);
}

#[test]
fn another_kind_or_a_key_above_15_is_refused_wherever_it_stands() {
    let (good, wrong) = (of_entry(1, 4), write(1, 0, 5, 41, time(1, 0)));
    let kinds = (0..=u8::MAX).filter(|kind| ![6, 11].contains(kind));
    let of_kind = kinds.map(|kind| Record { kind, ..good });
    let of_key = (16..=u8::MAX).map(|key| Record { key, ..good });
    for outside in of_kind.chain(of_key).chain([Record { key: 16, ..read_at(1, 9, 1) }]) {
        for records in [[outside, good, wrong], [wrong, outside, good], [good, wrong, outside]] {
            assert_eq!(check(&LOG, &records), Verdict::BadRecords, "{outside:?}");
        }
    }
    accepts(&[read(1, 15, 0, time(9, 2))]);
}

/// The logs that no well-formed record could hold, with records that break every other rule too.
#[test]
fn a_log_that_could_not_be_is_refused_first() {
    let outside = Record { kind: 7, ..of_entry(1, 1) };
    let with = |position: usize, entry: Entry| {
        let mut log = LOG;
        log[position - 1] = entry;
        check(&log, &[outside])
    };
    let fourth = LOG[3];
    assert_eq!(with(4, fourth), Verdict::BadRecords);
    assert_eq!(with(1, Entry { term: 0, ..LOG[0] }), Verdict::BadLog);
    for term in [1, 5] {
        assert_eq!(with(4, Entry { term, ..fourth }), Verdict::BadLog);
    }
    for (key, value) in [(16, 42), (254, 42), (255, 42), (5, 0)] {
        assert_eq!(with(4, Entry { key, value, ..fourth }), Verdict::BadLog);
    }
    for time in [time(2, 0), time(1, 9), time(9, 2), time(9, 3)] {
        assert_eq!(with(4, Entry { time, ..fourth }), Verdict::BadLog);
    }
}

#[test]
fn a_committed_log_has_128_entries_at_most() {
    let rising =
        |length: u16| -> Vec<Entry> { (1..=length).map(|n| entry(1, 5, n, time(1, n))).collect() };
    let last = |n: u16| [read(1, 5, n, time(1, n)), write(1, n, 5, n, time(1, n))];
    for n in [127, 128] {
        assert_eq!(check(&rising(n), &last(n)), Verdict::Accepted(2));
    }
    assert_eq!(check(&rising(129), &last(129)), Verdict::BadLog);
    assert_eq!(check(&rising(129), &[last(129)[0]; 257]), Verdict::BadLog);
    assert_eq!(check(&rising(129), &[]), Verdict::BadLog);
}

/// From a text that breaks everything, mended one by one.
#[test]
fn refusals_come_in_order() {
    let mut log = LOG;
    log[0].term = 0;
    let (wrong, outside) = ("000106050029000000010000\n", "000107050029000100010000\n");
    let (many, bad) = (outside.repeat(257), "0\n");
    let verdict =
        |log: &[Entry], texts: &[&str]| check_text(log, texts.concat().as_bytes()).to_string();
    assert_eq!(verdict(&log, &[wrong, &many, bad]), "refusal 1 at line 259");
    assert_eq!(verdict(&log, &[wrong, &many]), "refusal 2");
    assert_eq!(verdict(&LOG, &[wrong, &many]), "refusal 3");
    assert_eq!(verdict(&LOG, &[wrong, outside]), "refusal 3");
    assert_eq!(verdict(&LOG, &[&wrong.repeat(257)]), "refusal 3");
    assert_eq!(verdict(&LOG, &["000106050029000100010000\n", wrong]), "record 1 at line 2");
    assert_eq!(verdict(&LOG, &["000106050029000100010000\n"]), "accepted 1");
}
