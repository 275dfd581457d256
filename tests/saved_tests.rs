//! Tests of the saved form: records of every sort and back, docs/SAVED.md's example, and each value
//! that no record has. Texts that break the shape are in `shapes_tests.rs`, what one edition has and
//! another hasn't is in `editions_tests.rs`.

use super::followers::{following, may_follow};
use super::reported::{busy, report, told};
use super::*;
use crate::saved::{is_form_of, load, save};

/// The text of a record, which is seen to be loaded as that record.
fn text_of(record: &Cluster) -> String {
    let text = save(record).expect("the record is well formed");
    assert_eq!(load(&text), Ok(*record));
    String::from_utf8(text).unwrap()
}

/// Loads a text that is some record's, and sees that it is that record's.
fn loaded(text: &str) -> Cluster {
    let record = load(text.as_bytes()).expect(text);
    assert!(is_form_of(&record, text.as_bytes()), "{}", text);
    record
}

/// The refusal of a text that is no record's.
fn refused(text: impl AsRef<[u8]>) -> u8 {
    load(text.as_ref()).expect_err("the text is refused").number()
}

/// Lines whose fields are set apart, as a text.
fn text<S: AsRef<str>>(lines: &[S]) -> String {
    lines.iter().map(|line| line.as_ref().replace(' ', "") + "\n").collect()
}

/// A text with every sort of frame, at least two of those that have neighbours.
const LINES: [&str; 11] = [
    "00 03 03 04",
    "01 0002 02 02 02 01 0105 0001 0307 0402 0206",
    "02 0002 05 1029 0102 0000",
    "02 0103 ff 0000 0402 0201",
    "03 01 0105 0103 0002",
    "03 02 0304 0102 0080",
    "04 02 0506 0405 007f",
    "04 00 0708 0001 0080",
    "01 0001 00 00 01 00 0002 0000 0001 0102 0000",
    "02 0002 05 1029 0102 0000",
    "01 0000 00 00 00 00 0000 0000 0001 0000 0000",
];

/// The lines with another field in the place of one.
fn with_field(line: usize, field: usize, value: &str) -> Vec<String> {
    let mut lines = LINES.map(String::from).to_vec();
    let mut fields: Vec<&str> = LINES[line].split(' ').collect();
    assert!(fields[field] != value);
    fields[field] = value;
    lines[line] = fields.join(" ");
    lines
}

fn example() -> String {
    let rows = include_str!("../docs/SAVED.md").lines().filter_map(|row| row.strip_prefix("| `"));
    rows.map(|row| format!("{}\n", row.split('`').next().unwrap())).collect()
}

#[test]
fn the_example_line_by_line() {
    let mut record = Cluster::ZERO;
    let writes = Step::Writes { a: 0, key: 5, value: 41, client: Time::ZERO };
    let pulls = Step::Pulls { a: 1, b: 0 };
    let elects = Step::Elect { a: 0, set: 3 };
    let start = Step::Start { servers: 3, followers: 0 };
    for taken in [start, elects, writes, pulls, Step::TakesReport { a: 0 }] {
        step(&mut record, &taken).unwrap();
    }
    assert_eq!(example().lines().count(), 7);
    assert_eq!(loaded(&example()), record);
}

#[test]
fn each_byte_has_its_field() {
    let time = |p: u16, l: u16| Time { p, l };
    let first = Entry { term: 2, key: 5, value: 0x1029, time: time(0x102, 0) };
    let second = Entry { term: 0x103, key: 255, value: 0, time: time(0x402, 0x201) };
    let mut longer = Server { term: 0x105, role: Primary, source: Some(1), ..Server::FRESH };
    longer.log.push(first);
    longer.log.push(second);
    (longer.commit_point, longer.wall_clock) = (1, 0x307);
    longer.cluster_time = time(0x402, 0x206);
    let notes = [(1, note(0x105, 0x103, 2)), (2, note(0x304, 0x102, 128))];
    let reports = [report(2, note(0x506, 0x405, 127)), report(0, note(0x708, 1, 128))];
    let mut shorter = Server { term: 2, source: Some(0), ..Server::FRESH };
    shorter.log.push(first);
    shorter.cluster_time = time(0x102, 0);
    let servers = [told(noting(longer, &notes), &reports), shorter, Server::FRESH];
    assert_eq!(text_of(&following(4, &servers)), text(&LINES));
}

#[test]
fn a_fresh_cluster_of_each_size_with_any_followers() {
    let fresh = "0100000000000000000000000100000000\n";
    for count in 2..=SERVERS {
        for followers in 0..=255 {
            let text = format!("00030{count}{followers:02x}\n{}", fresh.repeat(count));
            if may_follow(count, followers) {
                assert_eq!(
                    text_of(&following(followers, &[Server::FRESH; SERVERS][..count])),
                    text
                );
            } else {
                assert_eq!(refused(text), 2);
            }
        }
    }
}

/// All that a record can hold with logs and lengths of so many, entries that write nothing among it.
fn full(most: usize) -> Cluster {
    let notes: Vec<_> =
        (0..SERVERS).map(|who| (who, note(65_535, 65_535 - who as u16, most))).collect();
    let reports: Vec<_> =
        (0..8).map(|i| report(i % SERVERS, note(65_535, 256, most - i))).collect();
    let terms: Vec<u16> = (0..=65_535).skip(65_536 - most).collect();
    let mut record = cluster(&[told(noting(primary(65_535, &terms), &notes), &reports); SERVERS]);
    for (number, server) in record.servers.iter_mut().enumerate() {
        *server = nothing_at(&coming_after((number + 1) % SERVERS, *server), number + 1);
        server.commit_point = most - number;
        server.wall_clock = 65_535 - number as u16;
    }
    record
}

#[test]
fn seven_full_servers() {
    let text = text_of(&full(128));
    assert_eq!(text.lines().count(), 1 + 7 * (1 + 128 + 7 + 8));
    assert_eq!(text.len(), 9 + 7 * (35 + 128 * 21 + 7 * 17 + 8 * 17));
}

#[test]
fn odd_records_and_busy_ones() {
    text_of(&cluster(&busy()));
    for a in odd_servers() {
        for b in odd_servers() {
            let servers = [a, b, coming_after(0, a)];
            text_of(&cluster(&servers));
            for number in (0..3).filter(|&number| servers[number].role == Secondary) {
                text_of(&following(1 << number, &servers));
            }
        }
    }
}

/// Values that no record has, each alone; line, field and value.
const WRONG: &[(usize, usize, &str)] = &[
    // Followers: one that is primary, one past the count, too few voters.
    (0, 3, "01"),
    (0, 3, "08"),
    (0, 3, "10"),
    (0, 3, "40"),
    (0, 3, "80"),
    (0, 3, "0c"),
    (0, 3, "84"),
    (0, 3, "06"),
    (0, 3, "07"),
    (0, 3, "ff"),
    // Roles, sources, terms, commit points, wall clocks, cluster times.
    (1, 5, "02"),
    (10, 5, "ff"),
    (10, 5, "01"),
    (1, 4, "01"),
    (8, 4, "02"),
    (1, 4, "04"),
    (10, 4, "04"),
    (10, 4, "08"),
    (10, 4, "ff"),
    (1, 6, "0102"),
    (8, 6, "0001"),
    (1, 7, "0003"),
    (8, 7, "0101"),
    (10, 7, "0001"),
    (1, 8, "0000"),
    (10, 8, "0000"),
    (1, 9, "0401"),
    (1, 10, "0200"),
    (8, 9, "0002"),
    // Entries: terms, keys and values, times.
    (9, 1, "0000"),
    (3, 1, "0001"),
    (2, 1, "0104"),
    (3, 1, "0106"),
    (9, 2, "10"),
    (9, 2, "fe"),
    (9, 2, "ff"),
    (9, 3, "0000"),
    (3, 2, "00"),
    (3, 2, "0f"),
    (3, 3, "0001"),
    (3, 3, "0100"),
    (2, 4, "0403"),
    (3, 4, "0403"),
    (9, 5, "0001"),
    // Notes: whose, and what is in no note.
    (4, 1, "02"),
    (4, 1, "03"),
    (5, 1, "00"),
    (5, 1, "01"),
    (5, 1, "03"),
    (5, 1, "06"),
    (5, 1, "07"),
    (5, 1, "ff"),
    (4, 2, "0102"),
    (4, 2, "0000"),
    (4, 3, "0000"),
    (4, 3, "0106"),
    (5, 4, "0000"),
    (5, 4, "0081"),
    (5, 4, "0102"),
    // Reports: who, and what is in no report.
    (6, 1, "03"),
    (7, 1, "07"),
    (7, 1, "ff"),
    (6, 2, "0404"),
    (7, 3, "0000"),
    (7, 3, "0709"),
    (6, 4, "0000"),
    (7, 4, "0081"),
    (7, 4, "ffff"),
];

/// Values at the edge of what records have, each alone.
const RIGHT: &[(usize, usize, &str)] = &[
    (0, 3, "00"),
    (0, 3, "02"),
    (1, 4, "00"),
    (1, 4, "03"),
    (8, 4, "03"),
    (1, 5, "00"),
    (8, 5, "01"),
    (1, 6, "0103"),
    (10, 6, "ffff"),
    (1, 7, "0000"),
    (1, 7, "0002"),
    (1, 8, "0001"),
    (1, 8, "ffff"),
    (1, 9, "ffff"),
    (1, 10, "0201"),
    (10, 10, "ffff"),
    (2, 1, "0001"),
    (2, 1, "0103"),
    (3, 1, "0105"),
    (9, 2, "00"),
    (9, 2, "0f"),
    (9, 3, "0001"),
    (9, 3, "ffff"),
    (2, 4, "0000"),
    (2, 5, "ffff"),
    (3, 5, "0206"),
    (4, 1, "00"),
    (4, 2, "ffff"),
    (4, 3, "0105"),
    (4, 3, "0001"),
    (4, 4, "0080"),
    (5, 4, "0001"),
    (6, 1, "01"),
    (7, 1, "02"),
    (6, 3, "0506"),
    (7, 4, "0001"),
];

#[test]
fn a_wrong_value_is_2_and_1_where_the_shape_breaks_after_it() {
    for &(line, field, value) in WRONG {
        let text = text(&with_field(line, field, value));
        assert_eq!(refused(&text), 2, "{line} {field} {value}");
        assert_eq!(refused(text.trim_end()), 1, "{line} {field} {value}");
        assert_eq!(refused(text.clone() + "\n"), 1, "{line} {field} {value}");
        assert_eq!(refused(text.replace("0100000000", "0100010000")), 1, "{line} {field} {value}");
    }
}

#[test]
fn a_value_at_its_edge_is_loaded() {
    for &(line, field, value) in RIGHT {
        loaded(&text(&with_field(line, field, value)));
    }
}

#[test]
fn zero_notes_and_zero_reports_are_2() {
    for line in 4..8 {
        let mut lines = LINES;
        let zero = LINES[line][..5].to_string() + " 0000 0000 0000";
        lines[line] = &zero;
        assert_eq!(refused(text(&lines)), 2);
    }
}

#[path = "editions_tests.rs"]
mod editions;
#[path = "shapes_tests.rs"]
mod shapes;
