//! Tests of what one edition has and another hasn't: their numbers, their limits, their first frames,
//! and readers that know fewer of them. A later program reads what an earlier one wrote: that is in
//! `plain_tests.rs`.

use super::*;
use crate::saved::{EDITIONS, Edition, Refusal, load_knowing, save_as};

/// The last edition.
const LAST: u8 = 3;

fn edition(number: u8) -> &'static Edition {
    &EDITIONS[usize::from(number) - 1]
}

/// A text without followers with another edition's number in its first frame, which is as long as
/// that edition's.
fn with_edition(number: u8, text: &str) -> String {
    let followers = if number < LAST { "" } else { "00" };
    with_first(&format!("00{number:02x}{}{followers}", &text[4..6]), text)
}

/// A text with another first line.
fn with_first(first: &str, text: &str) -> String {
    let rest = text.find('\n').map_or("", |end| &text[end..]);
    first.to_string() + rest
}

/// What comes of a text: its record, or the refusal.
fn ends(text: &str) -> Result<Cluster, u8> {
    load(text.as_bytes()).map_err(Refusal::number)
}

/// Records that edition 1 allows: fresh ones, odd ones, one with all sorts of frames and a full one.
fn old_records() -> Vec<Cluster> {
    let mut records: Vec<Cluster> = (2..=SERVERS).map(Cluster::fresh).collect();
    let odd = odd_servers().into_iter().filter(|server| server.log.length <= 32);
    records.extend(odd.map(|server| cluster(&[server, server])));
    records.extend([cluster(&busy_before()), full(32)]);
    records
}

/// The busy servers with lengths as edition 1 has them.
fn busy_before() -> [Server; 3] {
    let noted = (0, note(9, 1, 32));
    busy().map(|server| noting(server, &[noted]))
}

/// A good text, one with a wrong value, and one that is cut; with first frames of either length.
#[test]
fn first_frames_of_every_number() {
    let whole = text_of(&Cluster::fresh(3));
    let wrong = whole.replace("000100000000", "000000000000");
    let cut = whole.trim_end();
    for number in 0..=255 {
        for (narrow, followers) in [(true, ""), (false, "00")] {
            let expected = match (number, narrow) {
                (1 | 2, true) | (3, false) => [Ok(Cluster::fresh(3)), Err(2), Err(1)],
                _ => [Err(1); 3],
            };
            let first = format!("00{number:02x}03{followers}");
            let ended = [&whole, &wrong, cut].map(|text| ends(&with_first(&first, text)));
            assert_eq!(ended, expected, "{first}");
        }
    }
}

#[test]
fn a_record_has_one_text_in_each_edition_that_allows_it() {
    let of_edition_2 = [full(33), full(128), cluster(&busy())].map(|record| (2, record));
    for (oldest, record) in old_records().into_iter().map(|record| (1, record)).chain(of_edition_2)
    {
        let text = text_of(&record);
        for number in oldest..=LAST {
            let other = with_edition(number, &text);
            assert_eq!(save_as(edition(number), &record), Ok(other.clone().into_bytes()));
            assert_eq!(ends(&other), Ok(record));
        }
        assert_eq!(with_edition(LAST, &text), text);
    }
}

/// What has followers isn't written without them; a text that doesn't tell them has none.
#[test]
fn editions_1_and_2_have_no_text_for_followers() {
    for followers in (1..0x80).filter(|&followers| may_follow(SERVERS, followers)) {
        let servers = [holding(&[1]); SERVERS];
        let record = following(followers, &servers);
        let text = text_of(&record);
        assert!(text.starts_with(&format!("000307{followers:02x}\n")));
        for number in [1, 2] {
            assert_eq!(save_as(edition(number), &record), Err(Refusal::Value));
            let told = with_first(&format!("00{number:02x}07{followers:02x}"), &text);
            assert_eq!(ends(&told), Err(1));
            assert_eq!(ends(&with_edition(number, &text)), Ok(cluster(&servers)));
        }
    }
}

/// Three servers of which one has so many entries, and notes and reports of these lengths.
fn text_at(server: usize, [entries, noted, reported]: [usize; 3]) -> String {
    let mut lines = vec!["00 03 03 00".to_string()];
    lines.extend((0..server).map(|_| LINES[10].to_string()));
    lines.push(format!("01 {entries:04x} 02 02 00 00 0001 0000 0001 0001 ffff"));
    lines.extend((0..entries).map(|i| format!("02 0001 00 0001 0001 {i:04x}")));
    for (sort, length) in [("03", noted), ("04", reported)] {
        lines.push(format!("{sort} 00 0001 0001 0001"));
        lines.push(format!("{sort} 02 0001 0001 {length:04x}"));
    }
    lines.extend((server + 1..3).map(|_| LINES[10].to_string()));
    text(&lines)
}

/// A log, a note and a report, each alone as long as asked, on each server.
#[test]
fn each_edition_has_its_limits() {
    for (number, most) in [(1, 32), (2, 128), (3, 128)] {
        for size in [31, 32, 33, 127, 128, 129, 256 + 1, 256 + 32] {
            for sizes in [[size, 1, 1], [0, size, 1], [0, 1, size], [size; 3]] {
                for server in 0..3 {
                    let text = with_edition(number, &text_at(server, sizes));
                    if size <= most {
                        loaded(&text);
                    } else {
                        assert_eq!(refused(&text), 2, "edition {number}, {sizes:?}");
                        assert_eq!(refused(text.trim_end()), 1, "edition {number}, {sizes:?}");
                    }
                }
            }
        }
    }
}

/// A record with more than 32 of something has no text of edition 1, and changing the edition of its
/// own makes it none.
#[test]
fn edition_1_has_no_text_for_more() {
    let mut texts = vec![with_edition(2, &text(&LINES)), text_of(&full(33)), text_of(&full(128))];
    texts.extend([[33, 1, 1], [0, 33, 1], [0, 1, 33], [128; 3]].map(|sizes| text_at(1, sizes)));
    for text in texts {
        let record = loaded(&text);
        assert_eq!(save_as(edition(1), &record), Err(Refusal::Value));
        let before = with_edition(1, &text);
        let ended = [1, 2, 3].map(|number| ends(&with_edition(number, &before)));
        assert_eq!(ended, [Err(2), Ok(record), Ok(record)]);
    }
}

/// The lines with a field changed, in an edition that tells no followers; lengths as edition 1 has
/// them.
fn before_with(number: u8, (line, field, value): (usize, usize, &str)) -> String {
    let lines = LINES.map(|line| line.replace(" 0080", " 0020").replace(" 007f", " 001f"));
    let mut fields: Vec<&str> = lines[line].split(' ').collect();
    fields[field] = value;
    let mut changed = lines.clone();
    changed[line] = fields.join(" ");
    with_edition(number, &text(&changed))
}

/// What a value is taken for in edition 3 it is taken for in editions 1 and 2, but for what is above
/// 32 in edition 1.
#[test]
fn a_value_means_the_same_in_editions_1_and_2() {
    let values = [(WRONG, false), (RIGHT, true)];
    let values = values.iter().flat_map(|(values, right)| values.iter().map(move |v| (v, *right)));
    for (&(line, field, value), right) in values.filter(|((line, ..), _)| *line > 0) {
        for number in [1, 2] {
            let text = before_with(number, (line, field, value));
            if right && !(number == 1 && value == "0080") {
                assert_eq!(loaded(&text).followers, 0);
            } else {
                assert_eq!(refused(&text), 2, "edition {number}: {line} {field} {value}");
            }
        }
    }
}

/// A reader that knows the first editions alone takes their texts as one that knows all does, and
/// refuses all others at their first frame, whatever follows.
#[test]
fn a_reader_of_fewer_editions() {
    let mut texts = vec![text(&LINES), before_with(1, (10, 8, "0002")), text_at(2, [33; 3])];
    texts.extend(old_records().iter().map(text_of));
    texts.extend(WRONG.iter().map(|&(line, field, value)| text(&with_field(line, field, value))));
    for text in texts {
        let first_line = text.split_inclusive('\n').next().unwrap();
        for text in [&text, text.trim_end(), first_line] {
            for known in [1, 2] {
                for number in 1..=LAST {
                    let text = with_edition(number, text);
                    let read = load_knowing(&EDITIONS[..usize::from(known)], text.as_bytes());
                    if number <= known {
                        assert_eq!(read, load(text.as_bytes()));
                    } else {
                        assert_eq!(read, Err(Refusal::Shape));
                    }
                }
            }
        }
    }
    let told = load_knowing(&EDITIONS[..2], text(&LINES).as_bytes());
    assert_eq!(told, Err(Refusal::Shape));
}
