//! Tests of the saved form's shape: a broken text for each sentence of docs/SAVED.md on what is
//! refused with 1, and texts of the right shape that no record can hold.

use super::*;
use crate::saved::Refusal;

#[test]
fn lines_swapped() {
    let swapped = |line: usize, other: usize| {
        let mut lines = LINES;
        lines.swap(line, other);
        text(&lines)
    };
    let reports = loaded(&swapped(6, 7)).servers[0].queue.reports;
    assert_eq!(reports[..2], [report(0, note(0x708, 1, 128)), report(2, note(0x506, 0x405, 127))]);
    assert_eq!([(2, 3), (3, 9), (4, 5)].map(|(line, other)| refused(swapped(line, other))), [2; 3]);
    let of_other_sorts = [(0, 1), (1, 2), (3, 4), (5, 6), (7, 8), (8, 9), (9, 10), (1, 8), (8, 10)];
    assert_eq!(of_other_sorts.map(|(line, other)| refused(swapped(line, other))), [1; 9]);
}

#[test]
fn lines_doubled_and_left_out() {
    for lines in [&LINES[..], &example().lines().collect::<Vec<_>>()] {
        for line in 0..lines.len() {
            let doubled = [&lines[..=line], &lines[line..]].concat();
            let left_out = [&lines[..line], &lines[line + 1..]].concat();
            assert_eq!([doubled, left_out].map(|lines| refused(text(&lines))), [1; 2]);
        }
    }
}

#[test]
fn the_first_line_is_a_first_frame_of_a_known_edition() {
    let of_other_numbers = ["00 00", "00 04", "00 ff", "01 03", "04 03", "ff 03", "01 02"];
    let wide = of_other_numbers.map(|first| format!("{first} 03 00"));
    let narrow = of_other_numbers.map(|first| format!("{first} 03"));
    let of_other_lengths = ["00 03 03", "00 01 03 00", "00 02 03 00", "00 03 03 00 00"];
    let cut = ["00 03 03 0", "00 03 3", "00 03", "00 02 03 0", "00 02 3", "00 02", "00", ""];
    let of_other_lengths = of_other_lengths.iter().chain(&cut).copied();
    for first in wide.iter().chain(&narrow).map(String::as_str).chain(of_other_lengths) {
        assert_eq!(refused(text(&[&[first], &LINES[1..]].concat())), 1, "{first}");
    }
    assert_eq!(refused(text(&LINES[1..])), 1);
}

/// For each sort a frame of another sort in its place, or of another length.
#[test]
fn a_line_of_another_sort_or_length() {
    for line in 0..LINES.len() {
        for sort in ["00", "01", "02", "03", "04", "05", "10", "ff"] {
            if !LINES[line].starts_with(sort) {
                assert_eq!(refused(text(&with_field(line, 0, sort))), 1, "{line} {sort}");
            }
        }
        let [shorter, digit] = [2, 1].map(|cut| &LINES[line][..LINES[line].len() - cut]);
        let longer = ["0", "00", "\r", "\t", "\0", "\n"].map(|more| LINES[line].to_string() + more);
        for other in longer.iter().map(String::as_str).chain([shorter, digit, ""]) {
            assert_eq!(refused(text(&[&LINES[..line], &[other], &LINES[line + 1..]].concat())), 1);
        }
    }
}

#[test]
fn upper_case_crlf_and_what_comes_after_the_end() {
    let text = text(&LINES);
    loaded(&text);
    assert_eq!(refused(text.to_ascii_uppercase()), 1);
    assert_eq!(refused(text.replace('\n', "\r\n")), 1);
    assert_eq!(refused(text.replace('\n', "\r")), 1);
    assert_eq!(refused(text.replace('\n', "\n\n")), 1);
    assert_eq!(refused("\u{feff}".to_string() + &text), 1);
    for more in
        ["\n", " ", "\0", "0", "00", "000203\n", "00030304\n", &text, LINES[10], "\u{ff}", "\r\n"]
    {
        assert_eq!(refused(text.clone() + more), 1, "{more:?}");
    }
}

/// A long text only at some places, which are all places of a line in turn.
#[test]
fn a_text_cut_anywhere() {
    for (text, every) in [(text(&LINES), 1), (example(), 1), (text_of(&full(128)), 51)] {
        for place in (1..text.len()).step_by(every).chain([text.len() - 1]) {
            let (beginning, rest) = text.split_at(place);
            assert_eq!([beginning, rest].map(refused), [1; 2], "{beginning}");
        }
    }
    assert_eq!(refused(""), 1);
}

/// Whether a field is looked at for the shape: sorts, an edition, since another isn't known or has a
/// shorter first frame, and what is announced.
fn is_shape(line: usize, field: usize) -> bool {
    match LINES[line].as_bytes()[1] {
        b'0' => field < 3,
        b'1' => field < 4,
        _ => field == 0,
    }
}

/// Each byte changed to each other one: only where a digit of a value becomes another digit does the
/// shape stay, and what is then loaded has that text.
#[test]
fn any_byte_changed() {
    let mut place = 0;
    let whole = text(&LINES).into_bytes();
    for (line, fields) in LINES.iter().enumerate() {
        for (field, digits) in fields.split(' ').chain(["\n"]).enumerate() {
            for _ in 0..digits.len() {
                for byte in (0..=255).filter(|&byte| byte != whole[place]) {
                    let mut text = whole.clone();
                    text[place] = byte;
                    let stays = matches!(byte, b'0'..=b'9' | b'a'..=b'f') && digits != "\n";
                    match load(&text) {
                        Ok(record) => assert!(is_form_of(&record, &text)),
                        Err(refusal) => {
                            let broken = !stays || is_shape(line, field);
                            assert_eq!(refusal == Refusal::Shape, broken)
                        }
                    }
                }
                place += 1;
            }
        }
    }
    assert_eq!(place, whole.len());
}

/// Two servers of which the first announces so many frames of a sort, and so many are there, each by
/// itself as good as any.
fn announcing(sort: u8, announced: usize, there: usize) -> String {
    let mut counts = [0; 5];
    counts[usize::from(sort)] = announced;
    let [_, _, entries, notes, reports] = counts;
    let server =
        format!("01 {entries:04x} {notes:02x} {reports:02x} 00 00 0001 0000 0001 0001 ffff");
    let frame = |i: usize| match sort {
        2 => format!("02 0001 00 0001 0001 {:04x}", i % 65_536),
        3 => format!("03 {:02x} 0001 0001 0001", i % 256),
        _ => "04 01 0001 0001 0001".to_string(),
    };
    let mut lines = vec!["00 03 02 00".to_string(), server];
    lines.extend((0..there).map(frame));
    lines.push(LINES[10].to_string());
    text(&lines)
}

#[test]
fn as_many_frames_as_are_announced() {
    for (sort, held, most) in [(2, 128, 65_535), (3, 2, 255), (4, 8, 255)] {
        loaded(&announcing(sort, held, held));
        for announced in [held + 1, 140, most - 1, most] {
            assert_eq!(refused(announcing(sort, announced, announced)), 2, "{sort} {announced}");
        }
        for announced in [held, most] {
            for there in [announced - 1, announced + 1] {
                assert_eq!(refused(announcing(sort, announced, there)), 1, "{sort} {there}");
            }
        }
        assert_eq!(refused(announcing(sort, 0, most + 1)), 1);
    }
}

#[test]
fn as_many_servers_as_are_announced() {
    let servers = |announced: usize, there: usize| {
        let first = format!("00 03 {announced:02x} 00");
        text(&[&[&first[..]], &vec![LINES[10]; there][..]].concat())
    };
    for count in [0, 1, 8, 9, 40, 254, 255] {
        assert_eq!(refused(servers(count, count)), 2, "{count}");
        assert_eq!(refused(servers(count, count + 1)), 1, "{count}");
    }
    for count in [1, 2, 7, 8, 255] {
        assert_eq!(refused(servers(count, count - 1)), 1, "{count}");
    }
    assert_eq!([2, 7].map(|count| loaded(&servers(count, count)).count), [2, 7]);
}
