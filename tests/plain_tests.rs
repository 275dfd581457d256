//! Whole sessions and their answers, with the lines cut anywhere and the record saved and loaded
//! between any two.

use super::*;
use model::{Role, Server};

type Take = fn(&mut Cluster, &Step) -> Answer;

/// The answers from a record on and the record after them, with input in blocks of a size.
fn answers_from(mut cluster: Cluster, take: Take, size: usize, steps: &[u8]) -> (String, Cluster) {
    let mut output = Vec::new();
    let input = BufReader::with_capacity(size, steps);
    answer_lines(&mut cluster, take, input, &mut output).unwrap();
    (String::from_utf8(output).unwrap(), cluster)
}

/// The same with the record saved and loaded after each line, once there was a start.
fn answers_in_evenings(take: Take, steps: &[u8]) -> (String, Cluster) {
    let (mut answers, mut cluster) = (String::new(), Cluster::ZERO);
    for line in steps.split_inclusive(|&character| character == b'\n') {
        let (answer, left) = answers_from(cluster, take, BLOCK, line);
        answers += &answer;
        let saved = save(&left);
        assert_eq!(saved.is_ok(), left.count > 0);
        cluster = saved.map_or(Cluster::ZERO, |text| load(&text).unwrap());
    }
    (answers, cluster)
}

/// Blocks of every small size, so that lines are cut anywhere; with the record trusted; and saved.
fn answers(steps: &[u8]) -> String {
    let whole = answers_from(Cluster::ZERO, step, BLOCK, steps);
    assert!((1..40).all(|size| answers_from(Cluster::ZERO, step, size, steps) == whole));
    assert_eq!(answers_from(Cluster::ZERO, trusting_step, BLOCK, steps), whole);
    assert_eq!(answers_in_evenings(step, steps), whole);
    assert_eq!(answers_in_evenings(trusting_step, steps), whole);
    whole.0
}

/// Steps left, answers right.
fn is_answered<S: AsRef<str>>(session: &[(S, S)]) {
    let steps: Vec<&str> = session.iter().map(|pair| pair.0.as_ref()).collect();
    let printed: String = session.iter().map(|pair| format!("{}\n", pair.1.as_ref())).collect();
    assert_eq!(answers(steps.join("\n").as_bytes()), printed);
}

#[test]
fn the_printed_session() {
    let session = [
        ("00030000000000000000000000", "000000000000000000"),
        ("01000003000000000000000000", "000000000100000000"),
        ("06000000050029000000000000", "000001000100010000"),
        ("04010000000000000000000000", "000001000000000000"),
        ("10000000000000000000000000", "000000000000000000"),
        ("07000000000000000000000000", "000001000000000000"),
        ("0c000000000001000100000000", "000001000100010000"),
        ("0b010000050000000000010000", "080000000000000000"),
        ("03010000000000000000000000", "000000000000000000"),
        ("0b010000050000000000010000", "000029000000010000"),
    ];
    is_answered(&session);
}

/// The other sessions of `docs/SESSIONS.md`.
#[test]
fn the_samples() {
    let samples = [
        (include_str!("../samples/newest"), include_str!("../samples/newest.answers")),
        (include_str!("../samples/reports"), include_str!("../samples/reports.answers")),
        (include_str!("../samples/phones"), include_str!("../samples/phones.answers")),
        (include_str!("../samples/may"), include_str!("../samples/may.answers")),
        (include_str!("../samples/followers"), include_str!("../samples/followers.answers")),
    ];
    for (steps, printed) in samples {
        assert_eq!(answers(steps.as_bytes()), printed);
    }
}

/// A write is covered under one primary, another wins and asks for the newest value; the one
/// that it has overtaken asks too and is never answered about what it appends now.
#[test]
fn a_session_of_newest_reads() {
    is_answered(&[
        ("00030000000000000000000000", "000000000000000000"),
        ("01000003000000000000000000", "000000000100000000"),
        ("06000000050029000000000000", "000001000100010000"),
        ("04010000000000000000000000", "000001000000000000"),
        ("10000000000000000000000000", "000000000000000000"),
        ("07000000000000000000000000", "000001000000000000"),
        ("01010006000000000000000000", "000000000200000000"),
        ("0e010000000000000000000000", "000002000200010001"),
        ("0f010000050002000200000000", "080000000000000000"),
        ("0e000000000000000000000000", "000002000100010001"),
        ("07000000000000000000000000", "050000000000000000"),
        ("0f000000050002000100000000", "080000000000000000"),
        ("04020100000000000000000000", "000002000000000000"),
        ("10010000000000000000000000", "000000000000000000"),
        ("07010000000000000000000000", "000002000000000000"),
        ("0f010000050002000200000000", "000029000000010001"),
        ("0f010000060002000200000000", "000000000000010001"),
        ("0c010000000002000200000000", "000002000200010001"),
        ("0f000000050001000100000000", "000029000000010000"),
        ("0f020000050002000200000000", "040000000000000000"),
        ("0f010000050001000200000000", "0a0000000000000000"),
        ("0f010000ff0002000200000000", "030000000000000000"),
        ("0e010000ff0000000000000000", "010000000000000000"),
    ]);
}

/// A primary commits by a note of a server that has been led on into a later term since; what it
/// covered is there under the next primary, and it comes after that one in the end.
#[test]
fn a_session_of_a_stale_note() {
    is_answered(&[
        ("00030000000000000000000000", "000000000000000000"),
        ("01000003000000000000000000", "000000000100000000"),
        ("06000000050029000000000000", "000001000100010000"),
        ("04010000000000000000000000", "000001000000000000"),
        ("07000000000000000000000000", "050000000000000000"),
        ("01010006000000000000000000", "000000000200000000"),
        ("10000000000000000000000000", "000000000000000000"),
        ("07000000000000000000000000", "000001000000000000"),
        ("0b000000050000000000010000", "000029000000010000"),
        ("07010000000000000000000000", "050000000000000000"),
        ("0601000005002a000000000000", "000002000200010001"),
        ("04020100000000000000000000", "000002000000000000"),
        ("10010000000000000000000000", "000000000000000000"),
        ("07010000000000000000000000", "000002000000000000"),
        ("03000100000000000000000000", "000000000000000000"),
        ("04000100000000000000000000", "000002000000000000"),
        ("0b000000050000000000010001", "00002a000000010001"),
        ("10000000000000000000000000", "050000000000000000"),
        ("10010000000000000000000000", "000000000000000000"),
        ("10010000000000000000000000", "050000000000000000"),
        ("10030000000000000000000000", "030000000000000000"),
        ("10000100000000000000000000", "010000000000000000"),
    ]);
}

/// A longer log of an older term is copied in the primary's term, and the report of that comes
/// round to the primary. Its entry at that position is on no other server, and doesn't pass.
#[test]
fn a_session_of_a_misleading_note() {
    is_answered(&[
        ("00030000000000000000000000", "000000000000000000"),
        ("01000003000000000000000000", "000000000100000000"),
        ("06000000050029000000000000", "000001000100010000"),
        ("04010000000000000000000000", "000001000000000000"),
        ("01010006000000000000000000", "000000000200000000"),
        ("0601000005002a000000000000", "000002000200010001"),
        ("0601000005002b000000000000", "000003000200010002"),
        ("03000100000000000000000000", "000000000000000000"),
        ("01000005000000000000000000", "000000000300000000"),
        ("0600000005002c000000000000", "000002000300010003"),
        ("04020100000000000000000000", "000003000000000000"),
        ("02010000000000000000000000", "000000000000000000"),
        ("10010000000000000000000000", "000000000000000000"),
        ("10010000000000000000000000", "050000000000000000"),
        ("10000000000000000000000000", "000000000000000000"),
        ("10000000000000000000000000", "050000000000000000"),
        ("07000000000000000000000000", "050000000000000000"),
        ("05020000000000000000000000", "000002000000000000"),
        ("10000000000000000000000000", "000000000000000000"),
        ("07000000000000000000000000", "000002000000000000"),
    ]);
}

/// A laptop at the meet copies, is asked for a majority read, passes on what it is told and is in no
/// election; a note of it covers nothing, and a start without followers makes it a voter.
#[test]
fn a_session_of_followers() {
    is_answered(&[
        ("00040008000000000000000000", "000000000000000000"),
        ("01000003000000000000000000", "000000000100000000"),
        ("06000000050029000000000000", "000001000100010000"),
        ("04030000000000000000000000", "000001000000000000"),
        ("10000000000000000000000000", "000000000000000000"),
        ("07000000000000000000000000", "050000000000000000"),
        ("0a030000050000000000010000", "000029000000010000"),
        ("0b030000050000000000010000", "080000000000000000"),
        ("0103000b000000000000000000", "030000000000000000"),
        ("01030003000000000000000000", "030000000000000000"),
        ("0100000b000000000000000000", "030000000000000000"),
        ("01000009000000000000000000", "030000000000000000"),
        ("01000001000000000000000000", "050000000000000000"),
        ("06030000050029000000000000", "040000000000000000"),
        ("07030000000000000000000000", "040000000000000000"),
        ("04010300000000000000000000", "000001000000000000"),
        ("10030000000000000000000000", "000000000000000000"),
        ("10000000000000000000000000", "000000000000000000"),
        ("07000000000000000000000000", "000001000000000000"),
        ("03030000000000000000000000", "000000000000000000"),
        ("0b030000050000000000010000", "000029000000010000"),
        ("00040018000000000000000000", "030000000000000000"),
        ("0004000e000000000000000000", "030000000000000000"),
        ("00040100000000000000000000", "010000000000000000"),
        ("00040000000000000000000000", "000000000000000000"),
        ("01000009000000000000000000", "050000000000000000"),
        ("0103000b000000000000000000", "000000000100000000"),
    ]);
}

/// A step and its answer, both filled up with zeros.
fn line(step: &str, answer: &str) -> (String, String) {
    (format!("{step:0<26}"), format!("{answer:0<18}"))
}

/// Two servers start, and server 0 is elected.
fn two_begin() -> Vec<(String, String)> {
    vec![line("0002", ""), line("01000003", "0000000001")]
}

/// Server 0 writes its nth entry, server 1 pulls so many, server 0 covers so many.
fn write(n: u8) -> (String, String) {
    line("06000000050029", &format!("0000{n:02x}0001000100{:02x}", n - 1))
}

fn pull(n: u8) -> (String, String) {
    line("0401", &format!("0000{n:02x}"))
}

fn advance(n: u8) -> (String, String) {
    line("07", &format!("0000{n:02x}"))
}

/// The ninth report finds a full queue, so the ninth entry passes only with the tenth report.
#[test]
fn a_session_of_nine_reports() {
    let mut session = two_begin();
    session.extend((1..=9).flat_map(|n| [write(n), pull(n)]));
    session.extend((1..=8).map(|_| line("10", "")));
    session.extend([line("10", "05"), advance(8), line("07", "05")]);
    session.extend([write(10), pull(10), line("10", ""), advance(10)]);
    is_answered(&session);
}

/// A log takes 128 entries, and all are pulled, reported, covered and asked for; there is no 129th
/// position.
#[test]
fn a_session_of_a_full_log() {
    let mut session = two_begin();
    session.extend((1..=127).map(write));
    session.extend([line("0c000000000080000100", "0a"), line("0c000000000081000100", "03")]);
    session.extend([write(128), line("06000000050029", "06"), line("0e", "06")]);
    session.extend([pull(128), line("0401", "05"), line("10", ""), advance(128)]);
    session.extend([line("0301", ""), line("0c010000000080000100", "00008000010001007f")]);
    session.extend([line("0f000000050080000100", "00002900000001007f")]);
    session.extend([line("0f000000050081000100", "03"), line("0c010000000081000100", "03")]);
    session.extend([line("0b01000005000000000001007f", "00002900000001007f")]);
    is_answered(&session);
}

#[test]
fn lines_are_counted_as_the_rulings_say() {
    let bad = "010000000000000000\n";
    assert_eq!(answers(b""), "");
    assert_eq!(answers(b"\n"), bad);
    assert_eq!(answers(b"x"), bad);
    assert_eq!(answers(b"\n\n"), bad.repeat(2));
    assert_eq!(answers(b"00030000000000000000000000\r\n"), bad);
    assert_eq!(answers(&[b'0'; 1000]), bad);
}

#[test]
fn before_the_first_start() {
    let steps = b"0d000000000000000000000000\n00080000000000000000000000\n0d\n";
    let printed = "020000000000000000\n030000000000000000\n010000000000000000\n";
    assert_eq!(answers(steps), printed);
}

#[test]
fn options_come_in_any_order_and_once() {
    let read = |line: &'static str| Options::read(&line.split_whitespace().collect::<Vec<_>>());
    let asked = |load, save, trust| Some(Options { load, save, trust, recover: None });
    assert_eq!(read(""), asked(None, None, false));
    assert_eq!(read("--trust"), asked(None, None, true));
    assert_eq!(read("--load a --save b"), asked(Some("a"), Some("b"), false));
    assert_eq!(read("--save a --trust --load a"), asked(Some("a"), Some("a"), true));
    assert_eq!(read("--load --save"), asked(Some("--save"), None, false));
    let wrong = ["--load", "--save", "--load a --load a", "--save a b", "--trust --trust", "a"];
    assert!(wrong.iter().all(|line| read(line).is_none()));
}

#[test]
fn a_record_is_got_going_again_by_a_key_and_a_value_and_not_saved() {
    let read = |line: &'static str| Options::read(&line.split_whitespace().collect::<Vec<_>>());
    let asked =
        |load, trust, write| Some(Options { load, trust, recover: Some(write), save: None });
    assert_eq!(read("--recover 5 50"), asked(None, false, (5, 50)));
    assert_eq!(read("--trust --recover 16 0 --load a"), asked(Some("a"), true, (16, 0)));
    assert_eq!(read("--load a --recover 255 65535"), asked(Some("a"), false, (255, 65_535)));
    let wrong = [
        "--recover",
        "--recover 5",
        "--recover 5 x",
        "--recover -1 1",
        "--recover 256 1",
        "--recover 5 65536",
        "--recover 5 50 6",
        "--recover 5 50 --recover 5 50",
        "--recover 5 50 --save a",
        "--save a --load a --recover 5 50",
    ];
    assert!(wrong.iter().all(|line| read(line).is_none()));
}

#[test]
fn a_record_is_loaded_first_and_saved_last_or_refused() {
    const START: &str = "00020000000000000000000000\n";
    const TICK: &str = "08010000000000000000000000\n";
    const DONE: &str = "000000000000000000\n";
    let server = |wall_clock| format!("0100000000000000000000{wall_clock:04x}00000000\n");
    let record = |wall_clock| format!("00030200\n{}{}", server(1), server(wall_clock));
    let before = |number: u8, wall_clock| {
        record(wall_clock).replacen("00030200", &format!("00{number:02x}02"), 1)
    };
    let file = std::env::temp_dir().join(format!("plain-tests-{}", std::process::id()));
    let file = file.to_str().unwrap();
    // How a run ends that may load a file and that saves to it, its answers, and what the file holds.
    let ran = |load: bool, text: &str, steps: &str| {
        fs::write(file, text).unwrap();
        let load = if load { Some(file) } else { None };
        let options = Options { load, save: Some(file), ..Options::default() };
        let mut output = Vec::new();
        let ended = run(&options, steps.as_bytes(), &mut output).unwrap();
        let answers = String::from_utf8(output).unwrap();
        (ended, answers, fs::read_to_string(file).unwrap())
    };
    let ended = |answers: &str, text: &str| (Ok(()), answers.to_string(), text.to_string());
    let refused = |n, answers: &str, text: &str| (Err(n), answers.to_string(), text.to_string());
    let begins = [START, TICK].concat();
    assert_eq!(ran(false, "old", &begins), ended(&DONE.repeat(2), &record(2)));
    assert_eq!(ran(true, &record(1), TICK), ended(DONE, &record(2)));
    assert_eq!(ran(true, &record(7), ""), ended("", &record(7)));
    for number in [1, 2] {
        assert_eq!(ran(true, &before(number, 1), TICK), ended(DONE, &record(2)));
        assert_eq!(ran(true, &before(number, 7), ""), ended("", &record(7)));
        let (wrong, unnamed) = (before(number, 0), before(number, 1).replacen("02\n", "0200\n", 1));
        assert_eq!(ran(true, &wrong, &begins), refused(2, "", &wrong));
        assert_eq!(ran(true, &unnamed, &begins), refused(1, "", &unnamed));
    }
    assert_eq!(ran(true, "old", &begins), refused(1, "", "old"));
    assert_eq!(ran(true, &record(0), &begins), refused(2, "", &record(0)));
    let alone = record(1).replacen("00030200", "00030202", 1);
    assert_eq!(ran(true, &alone, &begins), refused(2, "", &alone));
    assert_eq!(ran(false, "old", TICK), refused(2, "020000000000000000\n", "old"));
    fs::remove_file(file).unwrap();
}

/// What a run that may load a file writes to get its record going again, or the refusal.
fn recovers(load: Option<&str>, write: (u8, u16), steps: &str) -> Result<String, u8> {
    let written = [false, true].map(|trust| {
        let options = Options { load, trust, recover: Some(write), save: None };
        let mut output = Vec::new();
        let ended = run(&options, steps.as_bytes(), &mut output).unwrap();
        assert!(ended.is_ok() || output.is_empty());
        ended.map(|()| String::from_utf8(output).unwrap())
    });
    assert_eq!(written[0], written[1]);
    written[0].clone()
}

/// Server 0 was overtaken and has an entry that nobody else has; server 1 has won in term 2.
#[test]
fn a_plan_is_written_in_the_place_of_answers() {
    let newest = include_str!("../samples/newest");
    let steps = [
        "01010007",
        "06010000050032",
        "050001",
        "040201",
        "1001",
        "1001",
        "0701",
        "030001",
        "030201",
    ];
    let planned: String = steps.iter().map(|step| format!("{step:0<26}\n")).collect();
    assert_eq!(recovers(None, (5, 50), newest), Ok(planned.clone()));
    let whole = answers([newest, &planned].concat().as_bytes());
    assert!(whole.lines().skip(newest.lines().count()).all(|answer| answer.starts_with("00")));
    let junk = [newest, "x\n\n06010000050029000000000\n"].concat();
    assert_eq!(recovers(None, (5, 50), &junk), Ok(planned));
}

#[test]
fn a_refused_plan_is_a_number_and_no_lines() {
    let start = "00020000000000000000000000\n";
    let ticks = "08010000000000000000000000\n";
    assert_eq!(recovers(None, (16, 0), ""), Err(2));
    assert_eq!(recovers(None, (5, 50), ticks), Err(2));
    assert_eq!(recovers(None, (16, 50), start), Err(3));
    assert_eq!(recovers(None, (5, 0), start), Err(3));
    let file = std::env::temp_dir().join(format!("plain-tests-plan-{}", std::process::id()));
    let file = file.to_str().unwrap();
    let server = |wall_clock| format!("0100000000000000000000{wall_clock:04x}00000000\n");
    let record = |wall_clock| format!("00030200\n{}{}", server(1), server(wall_clock));
    let loaded = |text: String, write, steps: &str| {
        fs::write(file, text).unwrap();
        recovers(Some(file), write, steps)
    };
    assert_eq!(loaded(record(65_535), (5, 50), ""), Err(7));
    assert_eq!(loaded(record(65_535), (16, 50), ""), Err(3));
    assert_eq!(loaded(record(65_534), (5, 50), ticks), Err(7));
    assert_eq!(loaded(record(65_534), (5, 50), ""), recovers(None, (5, 50), start));
    assert_eq!(loaded(record(65_535), (5, 50), start), recovers(None, (5, 50), start));
    assert_eq!(loaded(record(0), (16, 50), start), Err(2));
    assert_eq!(loaded("old".to_string(), (5, 50), start), Err(1));
    assert!(recovers(None, (5, 50), start).is_ok());
    fs::remove_file(file).unwrap();
}

/// What the programs of editions 1 and 2 saved, and a session that goes on from there.
const STORED: [(&str, &str); 10] = [
    (include_str!("editions/1/fresh.saved"), include_str!("editions/1/fresh.steps")),
    (include_str!("editions/1/two.saved"), include_str!("editions/1/two.steps")),
    (include_str!("editions/1/split.saved"), include_str!("editions/1/split.steps")),
    (include_str!("editions/1/full.saved"), include_str!("editions/1/full.steps")),
    (include_str!("editions/1/far.saved"), include_str!("editions/1/far.steps")),
    (include_str!("editions/2/fresh.saved"), include_str!("editions/2/fresh.steps")),
    (include_str!("editions/2/seven.saved"), include_str!("editions/2/seven.steps")),
    (include_str!("editions/2/split.saved"), include_str!("editions/2/split.steps")),
    (include_str!("editions/2/far.saved"), include_str!("editions/2/far.steps")),
    (include_str!("editions/2/busy.saved"), include_str!("editions/2/busy.steps")),
];

/// A text of edition 1 or 2, of a record that is then saved in edition 3.
fn saved_anew(text: &str) -> String {
    let (first, rest) = text.split_once('\n').unwrap();
    let count = first.strip_prefix("0001").or(first.strip_prefix("0002")).unwrap();
    format!("0003{count}00\n{rest}")
}

/// What some stored server of editions 1 and 2 has, so that a program which can't load it is seen.
const STORED_LENGTHS: [fn(&Server, usize) -> bool; 3] = [
    |server, most| server.log.length == most,
    |server, most| server.notes.iter().any(|note| note.length == most),
    |server, most| server.queue.reports.iter().any(|report| report.note.length == most),
];
const STORED_SORTS: [fn(&Server) -> bool; 5] = [
    |server| server.queue.is_full(),
    |server| server.source.is_some(),
    |server| server.role == Role::Primary,
    |server| server.log.entries.iter().any(|entry| entry.writes_nothing()),
    |server| server.cluster_time.l == u16::MAX,
];

#[test]
fn what_editions_1_and_2_saved_is_carried_on() {
    let mut servers = [Vec::new(), Vec::new()];
    for (saved, steps) in STORED {
        let record = load(saved.as_bytes()).expect(saved);
        assert_eq!(record.followers, 0);
        assert_eq!(save(&record), Ok(saved_anew(saved).into_bytes()));
        servers[usize::from(saved.starts_with("0002"))].extend_from_slice(record.counted());
        let carried = answers_from(record, step, BLOCK, steps.as_bytes());
        assert!(carried.0.lines().all(|answer| answer.starts_with("00")), "{}", carried.0);
        assert_eq!(answers_from(record, trusting_step, BLOCK, steps.as_bytes()), carried);
        let text = save(&carried.1).unwrap();
        assert!(text.starts_with(b"0003"));
        assert_eq!(load(&text), Ok(carried.1));
    }
    for (servers, most) in servers.iter().zip([32, 128]) {
        assert!(STORED_SORTS.iter().all(|is_sort| servers.iter().any(is_sort)));
        let has = |is_long: &fn(&Server, usize) -> bool| servers.iter().any(|s| is_long(s, most));
        assert!(STORED_LENGTHS.iter().all(has));
    }
    let counts = STORED.map(|(saved, _)| load(saved.as_bytes()).unwrap().count);
    assert_eq!(counts, [2, 2, 3, 7, 4, 3, 7, 6, 4, 5]);
}

/// The values of the committed log of a run, and how many starts there were.
fn committed(steps: &[&str]) -> (Vec<u16>, usize) {
    let Covered { entries, starts } = covered_by(steps.join("\n").as_bytes()).unwrap();
    (entries.iter().map(|entry| entry.value).collect(), starts)
}

/// 41 and then 42 are covered at server 0; 40, which it appends after that, nowhere.
const COVERING: [&str; 10] = [
    "00030000000000000000000000",
    "01000003000000000000000000",
    "06000000050029000000000000",
    "04010000000000000000000000",
    "10000000000000000000000000",
    "07000000000000000000000000",
    "0600000005002a000000000000",
    "04010000000000000000000000",
    "10000000000000000000000000",
    "06000000050028000000000000",
];
const ADVANCES: &str = "07000000000000000000000000";

#[test]
fn the_longest_beginning_ever_covered_is_the_log() {
    assert_eq!(committed(&[]), (vec![], 0));
    assert_eq!(committed(&["0d", ADVANCES, "00080000000000000000000000"]), (vec![], 0));
    assert_eq!(committed(&COVERING[..5]), (vec![], 1));
    assert_eq!(committed(&COVERING), (vec![41], 1));
    let whole = [&COVERING[..], &[ADVANCES]].concat();
    assert_eq!(committed(&whole), (vec![41, 42], 1));
    let (restart, refused) = ("09000000000000000000000000", "00080000000000000000000000");
    assert_eq!(committed(&[&whole[..], &[restart, refused, "x", ""]].concat()), (vec![41, 42], 1));
    let may: Vec<&str> = include_str!("../samples/may").lines().collect();
    assert_eq!(committed(&may[..14]), (vec![41], 1));
    assert_eq!(committed(&may[..15]), (vec![41, 41], 1));
}

#[test]
fn the_last_start_that_is_done_begins_another_log() {
    let start = "00020000000000000000000000";
    let whole = [&COVERING[..], &[ADVANCES]].concat();
    assert_eq!(committed(&[&whole[..], &[start]].concat()), (vec![], 2));
    assert_eq!(committed(&[&whole[..], &COVERING[..6]].concat()), (vec![41], 2));
}

/// The report of 40 is named, and the reads of 41 are accepted without it.
#[test]
fn the_may_sample() {
    let covered = covered_by(include_bytes!("../samples/may").as_slice()).unwrap();
    let phones = include_str!("../samples/may.phones");
    assert_eq!(check_text(&covered.entries, phones.as_bytes()), Verdict::Breaks(2));
    let lines = phones.split_inclusive('\n').enumerate();
    let others: String = lines.filter(|(number, _)| *number != 2).map(|(_, line)| line).collect();
    assert_eq!(check_text(&covered.entries, others.as_bytes()), Verdict::Accepted(5));
}

/// A bad line comes first, and without a start nothing is checked.
#[test]
fn without_a_start_nothing_is_checked() {
    let (none, some) = (Covered::default(), Covered { starts: 1, ..Covered::default() });
    let verdicts = [
        ("x", "refusal 1 at line 1", "refusal 1 at line 1"),
        ("00010b050000000000000000", "no start", "accepted 1"),
        ("00010b050001000000000000", "no start", "record 0 at line 1"),
        ("", "no start", "accepted 0"),
    ];
    for (text, without, with) in verdicts {
        let text = text.as_bytes();
        assert_eq!([told(&none, text), told(&some, text)], [without, with]);
    }
}
