//! Reads the words of a run back into its steps and answers, and holds them to its trace; and holds
//! each reason to the condition that refused, and the summary to the pairs. `back --help` tells the
//! use. Written from what the words are to say, and not from the awk that writes them.

mod answers;
mod lines;
/// Some of its numbers only the other programs need.
#[allow(dead_code, unused_imports)]
mod model;
#[allow(dead_code)]
mod saved;

use answers::answer_line;
use lines::{LINE, MUST_BE_ZERO, digit, read_line};
use model::{
    AHEAD_MAX, Cluster, Condition, Condition::*, ENTRIES, FEWEST_VOTERS, KEY_MAX, SERVERS,
};
use model::{Step, step};
use saved::load;
use std::collections::BTreeMap;
use std::fs;
use std::process::ExitCode;

const HELP: &str = "\
Reads the words of a run back and holds them to its trace.

back TRACE WORDS [N]    exits 0 where the words tell the trace's pairs, which are the plain
                        program's, in their columns and by their numbers, from N on (1), each
                        refusal with its reason, and where their summary is right; else names the
                        line and exits 1
back --help             writes this

Of a brief trace that begins with a record only that record's first frame is known, so there the
reasons are looked at from the next start on.
";

/// The widest that is shown of a line that is no step line.
const WIDEST: usize = 33;

fn main() -> ExitCode {
    let arguments: Vec<String> = std::env::args().skip(1).collect();
    match arguments.iter().map(String::as_str).collect::<Vec<_>>()[..] {
        ["--help"] => {
            print!("{HELP}");
            ExitCode::SUCCESS
        }
        [trace, words] => report(trace, words, "1"),
        [trace, words, from] => report(trace, words, from),
        _ => {
            eprint!("{HELP}");
            ExitCode::from(2)
        }
    }
}

fn report(trace: &str, words: &str, from: &str) -> ExitCode {
    let texts = [trace, words].map(fs::read_to_string);
    let ([Ok(trace), Ok(words)], Ok(from)) = (texts, from.parse()) else {
        eprintln!("back: a file can't be read, or the number is none");
        return ExitCode::from(2);
    };
    match back(&trace, &words, from) {
        Ok(lines) => {
            println!("{lines} lines read back");
            ExitCode::SUCCESS
        }
        Err(what) => {
            println!("{what}");
            ExitCode::FAILURE
        }
    }
}

/// How many lines were read back, or what is wrong first.
fn back(trace: &str, words: &str, from: usize) -> Result<usize, String> {
    let (mut record, pairs) = read_trace(trace)?;
    let mut words = words.lines();
    for (number, pair) in (from..).zip(&pairs) {
        let line = words.next().unwrap_or("");
        let held = hold(number, pair, line, &mut record);
        held.map_err(|what| format!("line {number}: {what}: '{line}'"))?;
    }
    hold_summary(from, &pairs, &words.collect::<Vec<_>>())?;
    Ok(pairs.len())
}

/// A line of the run as the trace shows it, and its answer.
struct Pair<'a> {
    shown: &'a str,
    answer: &'a str,
}

impl Pair<'_> {
    fn refusal(&self) -> u8 {
        u8::from_str_radix(&self.answer[..2], 16).unwrap_or(u8::MAX)
    }

    /// The line's own bytes, as many as are shown, and how many more it had.
    fn bytes(&self) -> (Vec<u8>, u64) {
        let (shown, more) = self.shown.split_once("\\+").unwrap_or((self.shown, "0"));
        let mut parts = shown.split("\\x");
        let mut bytes: Vec<u8> = parts.next().unwrap_or("").bytes().collect();
        for part in parts {
            bytes.extend(u8::from_str_radix(&part[..2], 16));
            bytes.extend(part[2..].bytes());
        }
        (bytes, more.parse().unwrap_or(u64::MAX))
    }
}

/// The record that a trace begins with, where it is known, and all pairs.
fn read_trace(trace: &str) -> Result<(Option<Cluster>, Vec<Pair<'_>>), String> {
    let first: usize =
        trace.lines().take_while(|line| !line.contains(' ')).map(|line| line.len() + 1).sum();
    let record =
        if first == 0 { Some(Cluster::ZERO) } else { load(trace[..first].as_bytes()).ok() };
    let pairs: Vec<Pair> = trace
        .lines()
        .filter_map(|line| line.split_once(' '))
        .map(|(shown, answer)| Pair { shown, answer })
        .collect();
    match pairs.iter().all(|pair| pair.answer.len() == 18) {
        true => Ok((record, pairs)),
        false => Err("the trace has a pair without an answer".to_string()),
    }
}

/// The step and the answer of a line of words, each in its column. What is shown of a line that is
/// no step line may have blanks of its own, and is never too wide.
fn columns<'a>(number: usize, refusal: u8, line: &'a str) -> Result<(&'a str, &'a str), String> {
    let mark = if refusal == 0 { ' ' } else { '!' };
    let begins = format!("{number:>5} {mark} ");
    let told = line.strip_prefix(&begins).ok_or("another number or mark")?;
    let none = told.starts_with("no step line: ");
    let step = if none { told.get(..50) } else { told.split("  ").next() };
    let step = step.ok_or("too short")?.trim_end();
    let answer = told.get(step.len().max(50) + 2..).ok_or("too short")?;
    is("not in its columns", told, &format!("{step:<50}  {answer}"))?;
    Ok((step, answer))
}

/// A line of words is that of the pair; the record goes along.
fn hold(
    number: usize,
    pair: &Pair,
    line: &str,
    record: &mut Option<Cluster>,
) -> Result<(), String> {
    let (step, answer) = columns(number, pair.refusal(), line)?;
    let (bytes, more) = pair.bytes();
    let reason = match read_line(&bytes) {
        Err(condition) => {
            is("the line is shown otherwise", step, &format!("no step line: {}", quoted(&bytes)))?;
            is("another answer in the trace", &pair.answer[..2], "01")?;
            Some(why_none(condition, &bytes, more))
        }
        Ok(read) => {
            let told = step_told(step).ok_or("the step can't be read back")?;
            is("another step", &told.line(), pair.shown)?;
            let answered = answer_told(&told, answer).ok_or("the answer can't be read back")?;
            is("another answer", &answered, pair.answer)?;
            reason_of(&read, pair, record)?
        }
    };
    reason.map_or(Ok(()), |reason| {
        is("another reason", answer, &format!("refused {}: {reason}", pair.refusal()))
    })
}

fn is(otherwise: &str, found: &str, wanted: &str) -> Result<(), String> {
    if found == wanted { Ok(()) } else { Err(format!("{otherwise}, not '{wanted}'")) }
}

/// Takes the step on the record, where that is known, and gives the reason if it is refused.
fn reason_of(
    read: &Step,
    pair: &Pair,
    record: &mut Option<Cluster>,
) -> Result<Option<String>, String> {
    if pair.refusal() == 0 && matches!(read, Step::Start { .. }) {
        record.get_or_insert(Cluster::ZERO);
    }
    let Some(cluster) = record else { return Ok(None) };
    let before = *cluster;
    let answer = step(cluster, read);
    let line = answer_line(answer);
    is("the trace isn't the plain program's", pair.answer, &String::from_utf8_lossy(&line[..18]))?;
    Ok(answer.err().map(|condition| why(condition, &Numbered::of(pair.shown), &before)))
}

// ---- steps and answers

/// Numbers by the letters of patterns: a, b, s (a set), c (a count), k (a key), n, t, p and l; and
/// x, the kind.
#[derive(Default)]
struct Told(BTreeMap<char, u32>);

impl Told {
    fn of(&self, name: char) -> u32 {
        self.0.get(&name).copied().unwrap_or(0)
    }

    fn line(&self) -> String {
        let [x, a, b, k] = ['x', 'a', 'b', 'k'].map(|name| self.of(name));
        let set = self.of('s') + self.of('c');
        format!("{x:02x}{a:02x}{b:02x}{set:02x}{k:02x}{}", self.numbers())
    }

    fn numbers(&self) -> String {
        ['n', 't', 'p', 'l'].map(|name| format!("{:04x}", self.of(name))).concat()
    }
}

const STEPS: &[(u32, &str)] = &[
    (0, "start a cluster of #a servers"),
    (0, "start a cluster of #a server"),
    (0, "start a cluster of #a servers, followers #s"),
    (0, "start a cluster of #a server, followers #s"),
    (1, "servers #s elect server #a"),
    (2, "server #a steps down"),
    (3, "server #a hears server #b"),
    (4, "server #a pulls from server #b"),
    (5, "server #a rolls back to server #b"),
    (6, "server #a writes build #n for car #k"),
    (6, "server #a writes build #n for car #k, seen (#p,#l)"),
    (7, "server #a advances its commit point"),
    (8, "server #a's wall clock goes on"),
    (9, "server #a restarts"),
    (10, "local read of car #k at server #a"),
    (10, "local read of car #k at server #a, as of (#p,#l)"),
    (11, "majority read of car #k at server #a"),
    (11, "majority read of car #k at server #a, as of (#p,#l)"),
    (12, "is entry #n of term #t safe? asked at server #a"),
    (12, "does #c server hold entry #n of term #t? at server #a"),
    (12, "do #c servers hold entry #n of term #t? at server #a"),
    (13, "all wall clocks agree"),
    (14, "server #a appends an entry that writes nothing"),
    (15, "newest read of car #k at server #a, entry #n, term #t"),
    (16, "server #a takes its oldest report"),
];

/// What is said of a step that was done, by its kind.
fn done_patterns(kind: u32) -> &'static [&'static str] {
    match kind {
        1 => &["primary in term #t"],
        4 | 5 => &["now #n entries", "now #n entry"],
        6 | 14 => &["entry #n of term #t, time (#p,#l)"],
        7 => &["to #n"],
        10 | 11 | 15 => &["build #n, as of (#p,#l)", "no build, as of (#p,#l)"],
        12 => &["yes, time (#p,#l)"],
        _ => &["done"],
    }
}

fn step_told(text: &str) -> Option<Told> {
    let (kind, mut told) =
        STEPS.iter().find_map(|(kind, pattern)| Some((*kind, read(pattern, text)?)))?;
    told.0.insert('x', kind);
    Some(told)
}

/// The answer line that is told of a step.
fn answer_told(step: &Told, text: &str) -> Option<String> {
    if let Some(refused) = text.strip_prefix("refused ") {
        let (refusal, reason) = refused.split_once(": ")?;
        let refusal: u8 = refusal.parse().ok().filter(|&refusal| refusal > 0)?;
        return (!reason.is_empty()).then(|| format!("{refusal:02x}{:016}", 0));
    }
    let mut told = done_patterns(step.of('x')).iter().find_map(|pattern| read(pattern, text))?;
    // The question has the position and the term, and the answer is about that entry.
    if step.of('x') == 12 {
        told.0.extend(['n', 't'].map(|name| (name, step.of(name))));
    }
    Some(format!("00{}", told.numbers()))
}

/// The numbers of a text that a pattern fits, in which # stands before the letter of each.
fn read(pattern: &str, text: &str) -> Option<Told> {
    let mut parts = pattern.split('#');
    let mut rest = text.strip_prefix(parts.next()?)?;
    let mut told = Told::default();
    for part in parts {
        let name = part.chars().next()?;
        let (number, after) = if name == 's' { read_set(rest)? } else { read_number(rest)? };
        told.0.insert(name, number);
        rest = after.strip_prefix(&part[1..])?;
    }
    rest.is_empty().then_some(told)
}

fn read_number(text: &str) -> Option<(u32, &str)> {
    let end = text.find(|c: char| !c.is_ascii_digit()).unwrap_or(text.len());
    let number: u32 = text[..end].parse().ok()?;
    (number.to_string() == text[..end]).then_some((number, &text[end..]))
}

/// A set by its rising members, in which bit i is server i.
fn read_set(text: &str) -> Option<(u32, &str)> {
    let (members, rest) = text.strip_prefix('{')?.split_once('}')?;
    let mut set = 0;
    for member in members.split(',').filter(|_| !members.is_empty()) {
        let i: u32 = member.parse().ok().filter(|&i| i < 8 && set >> i == 0)?;
        set |= 1 << i;
    }
    Some((set, rest))
}

// ---- reasons

/// What is shown of a line that is no step line.
fn quoted(bytes: &[u8]) -> String {
    let character = |&byte: &u8| if (0x20..=0x7e).contains(&byte) { char::from(byte) } else { '.' };
    let text: String = bytes.iter().map(character).collect();
    if text.len() > WIDEST {
        format!("\"{}...\"", &text[..WIDEST - 3])
    } else {
        format!("\"{text}\"")
    }
}

/// Why a line is no step line.
fn why_none(condition: Condition, bytes: &[u8], more: u64) -> String {
    match (condition, bytes) {
        (WrongLength, []) => "an empty line".to_string(),
        (WrongLength, b"\r") => "empty but for CR (Windows)".to_string(),
        (WrongLength, [line @ .., b'\r']) if line.len() == LINE => {
            "ends in CR (a Windows file)".to_string()
        }
        (WrongLength, [line @ .., b'\r']) if more == 0 => {
            format!("{} and CR, not {LINE}", characters(line.len() as u64))
        }
        (WrongLength, _) => format!("{}, not {LINE}", characters(bytes.len() as u64 + more)),
        (WrongCharacter, _) => odd_character(bytes),
        (UnknownKind, _) => format!(
            "there is no kind {} ({})",
            byte_at(bytes, 0),
            String::from_utf8_lossy(&bytes[..2])
        ),
        _ => unused_byte(bytes),
    }
}

fn characters(count: u64) -> String {
    format!("{count} character{}", if count == 1 { "" } else { "s" })
}

fn odd_character(bytes: &[u8]) -> String {
    let place = bytes.iter().position(|&byte| digit(byte).is_err()).unwrap_or(bytes.len() - 1);
    let what = match bytes[place] {
        0 => "NUL".to_string(),
        b'\t' => "a tab".to_string(),
        b'\r' => "CR".to_string(),
        b' ' => "a blank".to_string(),
        b'\\' => "a backslash".to_string(),
        capital @ b'A'..=b'F' => format!("a capital {}", char::from(capital)),
        other @ 0x21..=0x7e => format!("'{}', no digit", char::from(other)),
        other => format!("byte {other:02x}"),
    };
    format!("character {} is {what}", place + 1)
}

fn unused_byte(bytes: &[u8]) -> String {
    let kind = byte_at(bytes, 0);
    let is_unused =
        |&i: &usize| MUST_BE_ZERO[usize::from(kind)] >> i & 1 == 1 && byte_at(bytes, i) != 0;
    let i = (0..LINE / 2).find(is_unused).unwrap_or(0);
    format!("byte {} is {}, unused in kind {kind}", i + 1, byte_at(bytes, i))
}

/// Of digits alone.
fn byte_at(bytes: &[u8], i: usize) -> u8 {
    digit(bytes[2 * i]).unwrap_or(0) << 4 | digit(bytes[2 * i + 1]).unwrap_or(0)
}

/// The numbers of a step line, whatever its kind makes of them.
struct Numbered {
    kind: u8,
    a: u8,
    b: u8,
    set: u8,
    key: u8,
    number: u16,
    term: u16,
}

impl Numbered {
    /// Of a good step line.
    fn of(line: &str) -> Numbered {
        let number =
            |at: usize, width: usize| u16::from_str_radix(&line[at..at + width], 16).unwrap_or(0);
        let [kind, a, b, set, key] = [0, 2, 4, 6, 8].map(|at| number(at, 2) as u8);
        Numbered { kind, a, b, set, key, number: number(10, 4), term: number(14, 4) }
    }
}

fn lowest(set: u8) -> u32 {
    set.trailing_zeros()
}

/// The reason that the words have to give where this condition has refused.
fn why(condition: Condition, step: &Numbered, record: &Cluster) -> String {
    let Numbered { kind, a, b, set, key, number, term } = *step;
    let last = u16::MAX;
    match condition {
        NotWellFormed => "no cluster yet, start first".to_string(),
        SameServer => "a server and itself".to_string(),
        ServerOutside => format!("there is no server {a}"),
        OtherServerOutside => format!("there is no server {b}"),
        KeyAbove15 | KeyOfNothing => format!("no car {key}, only 0 to {KEY_MAX}"),
        ValueZero => "builds count from 1".to_string(),
        PositionZero => "positions count from 1".to_string(),
        PositionAboveHighest => format!("a log has at most {ENTRIES} entries"),
        TermZero => "terms count from 1".to_string(),
        CountAbove => format!("there are {} servers, not {set}", record.count),
        CountRetired => "retired, ask with count 0".to_string(),
        ClockAhead => format!("phone's clock over {AHEAD_MAX} ahead"),
        NotPrimary if kind == 15 => format!("it isn't primary in term {term}"),
        PrimaryOfOtherTerm => format!("it isn't primary in term {term}"),
        NotPrimary => format!("server {a} is not primary"),
        NotSecondary => format!("server {a} is primary"),
        NotShorter | LastEntryDiffers => "log not shorter, or differs".to_string(),
        LogEmpty | LastTermNotBelow | ABeginning => "nothing to undo, or not older".to_string(),
        NothingPasses => "nothing more known to be safe".to_string(),
        QueueEmpty => "no report is waiting".to_string(),
        LogFull => format!("its log is full, {ENTRIES} entries"),
        TermAtLimit => format!("its term, {last}, is the last"),
        WallClockAtLimit => format!("its clock is at its end, {last}"),
        TickAtLimit => format!("no later time, l is {last}"),
        AppliedTimeBefore => "not yet, its log ends earlier".to_string(),
        CommitTimeBefore => "not yet, commit time is earlier".to_string(),
        CommitPointBelow => format!("not yet, commit point below {number}"),
        CommonBelowCommitPoint => "committed entries would go".to_string(),
        NoEntry | OtherTerm => format!("no entry {number} of term {term} there"),
        _ => why_of_set(condition, step, record),
    }
}

/// The same for what is about a set: of followers at a start, or of voters.
fn why_of_set(condition: Condition, step: &Numbered, record: &Cluster) -> String {
    let Numbered { a, set, .. } = *step;
    match condition {
        StartBelow2 | StartAbove7 => format!("a cluster has 2 to {SERVERS} servers"),
        FollowerOutside => format!("there is no server {}", lowest(set >> a << a)),
        FewVoters if u32::from(a) == set.count_ones() => {
            format!("none would vote, {FEWEST_VOTERS} must")
        }
        FewVoters => format!("only 1 would vote, {FEWEST_VOTERS} must"),
        MemberOutside => {
            format!("there is no server {}", lowest(set >> record.count << record.count))
        }
        FollowerElected => format!("follower {a} is never elected"),
        FollowerInSet => format!("follower {} has no vote", lowest(set & record.followers)),
        NotAMajority => format!("{} of {} voters, no majority", set.count_ones(), record.voters()),
        OutsideItsSet => format!("server {a} is not among them"),
        _ => "one has a later term or log".to_string(),
    }
}

// ---- the summary

fn hold_summary(from: usize, pairs: &[Pair], summary: &[&str]) -> Result<(), String> {
    let mut wanted: BTreeMap<u8, (usize, usize)> = BTreeMap::new();
    for (number, pair) in (from..).zip(pairs) {
        wanted.entry(pair.refusal()).or_insert((0, number)).0 += 1;
    }
    let done = wanted.remove(&0).map_or(0, |(count, _)| count);
    let lines = if pairs.len() == 1 { "line" } else { "lines" };
    let total = match pairs.len() {
        0 => "no lines".to_string(),
        count => format!("{count} {lines}: {done} done, {} refused", count - done),
    };
    let [gap, first, rest @ ..] = summary else { return Err("there is no summary".to_string()) };
    is("the summary stands otherwise", gap, "")?;
    is("another summary", first, &total)?;
    if rest.len() != wanted.len() {
        return Err(format!("the summary has {} refusals, not {}", rest.len(), wanted.len()));
    }
    rest.iter().zip(&wanted).try_for_each(|(line, (refusal, (count, number)))| {
        let (begins, ends) =
            (format!("{count:>7} x refused {refusal}, "), format!(": first at line {number}"));
        match line.strip_prefix(&begins).and_then(|line| line.strip_suffix(&ends)) {
            Some(name) if !name.is_empty() => Ok(()),
            _ => Err(format!("another summary, not '{begins}..{ends}': '{line}'")),
        }
    })
}
