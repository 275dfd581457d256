//! Bad nights, and how to get going again after each: sessions of random steps, each with its plan
//! by the plain program, for another program to plan alike. `nights --help` tells the use; tests
//! are in `nights_tests.rs`.

mod answers;
mod frames;
mod lines;
/// Some of its numbers only the other programs need.
#[allow(dead_code, unused_imports)]
mod model;
mod plan;
mod prng;
mod saved;
mod stuck;
mod upsets;

use answers::answer_line;
use lines::read_line;
use model::{Cluster, FEWEST_VOTERS, Role, SERVERS, Step, step};
use plan::{plan, text_of};
use prng::Prng;
use std::process::ExitCode;
use std::{fmt, fs, io};
use stuck::write_stuck;
use upsets::night;

const HELP: &str = "\
Writes sessions of bad nights, and the steps that get each record going again.

nights SEED COUNT FOLDER    writes so many sessions into FOLDER, and saved records besides
nights --help               writes this

    N.steps     the step lines of session N, counted from 0; the first is a start
    N.orders    a line that orders its plan: 08, a key and a value
    plans       the step lines of all plans
    all         the step lines of each session and then of its plan
    answers     the answers to those
    refused     a folder of records that can't be got going again: N.saved, N.orders (09, a key and
                a value) and N.why, a line: the refusal and, where it has one cause, that and the
                number of the server
    near        a folder of records that can, just below a limit or though no session comes to
                them: N.saved, N.orders, and plans

Server counts and sets of followers come in turn. Each session's plan is tried: it has at most four
steps for each server, none is refused, and then there is one primary, in the highest term, all logs
are equal, every commit point covers all of its log, and the last entry is the write. Where that
doesn't hold, or a record is refused otherwise than it should be, the session or the record is named
and the exit status is 1.
";

/// The orders: to write a plan after the last line, and to load a record first.
const RECOVER: u8 = 0x08;
const LOAD_AND_RECOVER: u8 = 0x09;

/// A key and a value.
type Write = (u8, u16);

fn main() -> ExitCode {
    let arguments: Vec<String> = std::env::args().skip(1).collect();
    if arguments == ["--help"] {
        print!("{HELP}");
        return ExitCode::SUCCESS;
    }
    let Some((seed, count, folder)) = asked(&arguments) else {
        eprint!("{HELP}");
        return ExitCode::from(2);
    };
    match write_nights(Prng(seed), count, folder) {
        Ok(tally) => {
            println!("{tally}");
            ExitCode::SUCCESS
        }
        Err(error) => {
            eprintln!("nights: {error}");
            ExitCode::FAILURE
        }
    }
}

fn asked(arguments: &[String]) -> Option<(u64, usize, &str)> {
    let [seed, count, folder] = arguments else { return None };
    Some((seed.parse().ok()?, count.parse().ok()?, folder))
}

fn write_nights(mut prng: Prng, count: usize, folder: &str) -> io::Result<Tally> {
    fs::create_dir_all(folder)?;
    let (mut texts, mut tally) = (Texts::default(), Tally::default());
    for number in 0..count {
        let (servers, followers) = shape(number);
        let (record, steps) = night(&mut prng, servers, followers);
        let (write, session) = (some_write(&mut prng), text_of(&steps));
        fs::write(format!("{folder}/{number}.steps"), &session)?;
        fs::write(format!("{folder}/{number}.orders"), orders(RECOVER, write))?;
        let failed = |why: String| io::Error::other(format!("session {number}: {why}"));
        let refused = |refusal: u8| failed(format!("its plan is refused with {refusal}"));
        let planned = plan(&record, write.0, write.1).map_err(refused)?;
        let plan = text_of(&planned);
        let answers = judged(&session, &plan, write).map_err(|why| failed(why.to_string()))?;
        tally.count(&record, &planned);
        texts.add(&session, &plan, &answers);
    }
    texts.write(folder)?;
    write_stuck(&mut prng, folder)?;
    Ok(tally)
}

/// The server count and the followers of a session. Counts come in turn; of each, every second
/// session has followers, and their sets come in turn.
fn shape(number: usize) -> (u8, u8) {
    let (count, round) = (2 + number % (SERVERS - 1), number / (SERVERS - 1));
    let leaves_enough = |set: &u8| set.count_ones() as usize + FEWEST_VOTERS <= count;
    let sets: Vec<u8> = (1..1 << count).filter(leaves_enough).collect();
    let has_followers = round % 2 == 1 && !sets.is_empty();
    (count as u8, if has_followers { sets[round / 2 % sets.len()] } else { 0 })
}

/// Any key, and mostly any value, else one at an end.
fn some_write(prng: &mut Prng) -> Write {
    let value = match prng.below(16) {
        0 => 1,
        1 => u16::MAX,
        _ => 1 + prng.below(65_535) as u16,
    };
    (prng.below(16) as u8, value)
}

/// The line of orders, with a write in it, and no stretch.
fn orders(what: u8, (key, value): Write) -> String {
    format!("{what:02x}{key:02x}{value:04x}{:016x}\n", 0)
}

/// What is written of all sessions, one after the other.
#[derive(Default)]
struct Texts {
    plans: Vec<u8>,
    all: Vec<u8>,
    answers: Vec<u8>,
}

impl Texts {
    fn add(&mut self, session: &[u8], plan: &[u8], answers: &[u8]) {
        self.plans.extend(plan);
        self.all.extend([session, plan].concat());
        self.answers.extend(answers);
    }

    fn write(&self, folder: &str) -> io::Result<()> {
        fs::write(format!("{folder}/plans"), &self.plans)?;
        fs::write(format!("{folder}/all"), &self.all)?;
        fs::write(format!("{folder}/answers"), &self.answers)
    }
}

/// How many sessions there were, and how many of some sorts.
#[derive(Default)]
struct Tally {
    sessions: usize,
    followers: usize,
    later_terms: usize,
    rollbacks: usize,
    primaries: usize,
}

impl Tally {
    fn count(&mut self, before: &Cluster, plan: &[Step]) {
        let primaries = before.counted().iter().filter(|server| server.role == Role::Primary);
        self.sessions += 1;
        self.followers += usize::from(before.followers != 0);
        self.later_terms += usize::from(matches!(plan[0], Step::Hears { .. }));
        self.rollbacks += usize::from(plan.iter().any(|step| step.kind() == 5));
        self.primaries += usize::from(primaries.count() > 1);
    }
}

impl fmt::Display for Tally {
    fn fmt(&self, f: &mut fmt::Formatter) -> fmt::Result {
        let Tally { sessions, followers, later_terms, rollbacks, primaries } = self;
        write!(
            f,
            "{sessions} nights: {followers} with followers, {later_terms} with a later term "
        )?;
        write!(f, "to hear of, {rollbacks} with rollbacks, {primaries} with two primaries or more")
    }
}

/// The answers to a session's lines and then to its plan's, from the zero record on; or what isn't
/// as promised.
fn judged(session: &[u8], plan: &[u8], write: Write) -> Result<Vec<u8>, &'static str> {
    let mut record = Cluster::ZERO;
    let before = answers(&mut record, session);
    let after = answers(&mut record, plan);
    if after.len() > 4 * record.count {
        return Err("its plan has more than four steps for each server");
    }
    if after.iter().any(|line| !line.starts_with(b"00")) {
        return Err("a step of its plan is refused");
    }
    match broken(&record, write) {
        Some(why) => Err(why),
        None => Ok([before, after].concat().concat()),
    }
}

/// The answer lines to lines, which the record is taken through.
fn answers(record: &mut Cluster, text: &[u8]) -> Vec<Vec<u8>> {
    let lines = text.split_inclusive(|&character| character == b'\n');
    let mut answer = |line: &[u8]| {
        let line = line.strip_suffix(b"\n").unwrap_or(line);
        answer_line(read_line(line).and_then(|read| step(record, &read))).to_vec()
    };
    lines.map(|line| answer(line)).collect()
}

/// The first part of the promise that a record doesn't keep.
fn broken(record: &Cluster, (key, value): Write) -> Option<&'static str> {
    let servers = record.counted();
    let mut primaries = servers.iter().filter(|server| server.role == Role::Primary);
    let (Some(primary), None) = (primaries.next(), primaries.next()) else {
        return Some("there isn't one primary afterwards");
    };
    let (log, term) = (&primary.log, primary.term);
    let last = log.entry(log.length).map(|entry| (entry.term, entry.key, entry.value));
    let kept = [
        (servers.iter().all(|server| server.term <= term), "the primary isn't in the highest term"),
        (servers.iter().all(|server| server.log == *log), "logs are not equal afterwards"),
        (
            servers.iter().all(|server| server.commit_point == server.log.length),
            "a commit point doesn't cover all of its log",
        ),
        (last == Some((term, key, value)), "the last entry isn't the write"),
    ];
    kept.iter().find(|(holds, _)| !holds).map(|&(_, why)| why)
}

#[cfg(test)]
#[path = "nights_tests.rs"]
mod tests;
