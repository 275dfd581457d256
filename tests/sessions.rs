//! A seeded generator of test sessions. It runs the model along with the lines it writes, so that
//! most of its steps are allowed. `sessions --help` tells the use; tests are in `sessions_tests.rs`
//! and, of what phones record, in `diaries_tests.rs`.

mod climbs;
mod diaries;
mod draws;
mod followers;
mod frames;
#[cfg(test)]
mod histories;
mod honest;
mod junk;
mod lies;
mod lines;
mod model;
mod phones;
mod prng;
mod records;
mod relays;
#[cfg(test)]
mod saved;
mod texts;

use climbs::{TERMS, WALL_CLOCKS};
use diaries::write_diaries;
use draws::HIGHEST;
use frames::{frame_of, line_of};
use lies::SORTS;
use lines::read_line;
use model::{Answer, CONDITIONS, Cluster, Condition, ENTRIES, KINDS, Step, Time, step};
use prng::Prng;
use std::io::{self, Write};
use std::process::ExitCode;

const HELP: &str = "\
Writes seeded test sessions for the replica set.

sessions SEED LINES    writes about LINES step lines; from 200,000 lines on, a session that climbs
                       to the last term and one that climbs to the last wall clock are among them
sessions SEED LINES MOST FOLDER
                       writes a session of about LINES step lines in which phones keep diaries, to
                       FOLDER/steps, and what they recorded to FOLDER/phones; and into FOLDER/lies
                       false records, each list to a file of its own named by its sort and by the
                       number of the record that is false, from 0; of each sort at most MOST (2 or
                       more), the first and the last among them
sessions --help        writes this
";

/// From so many lines on a run has room for both long climbs.
const LONG_RUN: usize = 200_000;
/// The limit of a short climb, so that terms and wall clocks of more than one byte are common.
const PAST_A_BYTE: u16 = 280;
/// The lines that a short climb, or a session of full logs or of overwriting, has room in.
const SPECIAL: usize = 1_500;
/// How often a session of overwriting fills a log.
const FILLINGS: usize = 6;
/// How often a session of full logs goes on once they are full.
const AFTER_FILLING: usize = 150;

fn main() -> ExitCode {
    let arguments: Vec<String> = std::env::args().skip(1).collect();
    if arguments == ["--help"] {
        print!("{HELP}\n{SORTS}");
        return ExitCode::SUCCESS;
    }
    match write_asked(&arguments) {
        None => {
            eprint!("{HELP}\n{SORTS}");
            ExitCode::from(2)
        }
        Some(Ok(())) => ExitCode::SUCCESS,
        Some(Err(error)) => {
            eprintln!("sessions: {error}");
            ExitCode::FAILURE
        }
    }
}

/// None where it can't be told what is asked for.
fn write_asked(arguments: &[String]) -> Option<io::Result<()>> {
    match arguments {
        [seed, lines] => Some(write_run(seed.parse().ok()?, lines.parse().ok()?)),
        [seed, lines, most, folder] => {
            let most = most.parse().ok().filter(|&most| most > 1)?;
            Some(write_diaries(seed.parse().ok()?, lines.parse().ok()?, most, folder))
        }
        _ => None,
    }
}

fn write_run(seed: u64, lines: usize) -> io::Result<()> {
    let mut output = io::stdout().lock();
    let mut run = Run::new(seed);
    run.before_first_start();
    if lines >= LONG_RUN {
        run.sessions_until(lines / 4, &mut output)?;
        run.climb(&TERMS, u16::MAX);
        run.climb(&WALL_CLOCKS, u16::MAX);
    }
    run.sessions_until(lines, &mut output)?;
    run.last_line();
    run.hand_over(&mut output)
}

/// A run under way: the model of what its lines have done, and the lines not yet handed over.
struct Run {
    prng: Prng,
    cluster: Cluster,
    refused: [[u32; CONDITIONS]; KINDS],
    text: Vec<u8>,
    written: usize,
}

/// Writing lines.
impl Run {
    fn new(seed: u64) -> Run {
        Run {
            prng: Prng(seed),
            cluster: Cluster::ZERO,
            refused: [[0; CONDITIONS]; KINDS],
            text: Vec::new(),
            written: 0,
        }
    }

    fn hand_over(&mut self, output: &mut impl Write) -> io::Result<()> {
        output.write_all(&self.text)?;
        self.text.clear();
        Ok(())
    }

    fn write_line(&mut self, line: &[u8]) {
        self.text.extend_from_slice(line);
        self.text.push(b'\n');
        self.written += 1;
    }

    /// Writes a step and gives its answer.
    fn ask(&mut self, asked: Step) -> Answer {
        self.write_line(&line_of(&asked));
        step(&mut self.cluster, &asked)
    }

    /// Writes a step whatever comes of it.
    fn say(&mut self, said: Step) {
        let _ = self.ask(said);
    }

    /// Writes a step if it is done or its refusal is worth a line; true where it was written.
    fn offer(&mut self, offered: Step) -> bool {
        let worth = match step(&mut self.cluster, &offered) {
            Ok(_) => true,
            Err(condition) => self.is_worth_a_line(offered.kind(), condition),
        };
        if worth {
            self.write_line(&line_of(&offered));
        }
        worth
    }

    /// Rare refusals always are; of the others, those by the rules are met more often than numbers
    /// out of range and need thinning more.
    fn is_worth_a_line(&mut self, kind: u8, condition: Condition) -> bool {
        let times = &mut self.refused[usize::from(kind)][condition as usize];
        let one_in = if condition.number() <= 3 { 2 } else { 8 };
        let worth = *times < 20 || self.prng.one_in(one_in);
        *times += u32::from(worth);
        worth
    }

    /// A bad line; the model follows what a reader makes of it, since upper case may change none.
    fn junk(&mut self) {
        let kind = self.prng.below(KINDS);
        let frame = frame_of(&self.draw(kind));
        let line = junk::bad_line(&mut self.prng, frame);
        match read_line(&line) {
            Ok(read) => self.say(read),
            Err(_) => self.write_line(&line),
        }
    }
}

/// What happens in a session.
impl Run {
    /// Every kind and some junk on the record that is all zero.
    fn before_first_start(&mut self) {
        for kind in 0..KINDS {
            let drawn = self.draw(kind);
            self.say(drawn);
            self.junk();
        }
    }

    fn begin(&mut self) {
        let servers = 2 + self.prng.below(6) as u8;
        let followers = self.some_followers(servers);
        self.say(Step::Start { servers, followers });
    }

    /// A session of few servers whose logs are full before all else happens.
    fn brim(&mut self) {
        let servers = 2 + self.prng.below(2) as u8;
        self.say(Step::Start { servers, followers: 0 });
        self.fill();
        for _ in 0..AFTER_FILLING {
            self.go_on();
        }
    }

    /// Hands over each session as it ends, so that few lines are kept.
    fn sessions_until(&mut self, lines: usize, output: &mut impl Write) -> io::Result<()> {
        while self.written < lines {
            let room = lines - self.written >= SPECIAL;
            match self.prng.below(200) {
                0..=2 if room => self.overwriting(),
                3 if room => self.climb(&TERMS, PAST_A_BYTE),
                4 if room => self.climb(&WALL_CLOCKS, PAST_A_BYTE),
                5..=7 if room => self.brim(),
                _ => self.session(lines),
            }
            self.hand_over(output)?;
        }
        Ok(())
    }

    fn session(&mut self, last: usize) {
        let end = last.min(self.written + 20 + self.prng.below(300));
        self.begin();
        if self.prng.one_in(2) {
            self.relay();
        }
        if self.has_followers() {
            self.gate();
            self.gate();
        }
        while self.written < end {
            self.go_on();
        }
    }

    /// A round now and then; else one line.
    fn go_on(&mut self) {
        match self.prng.below(1_000) {
            0 => self.fill(),
            1..=15 => self.split(),
            16..=55 => self.replicate(),
            56..=65 => self.relay(),
            66..=77 => self.phones(),
            78..=97 if self.has_followers() => self.gate(),
            _ => self.ordinary(),
        }
    }

    /// One line, mostly a step that is allowed.
    fn ordinary(&mut self) {
        if self.prng.one_in(20) {
            return self.junk();
        }
        let kind = self.kind();
        if matches!(kind, 2 | 6 | 7 | 14 | 15) && !self.has_primary() && !self.prng.one_in(8) {
            self.elect_of(self.electors());
            return;
        }
        for _ in 0..6 {
            let drawn = self.draw(kind);
            if self.offer(drawn) {
                return;
            }
        }
    }

    /// Elects, of these, one who isn't behind the others, after it heard of the latest term; now
    /// and then it has just restarted.
    fn elect_of(&mut self, among: u8) -> u8 {
        let a = self.with_most(among, |server| (server.log.last_term(), server.log.length));
        if self.prng.one_in(16) {
            self.offer(Step::Restarts { a });
        }
        let b = self.with_most(among, |server| server.term);
        if self.at(b).term > self.at(a).term {
            self.offer(Step::Hears { a, b });
        }
        let set = self.voters(a, among);
        self.offer(Step::Elect { a, set });
        a
    }

    /// Has all voters elect a, one of them, after it came after the one whom nobody is ahead of.
    fn promote(&mut self, a: u8) {
        let electors = self.electors();
        let latest = self.with_most(electors, |server| (server.log.last_term(), server.log.length));
        self.offer(Step::StepDown { a });
        if latest != a {
            self.catch_up(a, latest);
        }
        self.elect_by(a, electors);
    }

    fn offer_entry(&mut self, a: u8) {
        let entry = self.entry_by(a);
        self.offer(entry);
    }

    /// A few entries, or rarely as many as the log takes.
    fn write_some(&mut self, a: u8) {
        let entries = if self.prng.one_in(400) { ENTRIES } else { self.prng.below(3) };
        for _ in 0..entries {
            self.offer_entry(a);
        }
    }

    /// Asks a for the newest value, whether or not it can still tell.
    fn ask_newest(&mut self, a: u8) {
        let read = self.newest_read(a);
        self.offer(read);
    }

    /// Brings a after b by what is allowed, if anything is.
    fn come_after(&mut self, a: u8, b: u8) {
        if !self.offer(Step::Pulls { a, b }) {
            self.offer(Step::RollsBack { a, b });
        }
    }

    /// The same whatever a line of a refusal is worth.
    fn catch_up(&mut self, a: u8, b: u8) {
        self.offer(Step::Pulls { a, b });
        self.offer(Step::RollsBack { a, b });
    }

    /// About half of the servers come after the one they are given.
    fn follow(&mut self, b: u8) {
        for a in (0..self.count() as u8).filter(|&a| a != b) {
            if self.prng.one_in(2) {
                self.come_after(a, b);
            }
        }
    }

    /// Entries that others take over, commit, read up to and hear of.
    fn replicate(&mut self) {
        let a = self.primary();
        self.write_some(a);
        self.follow(a);
        self.take_in(a);
        self.offer(Step::Advances { a });
        self.write_some(a);
        self.ask_newest(a);
        for b in 0..self.count() as u8 {
            let kind = self.prng.pick(&[3, 9, 11, 12, 15]);
            let drawn = if kind == 3 { Step::Hears { a: b, b: a } } else { self.draw(kind) };
            self.offer(drawn);
        }
    }

    /// An old primary keeps writing and asking for the newest value while another wins without it;
    /// then the two sides meet.
    fn split(&mut self) {
        let electors = self.electors();
        let old = self.elect_of(electors);
        self.write_some(old);
        self.follow(old);
        let new = self.elect_of(electors & !(1 << old));
        self.write_some(old);
        self.write_some(new);
        self.follow(new);
        self.take_in(new);
        self.offer(Step::Advances { a: new });
        self.take_in(old);
        self.offer(Step::Advances { a: old });
        self.write_some(old);
        self.ask_newest(old);
        self.ask_newest(new);
        self.offer(Step::Hears { a: new, b: old });
        self.offer(Step::Hears { a: old, b: new });
        self.offer(Step::RollsBack { a: old, b: new });
        self.write_some(new);
        self.follow(new);
        self.take_in(new);
        self.offer(Step::Advances { a: new });
    }

    /// A log is filled, others come after it, and it is covered. Where a majority is there without
    /// its first primary, that one may have an entry of its own, and then it has to roll back.
    fn fill(&mut self) {
        let old = self.elect_of(self.electors());
        let rest = self.electors() & !(1 << old);
        let split = self.cluster.is_majority(rest.count_ones() as usize) && self.prng.one_in(2);
        let a = if split { self.elect_of(rest) } else { old };
        if split {
            self.offer_entry(old);
        }
        self.fill_up(a);
        if split {
            self.offer(Step::Hears { a: old, b: a });
            self.catch_up(old, a);
        }
        self.follow(a);
        self.take_in(a);
        self.offer(Step::Advances { a });
        self.ask_at_the_end(a);
    }

    /// A log of 127 and of 128 at a write, or at what writes nothing. Where a clock is at its end
    /// nothing helps, so it isn't tried for ever.
    fn fill_up(&mut self, a: u8) {
        let sort = self.prng.below(3);
        for _ in 0..2 * ENTRIES {
            let entry = match sort {
                0 => Step::WritesNothing { a },
                1 => self.write_for(a, Time::ZERO),
                _ => self.write_by(a),
            };
            if self.at(a).log.length == ENTRIES {
                return self.say(entry);
            }
            self.offer(entry);
        }
    }

    /// Asks a for the highest position and the one above it.
    fn ask_at_the_end(&mut self, a: u8) {
        let term = self.at(a).log.last_term();
        for position in [HIGHEST, HIGHEST + 1] {
            self.offer(Step::Acknowledged { a, count: 0, position, term });
            self.offer(Step::NewestRead { a, key: 0, position, term });
        }
    }

    /// A session of rounds in which a log is filled and rolled back again, so that l grows far
    /// beyond what one log holds.
    fn overwriting(&mut self) {
        self.begin();
        for _ in 0..FILLINGS {
            self.overwrite();
        }
    }

    /// Fills a log that is then rolled back to one with a single entry more than both have.
    fn overwrite(&mut self) {
        let electors = self.electors();
        let old = self.elect_of(electors);
        let latest = self.with_most(self.everyone(), |server| server.cluster_time);
        self.offer(Step::Hears { a: old, b: latest });
        let new = self.elect_of(electors & !(1 << old));
        self.offer_entry(new);
        self.fill_up(old);
        self.offer(Step::Hears { a: old, b: new });
        self.offer(Step::RollsBack { a: old, b: new });
        self.follow(new);
    }

    /// In half of all runs one more line, good or bad, without a line feed.
    fn last_line(&mut self) {
        if self.prng.one_in(2) {
            if self.prng.one_in(2) {
                self.say(Step::ClocksAgree)
            } else {
                self.junk()
            }
            self.text.pop();
        }
    }
}

#[cfg(test)]
#[path = "sessions_tests.rs"]
mod tests;
