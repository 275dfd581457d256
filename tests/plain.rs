//! The plain program: step lines in, answer lines out, one for each. `plain --help` tells the use;
//! sessions that are answered in its tests are in `plain_tests.rs`.

mod answers;
mod frames;
mod histories;
mod lines;
mod model;
mod plan;
mod records;
mod saved;
mod sights;
mod tally;

use answers::answer_line;
use histories::{Verdict, check_text};
use lines::{LINE, read_line};
use model::kinds::step_where;
use model::{Answer, Cluster, Step, step};
use plan::{plan, text_of};
use records::Covered;
use saved::{load, save};
use std::fs;
use std::io::{self, BufRead, BufReader, BufWriter, ErrorKind, Write};
use std::process::ExitCode;
use tally::Tally;

const HELP: &str = "\
A model of one small replica set, run over step lines.

plain < steps            writes one answer line for each step line
    --load FILE          before that, begins with the record that is saved there
    --save FILE          after that, saves its record there
    --trust              looks at its record before a step only to see whether there was a start:
                         it has made or loaded that record itself
    --recover KEY VALUE  writes instead the step lines that get its record going again: after them
                         one server is primary in the highest term, all have its log, which ends in
                         a write of that key and value, and every commit point covers it; --save may
                         not stand beside it
plain --tally < steps    writes instead how often each kind was done and how often each condition
                         of its refusals was the one that refused; exits 1 and names them where
                         something that lines can reach never occurred
plain --check PHONES < steps
                         writes instead what comes of the phones' records in that file, in a line:
                         accepted N, refusal 1 at line L, no start, refusal 2, refusal 3 or
                         record K at line L; exits 0 only where they are accepted, and says on
                         standard error where there was more than one start
plain --help             writes this

A record that can't be loaded, saved or got going again is refused: the refusal's number is written
to standard error and the exit status is 1. Where a load is refused nothing is answered; nothing is
saved either way, and no step line is written.
";

/// One block of input or output.
const BLOCK: usize = 1 << 16;

fn main() -> ExitCode {
    let arguments: Vec<String> = std::env::args().skip(1).collect();
    let done = match arguments.iter().map(String::as_str).collect::<Vec<_>>()[..] {
        ["--tally"] => write_tally(),
        ["--check", phones] => write_check(phones),
        ["--help"] => io::stdout().write_all(HELP.as_bytes()).map(|()| ExitCode::SUCCESS),
        ref others => match Options::read(others) {
            Some(options) => write_run(&options),
            None => io::stderr().write_all(HELP.as_bytes()).map(|()| ExitCode::from(2)),
        },
    };
    done.unwrap_or_else(|error| {
        eprintln!("plain: {error}");
        ExitCode::from(2)
    })
}

/// What is asked of a run besides its answers.
#[derive(PartialEq, Default, Debug)]
struct Options<'a> {
    load: Option<&'a str>,
    save: Option<&'a str>,
    trust: bool,
    /// The key and the value of the write that gets the record going again.
    recover: Option<(u8, u16)>,
}

impl<'a> Options<'a> {
    /// Each at most once, in any order; what gets a record going again isn't saved.
    fn read(mut arguments: &[&'a str]) -> Option<Options<'a>> {
        let mut options = Options::default();
        while let [option, rest @ ..] = arguments {
            arguments = match (*option, rest) {
                ("--load", [file, rest @ ..]) if options.load.is_none() => {
                    options.load = Some(file);
                    rest
                }
                ("--save", [file, rest @ ..]) if options.save.is_none() => {
                    options.save = Some(file);
                    rest
                }
                ("--trust", rest) if !options.trust => {
                    options.trust = true;
                    rest
                }
                ("--recover", [key, value, rest @ ..]) if options.recover.is_none() => {
                    options.recover = Some((key.parse().ok()?, value.parse().ok()?));
                    rest
                }
                _ => return None,
            };
        }
        if options.save.and(options.recover).is_some() { None } else { Some(options) }
    }
}

fn write_run(options: &Options) -> io::Result<ExitCode> {
    let mut output = BufWriter::with_capacity(BLOCK, io::stdout().lock());
    Ok(match run(options, standard_input(), &mut output)? {
        Ok(()) => ExitCode::SUCCESS,
        Err(refusal) => {
            eprintln!("{refusal}");
            ExitCode::FAILURE
        }
    })
}

/// From the record that is loaded to the record that is saved, or to the steps that get it going
/// again; each may be refused, and then the refusal's number is given.
fn run(
    options: &Options,
    input: impl BufRead,
    output: &mut impl Write,
) -> io::Result<Result<(), u8>> {
    let begun = match options.load {
        Some(file) => load(&fs::read(file)?),
        None => Ok(Cluster::ZERO),
    };
    let mut cluster = match begun {
        Ok(cluster) => cluster,
        Err(refusal) => return Ok(Err(refusal.number())),
    };
    if let Some(write) = options.recover {
        take_lines(options, &mut cluster, input, &mut io::sink())?;
        return write_plan(&cluster, write, output);
    }
    take_lines(options, &mut cluster, input, output)?;
    output.flush()?;
    match options.save.map(|file| (file, save(&cluster))) {
        Some((file, Ok(text))) => fs::write(file, text).map(Ok),
        Some((_, Err(refusal))) => Ok(Err(refusal.number())),
        None => Ok(Ok(())),
    }
}

/// The steps that get a record going again, unless they are refused.
fn write_plan(
    cluster: &Cluster,
    (key, value): (u8, u16),
    output: &mut impl Write,
) -> io::Result<Result<(), u8>> {
    match plan(cluster, key, value) {
        Ok(steps) => output.write_all(&text_of(&steps))?,
        Err(refusal) => return Ok(Err(refusal)),
    }
    output.flush().map(Ok)
}

fn take_lines(
    options: &Options,
    cluster: &mut Cluster,
    input: impl BufRead,
    output: &mut impl Write,
) -> io::Result<()> {
    if options.trust {
        answer_lines(cluster, trusting_step, input, output)
    } else {
        answer_lines(cluster, step, input, output)
    }
}

/// For a record that began as the zero record or was loaded and that only steps have changed. The
/// zero record has no servers; only a start sets their count, to 2 at least, and makes a well-formed
/// record, as a loaded one is, which every step keeps well formed. So the count alone tells what the
/// whole check would find.
fn trusting_step(cluster: &mut Cluster, step: &Step) -> Answer {
    step_where(|cluster| cluster.count > 0, cluster, step)
}

fn write_tally() -> io::Result<ExitCode> {
    let mut cluster = Cluster::ZERO;
    let mut tally = Tally::NONE;
    each_line(standard_input(), |line| {
        let (read, before) = (read_line(line), cluster);
        let answer = read.and_then(|read| step(&mut cluster, &read));
        tally.count(read.ok(), answer, [&before, &cluster]);
        Ok(())
    })?;
    let all_reached = tally.write(&mut io::stdout().lock())?;
    Ok(if all_reached { ExitCode::SUCCESS } else { ExitCode::FAILURE })
}

/// What phones saw, against what the steps covered.
fn write_check(phones: &str) -> io::Result<ExitCode> {
    let text = fs::read(phones)?;
    let covered = covered_by(standard_input())?;
    if covered.starts > 1 {
        eprintln!("plain: {} starts; the log is that of the last", covered.starts);
    }
    let told = told(&covered, &text);
    println!("{told}");
    Ok(if told.starts_with("accepted ") { ExitCode::SUCCESS } else { ExitCode::FAILURE })
}

/// The words of the verdict. A bad line comes first; without a start there is nothing to check
/// against.
fn told(covered: &Covered, text: &[u8]) -> String {
    match check_text(&covered.entries, text) {
        bad @ Verdict::BadLine(_) => bad.to_string(),
        _ if covered.starts == 0 => "no start".to_string(),
        verdict => verdict.to_string(),
    }
}

fn covered_by(input: impl BufRead) -> io::Result<Covered> {
    let (mut cluster, mut covered) = (Cluster::ZERO, Covered::default());
    each_line(input, |line| {
        if let Ok(read) = read_line(line) {
            let answer = step(&mut cluster, &read);
            covered.follow(&read, answer, &cluster);
        }
        Ok(())
    })?;
    Ok(covered)
}

fn standard_input() -> impl BufRead {
    BufReader::with_capacity(BLOCK, io::stdin().lock())
}

fn answer_lines(
    cluster: &mut Cluster,
    take: impl Fn(&mut Cluster, &Step) -> Answer,
    input: impl BufRead,
    output: &mut impl Write,
) -> io::Result<()> {
    each_line(input, |line| {
        let answer = read_line(line).and_then(|read| take(cluster, &read));
        output.write_all(&answer_line(answer))
    })
}

/// The kept part of a line: one byte more than a frame's, so that a longer line shows as longer.
struct Kept {
    bytes: [u8; LINE + 1],
    length: usize,
}

impl Kept {
    fn add(&mut self, piece: &[u8]) {
        let free = &mut self.bytes[self.length..];
        let taken = piece.len().min(free.len());
        free[..taken].copy_from_slice(&piece[..taken]);
        self.length += taken;
    }

    fn line(&self) -> &[u8] {
        &self.bytes[..self.length]
    }
}

/// Calls `then` with the kept part of every line; a last one without a line feed counts if it
/// isn't empty.
fn each_line(
    mut input: impl BufRead,
    mut then: impl FnMut(&[u8]) -> io::Result<()>,
) -> io::Result<()> {
    let mut kept = Kept { bytes: [0; LINE + 1], length: 0 };
    loop {
        let block = match input.fill_buf() {
            Err(error) if error.kind() == ErrorKind::Interrupted => continue,
            block => block?,
        };
        if block.is_empty() {
            break;
        }
        let mut rest = block;
        while let Some(end) = rest.iter().position(|&character| character == b'\n') {
            kept.add(&rest[..end]);
            then(kept.line())?;
            kept.length = 0;
            rest = &rest[end + 1..];
        }
        kept.add(rest);
        let length = block.len();
        input.consume(length);
    }
    if kept.length > 0 { then(kept.line()) } else { Ok(()) }
}

#[cfg(test)]
#[path = "plain_tests.rs"]
mod tests;
