//! The plain program's own trace of a run: each line with its answer, and the record where it has
//! changed, for another program to trace alike and for the words to be read back against. `trace
//! --help` tells the use.

mod answers;
mod lines;
/// Some of its numbers only the other programs need.
#[allow(dead_code, unused_imports)]
mod model;
mod saved;

use answers::answer_line;
use lines::{LINE, read_line};
use model::{Cluster, Step, step};
use saved::{load, save};
use std::fs;
use std::io::{self, BufRead, BufReader, BufWriter, ErrorKind, Write};
use std::process::ExitCode;

const HELP: &str = "\
Writes the trace of a run over step lines.

trace [--brief] [--from N] [--to M] [SAVED] < steps
                writes for each line a pair: the line as it is shown, a blank and its answer; and
                behind it the saved form of the record, where that differs from the one before.
                Before the first pair stands that of the record then, if it has one. A run begins
                with the record that is saved in SAVED, or else with the zero record
    --brief     of a saved form only its first frame, where that differs
    --from N    no pair of a line before line N; lines count from 1
    --to M      no pair of a line after line M
trace --help    writes this

A line is shown as it came, but that a byte outside 21 to 7e, and the backslash, is \\xHH, and that
of a line longer than 40 bytes the first 40 are shown, and then \\+ and how many more there are. A
record that can't be loaded is refused: the refusal's number is written to standard error, and the
exit status is 1.
";

/// The most bytes that are shown of a line.
const SHOWN: usize = 40;
// What is kept of a line is more than a step line, so it tells whether the line is one.
const _: () = assert!(SHOWN > LINE);

/// One block of input or output.
const BLOCK: usize = 1 << 16;

fn main() -> ExitCode {
    let arguments: Vec<String> = std::env::args().skip(1).collect();
    if arguments == ["--help"] {
        print!("{HELP}");
        return ExitCode::SUCCESS;
    }
    let words: Vec<&str> = arguments.iter().map(String::as_str).collect();
    let Some(options) = Options::read(&words) else {
        eprint!("{HELP}");
        return ExitCode::from(2);
    };
    write_trace(&options).unwrap_or_else(|error| {
        eprintln!("trace: {error}");
        ExitCode::from(2)
    })
}

/// What is asked of a trace.
#[derive(PartialEq, Debug)]
struct Options<'a> {
    brief: bool,
    from: u64,
    to: u64,
    saved: Option<&'a str>,
}

impl<'a> Options<'a> {
    const NONE: Options<'static> = Options { brief: false, from: 1, to: u64::MAX, saved: None };

    /// Options in any order, and then the name of a saved record, if there is one.
    fn read(mut arguments: &[&'a str]) -> Option<Options<'a>> {
        let mut options: Options<'a> = Options::NONE;
        while let [option, rest @ ..] = arguments {
            arguments = match (*option, rest) {
                ("--brief", rest) => {
                    options.brief = true;
                    rest
                }
                ("--from", [number, rest @ ..]) => {
                    options.from = number.parse().ok().filter(|&number| number > 0)?;
                    rest
                }
                ("--to", [number, rest @ ..]) => {
                    options.to = number.parse().ok()?;
                    rest
                }
                (name, []) if !name.starts_with('-') => {
                    options.saved = Some(name);
                    &[]
                }
                _ => return None,
            };
        }
        Some(options)
    }
}

fn write_trace(options: &Options) -> io::Result<ExitCode> {
    let begun = match options.saved {
        Some(file) => load(&fs::read(file)?),
        None => Ok(Cluster::ZERO),
    };
    let cluster = match begun {
        Ok(cluster) => cluster,
        Err(refusal) => {
            eprintln!("{}", refusal.number());
            return Ok(ExitCode::FAILURE);
        }
    };
    let mut output = BufWriter::with_capacity(BLOCK, io::stdout().lock());
    trace(options, cluster, BufReader::with_capacity(BLOCK, io::stdin().lock()), &mut output)?;
    output.flush()?;
    Ok(ExitCode::SUCCESS)
}

/// The whole trace of a run that begins with a record.
fn trace(
    options: &Options,
    mut cluster: Cluster,
    input: impl BufRead,
    output: &mut impl Write,
) -> io::Result<()> {
    let (mut number, mut told) = (0, Vec::new());
    each_line(input, |line| {
        number += 1;
        if number == options.from && number <= options.to {
            told = form(options, &cluster);
            output.write_all(&told)?;
        }
        let answer = read_line(&line.bytes).and_then(|read| step(&mut cluster, &read));
        if !(options.from..=options.to).contains(&number) {
            return Ok(());
        }
        output.write_all(shown(line).as_bytes())?;
        output.write_all(b" ")?;
        output.write_all(&answer_line(answer))?;
        let now = form(options, &cluster);
        if now != told {
            output.write_all(&now)?;
            told = now;
        }
        Ok(())
    })
}

/// What a trace has of a record: its saved form, or the first frame of that, which is the same
/// right after a start; nothing where there was none yet.
fn form(options: &Options, cluster: &Cluster) -> Vec<u8> {
    if !options.brief {
        return save(cluster).unwrap_or_default();
    }
    let (servers, followers) = (cluster.count as u8, cluster.followers);
    let mut started = Cluster::ZERO;
    if step(&mut started, &Step::Start { servers, followers }).is_err() {
        return Vec::new();
    }
    let mut text = save(&started).unwrap_or_default();
    text.truncate(1 + text.iter().take_while(|&&character| character != b'\n').count());
    text
}

/// The beginning of a line, and how many bytes more it has, as far as a number goes.
#[derive(Default)]
struct Kept {
    bytes: Vec<u8>,
    more: u64,
}

impl Kept {
    fn add(&mut self, piece: &[u8]) {
        let taken = piece.len().min(SHOWN - self.bytes.len());
        self.bytes.extend(&piece[..taken]);
        self.more = self.more.saturating_add((piece.len() - taken) as u64);
    }

    fn clear(&mut self) {
        self.bytes.clear();
        self.more = 0;
    }
}

fn shown(line: &Kept) -> String {
    let plain = |byte: u8| (0x21..=0x7e).contains(&byte) && byte != b'\\';
    let character = |&byte: &u8| match plain(byte) {
        true => char::from(byte).to_string(),
        false => format!("\\x{byte:02x}"),
    };
    let characters: String = line.bytes.iter().map(character).collect();
    if line.more == 0 { characters } else { format!("{characters}\\+{}", line.more) }
}

/// Calls `then` with what is kept of every line; a last one without a line feed counts if it isn't
/// empty.
fn each_line(
    mut input: impl BufRead,
    mut then: impl FnMut(&Kept) -> io::Result<()>,
) -> io::Result<()> {
    let mut kept = Kept::default();
    loop {
        let block = match input.fill_buf() {
            Err(error) if error.kind() == ErrorKind::Interrupted => continue,
            block => block?,
        };
        if block.is_empty() {
            break;
        }
        let mut rest = block;
        while let Some(end) = rest.iter().position(|&character| character == b'\n') {
            kept.add(&rest[..end]);
            then(&kept)?;
            kept.clear();
            rest = &rest[end + 1..];
        }
        kept.add(rest);
        let length = block.len();
        input.consume(length);
    }
    if kept.bytes.is_empty() { Ok(()) } else { then(&kept) }
}

#[cfg(test)]
mod tests {
    use super::*;

    const START: &str = "00030004000000000000000000";
    const ELECT: &str = "01000003000000000000000000";
    const DOWN: &str = "02000000000000000000000000";

    fn traced(options: &Options, text: &str) -> Vec<String> {
        let mut output = Vec::new();
        trace(options, Cluster::ZERO, text.as_bytes(), &mut output).unwrap();
        String::from_utf8(output).unwrap().lines().map(String::from).collect()
    }

    /// What is shown of a line, by the pair that it gets.
    fn shown_as(line: &[u8]) -> String {
        let mut output = Vec::new();
        trace(&Options::NONE, Cluster::ZERO, &[line, b"\n"].concat()[..], &mut output).unwrap();
        let pair = String::from_utf8(output).unwrap();
        pair.strip_suffix(" 010000000000000000\n").expect("refused with 1").to_string()
    }

    #[test]
    fn any_byte_is_shown_in_plain_characters() {
        assert_eq!(shown_as(b""), "");
        assert_eq!(shown_as(b"!~</script>"), "!~</script>");
        assert_eq!(shown_as(b" \t\r\0\\\x7f\x80\xff"), "\\x20\\x09\\x0d\\x00\\x5c\\x7f\\x80\\xff");
    }

    #[test]
    fn only_what_is_past_forty_bytes_is_cut() {
        for length in [25, 27, 39, 40] {
            assert_eq!(shown_as(&vec![b'x'; length]), "x".repeat(length));
        }
        assert_eq!(shown_as(&[b'x'; 26]), "x".repeat(26));
        assert_eq!(shown_as(&[b'x'; 41]), "x".repeat(40) + "\\+1");
        assert_eq!(shown_as(&[0; 200_000]), "\\x00".repeat(40) + "\\+199960");
    }

    #[test]
    fn a_record_stands_where_it_differs() {
        let text = [START, START, ELECT, "", DOWN, DOWN].join("\n");
        let lines = traced(&Options::NONE, &text);
        let pairs =
            |count: usize| lines.iter().take(count).filter(|line| line.contains(' ')).count();
        assert_eq!(lines.len(), 6 + 4 + 4 + 4);
        assert_eq!(lines[0], format!("{START} 000000000000000000"));
        assert_eq!(lines[1], "00030304");
        assert_eq!(
            (lines[5].as_str(), lines[6].as_str()),
            (lines[0].as_str(), &*format!("{ELECT} 000000000100000000"))
        );
        assert_eq!(lines[7], "00030304");
        assert_eq!(lines[11], " 010000000000000000");
        assert_eq!(lines[12], format!("{DOWN} 000000000000000000"));
        assert_eq!(lines[17], format!("{DOWN} 040000000000000000"));
        assert_eq!((pairs(1), pairs(18)), (1, 6));
    }

    #[test]
    fn a_brief_trace_has_first_frames_alone() {
        let text = [ELECT, START, ELECT, START, "00020000000000000000000000", DOWN].join("\n");
        let brief = Options { brief: true, ..Options::NONE };
        let lines = traced(&brief, &text);
        let frames: Vec<&str> =
            lines.iter().map(String::as_str).filter(|line| !line.contains(' ')).collect();
        assert_eq!(frames, ["00030304", "00030200"]);
        assert_eq!(
            (lines.len(), lines[2].as_str(), lines[6].as_str()),
            (8, "00030304", "00030200")
        );
    }

    #[test]
    fn a_stretch_begins_with_the_record_before_it() {
        let text = [DOWN, START, ELECT, DOWN].join("\n");
        let whole = traced(&Options::NONE, &text);
        let stretch = |from, to| traced(&Options { from, to, ..Options::NONE }, &text);
        assert_eq!(stretch(1, 4), whole);
        assert_eq!(stretch(1, 1), whole[..1]);
        assert_eq!(stretch(2, 2), whole[1..6]);
        assert_eq!(stretch(3, 9), whole[2..]);
        assert_eq!(stretch(4, 4), whole[7..]);
        assert!(stretch(5, 9).is_empty() && stretch(3, 2).is_empty());
    }

    #[test]
    fn arguments_are_read() {
        let all = Options { brief: true, from: 2, to: 9, saved: Some("club") };
        assert_eq!(Options::read(&["--to", "9", "--brief", "--from", "2", "club"]), Some(all));
        assert_eq!(Options::read(&[]), Some(Options::NONE));
        let wrong: [&[&str]; 5] =
            [&["--from", "0"], &["--to"], &["--from", "x"], &["a", "b"], &["--save"]];
        assert!(wrong.iter().all(|arguments| Options::read(arguments).is_none()));
    }
}
