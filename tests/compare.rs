//! Compares the answers of two programs to one file of steps. `compare --help` tells the use.

use std::fs::File;
use std::io::{self, BufRead, BufReader};
use std::process::ExitCode;

const HELP: &str = "\
Compares two answer files byte for byte.

compare SEED STEPS ANSWERS1 ANSWERS2    exits 0 where both files hold the same answers, one for each
                                        step line; else writes the seed, the number of the first
                                        line that differs, its step and both answers, and exits 1
compare --help                          writes this
";

/// The most characters shown of a line.
const SHOWN: usize = 80;

/// A line with its line feed, if it has one; none past the end.
type Line = Option<Vec<u8>>;

/// The first line where something differs.
struct Difference {
    number: usize,
    step: Line,
    answers: [Line; 2],
}

fn main() -> ExitCode {
    let arguments: Vec<String> = std::env::args().skip(1).collect();
    match arguments.iter().map(String::as_str).collect::<Vec<_>>()[..] {
        ["--help"] => {
            print!("{HELP}");
            ExitCode::SUCCESS
        }
        [seed, steps, first, second] => report(seed, compare([steps, first, second])),
        _ => {
            eprint!("{HELP}");
            ExitCode::from(2)
        }
    }
}

fn report(seed: &str, compared: io::Result<Result<usize, Difference>>) -> ExitCode {
    match compared {
        Ok(Ok(lines)) => {
            println!("seed {seed}: {lines} answers, the same");
            ExitCode::SUCCESS
        }
        Ok(Err(Difference { number, step, answers: [first, second] })) => {
            println!("seed {seed}: line {number} differs");
            println!("step:     {}", printable(&step));
            println!("answer 1: {}", printable(&first));
            println!("answer 2: {}", printable(&second));
            ExitCode::FAILURE
        }
        Err(error) => {
            eprintln!("compare: {error}");
            ExitCode::from(2)
        }
    }
}

/// The number of lines where all is the same, or else the first difference; answers that agree and
/// are more or fewer than the steps differ too.
fn compare(paths: [&str; 3]) -> io::Result<Result<usize, Difference>> {
    let [steps, first, second] = paths.map(File::open);
    let [mut steps, mut first, mut second] = [steps?, first?, second?].map(BufReader::new);
    let mut same = 0;
    loop {
        let step = next_line(&mut steps)?;
        let answers = [next_line(&mut first)?, next_line(&mut second)?];
        if answers[0] != answers[1] || answers[0].is_none() != step.is_none() {
            return Ok(Err(Difference { number: same + 1, step, answers }));
        }
        if step.is_none() {
            return Ok(Ok(same));
        }
        same += 1;
    }
}

fn next_line(input: &mut impl BufRead) -> io::Result<Line> {
    let mut line = Vec::new();
    let length = input.read_until(b'\n', &mut line)?;
    Ok(if length == 0 { None } else { Some(line) })
}

fn printable(line: &Line) -> String {
    match line {
        None => "(none)".to_string(),
        Some(line) => line.escape_ascii().take(SHOWN).map(char::from).collect(),
    }
}
