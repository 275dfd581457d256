//! Cuts the lines of a session into parts, for one run after another. `evenings --help` tells the
//! use.

mod prng;

use prng::Prng;
use std::io::{self, Read};
use std::process::ExitCode;
use std::{env, fs};

const HELP: &str = "\
Cuts step lines, which it reads from standard input, into parts.

evenings SEED PARTS FOLDER    writes so many parts into FOLDER, to files named by rising numbers;
                              each but the last ends with a whole line that comes no earlier than
                              the first start, and some may be empty
evenings --help               writes this
";

fn main() -> ExitCode {
    let arguments: Vec<String> = env::args().skip(1).collect();
    if arguments == ["--help"] {
        print!("{HELP}");
        return ExitCode::SUCCESS;
    }
    let Some((seed, parts, folder)) = asked(&arguments) else {
        eprint!("{HELP}");
        return ExitCode::from(2);
    };
    match write_parts(Prng(seed), parts, folder) {
        Ok(()) => ExitCode::SUCCESS,
        Err(error) => {
            eprintln!("evenings: {error}");
            ExitCode::FAILURE
        }
    }
}

fn asked(arguments: &[String]) -> Option<(u64, usize, &str)> {
    let [seed, parts, folder] = arguments else { return None };
    Some((seed.parse().ok()?, parts.parse().ok().filter(|&parts| parts > 0)?, folder))
}

fn write_parts(mut prng: Prng, parts: usize, folder: &str) -> io::Result<()> {
    let mut text = Vec::new();
    io::stdin().lock().read_to_end(&mut text)?;
    let lines: Vec<&[u8]> = text.split_inclusive(|&character| character == b'\n').collect();
    fs::create_dir_all(folder)?;
    let mut from = 0;
    for (number, to) in ends(&mut prng, parts, &lines).into_iter().enumerate() {
        fs::write(format!("{folder}/{number:04}"), lines[from..to].concat())?;
        from = to;
    }
    Ok(())
}

/// Where each part ends; before the first start there is nothing to save.
fn ends(prng: &mut Prng, parts: usize, lines: &[&[u8]]) -> Vec<usize> {
    let first = lines.iter().position(|line| is_start(line)).map_or(lines.len(), |start| start + 1);
    let mut ends: Vec<usize> =
        (1..parts).map(|_| first + prng.below(lines.len() - first + 1)).collect();
    ends.push(lines.len());
    ends.sort_unstable();
    ends
}

/// Whether a line starts two to seven servers, of which at least two vote.
fn is_start(line: &[u8]) -> bool {
    let [b'0', b'0', b'0', count @ b'2'..=b'7', b'0', b'0', high, low, unused @ ..] = line else {
        return false;
    };
    let digits = [high, low].map(|digit| char::from(*digit).to_digit(16));
    let [Some(high), Some(low)] = digits else { return false };
    let (count, followers) = (u32::from(count - b'0'), high << 4 | low);
    let all_counted = followers >> count == 0;
    all_counted && followers.count_ones() + 2 <= count && unused == b"000000000000000000\n"
}
