//! Hands its input on in small pieces, as a slow link does. `drip --help` tells the use.

use std::fs::File;
use std::io::{self, Read, Write};
use std::os::fd::AsFd;
use std::process::ExitCode;
use std::thread::sleep;
use std::time::Duration;

const HELP: &str = "\
Writes standard input to standard output in pieces, each by a write of its own.

drip SIZES [MS]    the pieces have these sizes in turn (as 1,27,4), with a pause of MS milliseconds
                   after each
drip --help        writes this
";

fn main() -> ExitCode {
    let arguments: Vec<String> = std::env::args().skip(1).collect();
    if arguments == ["--help"] {
        print!("{HELP}");
        return ExitCode::SUCCESS;
    }
    let Some((sizes, pause)) = asked(&arguments) else {
        eprint!("{HELP}");
        return ExitCode::from(2);
    };
    match drip(&sizes, pause) {
        Ok(()) => ExitCode::SUCCESS,
        Err(error) => {
            eprintln!("drip: {error}");
            ExitCode::FAILURE
        }
    }
}

/// The sizes, none of them zero, and the pause.
fn asked(arguments: &[String]) -> Option<(Vec<usize>, Duration)> {
    let (sizes, rest) = arguments.split_first()?;
    let sizes: Option<Vec<usize>> =
        sizes.split(',').map(|size| size.parse().ok().filter(|&n| n > 0)).collect();
    let pause = match rest {
        [] => 0,
        [pause] => pause.parse().ok()?,
        _ => return None,
    };
    Some((sizes?, Duration::from_millis(pause)))
}

fn drip(sizes: &[usize], pause: Duration) -> io::Result<()> {
    let mut text = Vec::new();
    io::stdin().lock().read_to_end(&mut text)?;
    // A file has no buffer that would join or cut the pieces.
    let mut output = File::from(io::stdout().as_fd().try_clone_to_owned()?);
    let mut rest = &text[..];
    for &size in sizes.iter().cycle() {
        if rest.is_empty() {
            break;
        }
        let (piece, later) = rest.split_at(size.min(rest.len()));
        output.write_all(piece)?;
        rest = later;
        sleep(pause);
    }
    Ok(())
}
