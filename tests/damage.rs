//! Damages a saved record in many ways, for two programs to load. `damage --help` tells the use; the
//! steps of `evening.steps` reach a record that has frames of every sort.

mod prng;
mod texts;

use prng::Prng;
use std::io::{self, Read};
use std::ops::Range;
use std::process::ExitCode;
use std::{env, fs};
use texts::write_texts;

const HELP: &str = "\
Damages a saved record, which it reads from standard input.

damage SEED MOST FOLDER    writes damaged texts into FOLDER, each to a file of its own named by the
                           sort of damage; of each sort at most MOST (2 or more), the first and
                           the last among them
damage --help              writes this

    cut         the text ends before a byte
    changed     a character is another one: a digit, a letter in upper case, a line feed or 0xff
    crlf        a line is ended by CR and LF; the last text has all lines so
    doubled     a line stands twice
    blank       an empty line stands before a line or after all
    left-out    a line is left out
    swapped     a line stands before the one that it followed
    more        a frame with all that it announces stands twice, and one more is announced
    fewer       a frame with all that it announces is left out, and one fewer is announced
    source      a server's source is itself, one past the count or ff; in the last text it is ff
    first       the first frame is of edition 0, 1, 2, 3, 4 or ff, with a follower set and without
    followers   the follower set, where there is one, has a server alone, all but one or none, or
                all; also one past the count and bit 7
and in the first frame of each sort:
    byte        a byte is 00, ff, one more or one less
    byte-cut    a byte is ff, and the last line feed is missing
    zero        all but the first two bytes are 00; in the last text it is the first frame, alone
and in the last frame of each sort:
    times       the frame with all that it announces stands so often that 7, 8, 9 or as many as can
                be are announced
    times-cut   the same, and the last line feed is missing
";

fn main() -> ExitCode {
    let arguments: Vec<String> = env::args().skip(1).collect();
    if arguments == ["--help"] {
        print!("{HELP}");
        return ExitCode::SUCCESS;
    }
    let Some((seed, most, folder)) = asked(&arguments) else {
        eprint!("{HELP}");
        return ExitCode::from(2);
    };
    match write_all(Prng(seed), most, folder) {
        Ok(()) => ExitCode::SUCCESS,
        Err(error) => {
            eprintln!("damage: {error}");
            ExitCode::FAILURE
        }
    }
}

fn asked(arguments: &[String]) -> Option<(u64, usize, &str)> {
    let [seed, most, folder] = arguments else { return None };
    Some((seed.parse().ok()?, most.parse().ok().filter(|&most| most > 1)?, folder))
}

fn write_all(mut prng: Prng, most: usize, folder: &str) -> io::Result<()> {
    let mut text = Vec::new();
    io::stdin().lock().read_to_end(&mut text)?;
    fs::create_dir_all(folder)?;
    for (sort, texts) in damaged(&text, &mut prng) {
        let numbered = texts.into_iter().enumerate().collect();
        write_texts(&mut prng, most, &format!("{folder}/{sort}"), numbered)?;
    }
    Ok(())
}

/// Each sort and all its texts.
fn damaged(text: &[u8], prng: &mut Prng) -> [(&'static str, Vec<Vec<u8>>); 17] {
    let lines: Vec<&[u8]> = text.split_inclusive(|&character| character == b'\n').collect();
    let (lines, places, numbers) = (&lines[..], 0..text.len(), || 0..lines.len());
    let as_crlf: Vec<_> = lines.iter().map(|line| crlf(line)).collect();
    let each_crlf = numbers().map(|n| with(lines, n..n + 1, &[&as_crlf[n]]));
    let swapped = |n: usize| with(lines, n - 1..n + 1, &[lines[n], lines[n - 1]]);
    let among = |some: &[&[u8]], n: usize| some.iter().any(|line| sort(line) == sort(lines[n]));
    let firsts = || numbers().filter(|&n| !among(&lines[..n], n));
    let lasts = || numbers().filter(|&n| !among(&lines[n + 1..], n));
    let alone = lines.get(..1).map(|first| zero(first, 0));
    let wide = firsts().flat_map(|n| bytes(lines, n, |_| vec![255]));
    let sized = |n: usize| SIZES.iter().filter_map(move |size| times(lines, n, *size));
    [
        ("cut", places.clone().map(|end| text[..end].to_vec()).collect()),
        ("changed", places.map(|place| changed(text, place, prng)).collect()),
        ("crlf", each_crlf.chain([as_crlf.concat()]).collect()),
        ("doubled", numbers().map(|n| with(lines, n..n, &[lines[n]])).collect()),
        ("blank", (0..=lines.len()).map(|n| with(lines, n..n, &[b"\n"])).collect()),
        ("left-out", numbers().map(|n| with(lines, n..n + 1, &[])).collect()),
        ("swapped", numbers().skip(1).map(swapped).collect()),
        ("more", numbers().filter_map(|n| times(lines, n, |told, _| told + 1)).collect()),
        ("fewer", numbers().filter_map(|n| times(lines, n, |told, _| told - 1)).collect()),
        ("byte", firsts().flat_map(|n| bytes(lines, n, other_bytes)).collect()),
        ("byte-cut", wide.map(without_end).collect()),
        ("zero", firsts().map(|n| zero(lines, n)).chain(alone).collect()),
        ("times", lasts().flat_map(sized).collect()),
        ("times-cut", lasts().flat_map(sized).map(without_end).collect()),
        ("source", sources(lines)),
        ("first", firsts_of_editions(lines)),
        ("followers", follower_sets(lines)),
    ]
}

fn without_end(mut text: Vec<u8>) -> Vec<u8> {
    text.pop();
    text
}

/// Where a server's source stands in its line.
const SOURCE: usize = 10;

/// How many of a frame are announced, by how many were and how many can be.
const SIZES: [fn(usize, usize) -> usize; 4] = [|_, _| 7, |_, _| 8, |_, _| 9, |_, most| most];

fn other_bytes(byte: u8) -> Vec<u8> {
    let mut others = vec![0, 255, byte.wrapping_add(1), byte.wrapping_sub(1)];
    others.sort_unstable();
    others.dedup();
    others.retain(|&other| other != byte);
    others
}

/// The lines with a byte of one changed to each of some others, byte by byte.
fn bytes(lines: &[&[u8]], n: usize, others: fn(u8) -> Vec<u8>) -> Vec<Vec<u8>> {
    let mut texts = Vec::new();
    for place in (0..lines[n].len() - 1).step_by(2) {
        let byte = number(&lines[n][place..place + 2]).unwrap_or(0) as u8;
        texts.extend(others(byte).into_iter().map(|other| with_byte(lines, n, place, other)));
    }
    texts
}

/// The lines with a byte of one changed.
fn with_byte(lines: &[&[u8]], n: usize, place: usize, byte: u8) -> Vec<u8> {
    let mut line = lines[n].to_vec();
    line.splice(place..place + 2, format!("{byte:02x}").bytes());
    with(lines, n..n + 1, &[&line])
}

/// The lines with a server's source changed to each that it can't have, server by server.
fn sources(lines: &[&[u8]]) -> Vec<Vec<u8>> {
    let numbers = 0..lines.len();
    let servers: Vec<usize> = numbers.filter(|&n| sort(lines[n]) == b"01").collect();
    let past = servers.len() as u8 + 1;
    let wrong = |own: usize| [own as u8 + 1, past, 255];
    let of = |own: usize| wrong(own).map(|source| with_byte(lines, servers[own], SOURCE, source));
    (0..servers.len()).flat_map(of).collect()
}

/// The lines with another first frame: that of each edition, and of some that there aren't, each
/// with a follower set and without. The server count stays.
fn firsts_of_editions(lines: &[&[u8]]) -> Vec<Vec<u8>> {
    let Some([_, _, _, _, high, low, ..]) = lines.first() else { return Vec::new() };
    let count = [*high, *low].map(char::from).iter().collect::<String>();
    let told = [0, 1, 2, 3, 4, 255].map(|edition| format!("00{edition:02x}{count}"));
    let wide = told.iter().flat_map(|first| ["00", "01", "02"].map(|set| format!("{first}{set}")));
    let all: Vec<String> = told.iter().cloned().chain(wide).collect();
    all.iter().map(|first| with(lines, 0..1, &[first.as_bytes(), b"\n"])).collect()
}

/// Where the follower set stands in the first line, and the length of a line that has it.
const FOLLOWERS: usize = 6;
const WITH_FOLLOWERS: usize = FOLLOWERS + 3;

/// The lines with other followers; bits past seven are cut off.
fn follower_sets(lines: &[&[u8]]) -> Vec<Vec<u8>> {
    let Some(first) = lines.first().filter(|first| first.len() == WITH_FOLLOWERS) else {
        return Vec::new();
    };
    let count = number(&first[4..6]).unwrap_or(0);
    let all = (1usize << count) - 1;
    let each = (0..=count).flat_map(|number| [1 << number, all & !(1 << number)]);
    let sets = each.chain([0, 0x80, 0x83, 0xff]);
    sets.map(|set| with_byte(lines, 0, FOLLOWERS, set as u8)).collect()
}

fn number(digits: &[u8]) -> Option<usize> {
    usize::from_str_radix(std::str::from_utf8(digits).ok()?, 16).ok()
}

fn zero(lines: &[&[u8]], n: usize) -> Vec<u8> {
    let digits = lines[n].len().saturating_sub(5);
    with(lines, n..n + 1, &[&lines[n][..4], &b"0".repeat(digits), b"\n"])
}

/// The lines with these in the place of some.
fn with(lines: &[&[u8]], some: Range<usize>, these: &[&[u8]]) -> Vec<u8> {
    [&lines[..some.start], these, &lines[some.end..]].concat().concat()
}

/// The digits by which a line tells its sort.
fn sort(line: &[u8]) -> &[u8] {
    &line[..line.len().min(2)]
}

/// The line and the digits that announce a frame, and the line after all that it announces itself.
/// Nothing announces the first frame.
fn announced(lines: &[&[u8]], n: usize) -> Option<(usize, Range<usize>, usize)> {
    let is_server = |line: &&[u8]| sort(line) == b"01";
    let server = lines[..n].iter().rposition(is_server);
    let next_server = || (n + 1..lines.len()).find(|&next| is_server(&lines[next]));
    match sort(lines[n]) {
        b"01" => Some((0, 4..6, next_server().unwrap_or(lines.len()))),
        b"02" => Some((server?, 2..6, n + 1)),
        b"03" => Some((server?, 6..8, n + 1)),
        b"04" => Some((server?, 8..10, n + 1)),
        _ => None,
    }
}

/// The lines with a frame and all that it announces so often that as many are announced as asked.
fn times(lines: &[&[u8]], n: usize, asked: fn(usize, usize) -> usize) -> Option<Vec<u8>> {
    let (by, digits, end) = announced(lines, n)?;
    let width = digits.len();
    let told = number(&lines[by][digits.clone()])?;
    let asked = asked(told, (1 << (4 * width)) - 1);
    let mut announcing = lines[by].to_vec();
    announcing.splice(digits, format!("{asked:0width$x}").bytes());
    let mut announced = lines.to_vec();
    announced[by] = &announcing;
    Some(with(&announced, n..end, &lines[n..end].repeat((asked + 1).saturating_sub(told))))
}

fn crlf(line: &[u8]) -> Vec<u8> {
    [line.strip_suffix(b"\n").unwrap_or(line), b"\r\n"].concat()
}

/// Half of the bytes that aren't line feeds become another digit, so that most of the shape stays.
fn changed(text: &[u8], place: usize, prng: &mut Prng) -> Vec<u8> {
    let mut changed = text.to_vec();
    while changed[place] == text[place] {
        changed[place] = match prng.below(8) {
            0 => text[place].to_ascii_uppercase(),
            1 => b'A' + prng.below(6) as u8,
            2 => b'\n',
            3 => 0xff,
            _ => b"0123456789abcdef"[prng.below(16)],
        };
    }
    changed
}
