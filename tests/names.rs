//! Whether names mean something, and one thing. Every backquoted name of the papers below stands
//! somewhere in crates, tests and the rest, in a table's cell that names files in one of those, and
//! every path and link there leads to something; and no name is defined in two files of
//! `crates/*/specs`, but for those below.

use std::collections::{BTreeMap, BTreeSet};
use std::fs;
use std::io;
use std::path::{Path, PathBuf};
use std::process::ExitCode;

const PAPERS: [&str; 7] = [
    "README.md",
    "docs/DEMANDS.md",
    "docs/PROMISES.md",
    "docs/EDITS.md",
    "docs/SESSIONS.md",
    "docs/TRACE.md",
    "docs/ENGINEERS.md",
];
/// The heading below which names are those of the published editions.
const EDITIONS: &str = "## 3. The published editions";
/// Where names are looked for.
const PLACES: [&str; 7] = ["crates", "tests", ".ci", "docs", "samples", "bench", "show"];
const LAUNCHERS: [&str; 4] = ["replay", "check", "launch.sh", "crates.txt"];
/// Names that two files define, with why.
const TWICE: [(&str, &str); 0] = [];

fn main() -> ExitCode {
    let findings = words().and_then(|words| {
        let mut findings = defined_twice()?;
        for paper in PAPERS {
            let text = fs::read_to_string(paper)?;
            findings.extend(unknown(&words, paper, &text));
            findings.extend(dead_links(Path::new(paper), &text));
        }
        Ok(findings)
    });
    match findings {
        Ok(findings) if findings.is_empty() => ExitCode::SUCCESS,
        Ok(findings) => {
            findings.iter().for_each(|finding| eprintln!("names: {finding}"));
            ExitCode::FAILURE
        }
        Err(error) => {
            eprintln!("names: {error}");
            ExitCode::FAILURE
        }
    }
}

type Words = BTreeMap<PathBuf, BTreeSet<String>>;

/// The words of every file, the parts of its own path among them. The papers themselves don't count.
fn words() -> io::Result<Words> {
    let mut words = Words::new();
    let mut open: Vec<PathBuf> = PLACES.iter().chain(&LAUNCHERS).map(PathBuf::from).collect();
    while let Some(path) = open.pop() {
        if path.is_dir() {
            for entry in fs::read_dir(&path)? {
                open.push(entry?.path());
            }
        } else if !PAPERS.iter().any(|paper| path == Path::new(paper)) {
            let text = String::from_utf8_lossy(&fs::read(&path)?).into_owned();
            let mut found: BTreeSet<String> = names(&text).map(str::to_string).collect();
            found.extend(names(&path.to_string_lossy()).map(str::to_string));
            words.insert(path, found);
        }
    }
    Ok(words)
}

fn names(text: &str) -> impl Iterator<Item = &str> {
    let is_part = |c: char| c.is_alphanumeric() || "_-'".contains(c);
    let names = text.split(move |c: char| !is_part(c)).map(|name| name.trim_matches('-'));
    names.filter(|name| name.starts_with(|c: char| c.is_alphabetic()))
}

/// What a paper names that isn't there.
fn unknown(words: &Words, paper: &str, text: &str) -> Vec<String> {
    let mut findings = Vec::new();
    let mut of_editions = false;
    for (number, line) in text.lines().enumerate() {
        if line.starts_with("## ") {
            of_editions = line == EDITIONS;
        }
        for cell in line.split('|').filter(|_| !of_editions) {
            let quoted: Vec<&str> = cell.split('`').skip(1).step_by(2).collect();
            let (paths, terms): (Vec<&str>, Vec<&str>) =
                quoted.into_iter().partition(|term| is_path(term));
            let is_table = line.starts_with('|');
            let files = paths.iter().filter(|_| is_table).flat_map(|path| led_to(words, path));
            let files: Vec<&PathBuf> = files.filter(|file| is_home(file)).collect();
            let is_missing = |path: &&&str| led_to(words, path).is_empty() && !PAPERS.contains(path);
            let missing = paths.iter().filter(is_missing);
            let missing: BTreeSet<&str> = missing
                .copied()
                .chain(terms.into_iter().flat_map(names).filter(|name| !stands(words, &files, name)))
                .collect();
            let told = |name| format!("{paper}, line {}: there is no {name}", number + 1);
            findings.extend(missing.into_iter().map(told));
        }
    }
    findings
}

/// The links of a paper that lead to no file, seen from where it stands.
fn dead_links(paper: &Path, text: &str) -> Vec<String> {
    let targets = text.split("](").skip(1).filter_map(|rest| rest.split(')').next());
    let is_dead = |target: &&str| !paper.with_file_name(target).is_file();
    let told = |target| format!("{}: the link to {target} leads nowhere", paper.display());
    targets.filter(is_dead).map(told).collect()
}

/// Whether names are defined in such a file; an edit, a sample or a script only shows something of one.
fn is_home(file: &Path) -> bool {
    file.extension().is_some_and(|ending| ["antt", "rs", "rt"].iter().any(|home| ending == *home))
}

fn is_path(term: &str) -> bool {
    let is_file = [".antt", ".rs", ".rt", ".md"].iter().any(|ending| term.ends_with(ending));
    !term.contains(' ') && (term.contains('/') || term.starts_with('.') || is_file)
}

/// The files that a path leads to: itself or what is below it, as it stands, below `crates` or, where
/// it is one folder's name alone, in any crate; the edit `ROOM/NAME`; any, where it has a star.
fn led_to<'w>(words: &'w Words, path: &str) -> Vec<&'w PathBuf> {
    let path = path.trim_start_matches("./").trim_end_matches('/');
    if path.contains('*') || path.contains("NAME") || path.contains("LABEL") {
        return words.keys().collect();
    }
    let below = Path::new("crates").join(path);
    let edit = path.split_once('/').map(|(room, name)| (format!("crates/{room}"), format!("{name}.edit")));
    let is_led = |file: &Path| {
        let is_edit = edit
            .as_ref()
            .is_some_and(|(room, name)| file.starts_with(room) && file.ends_with(name));
        let is_of_crates = file.iter().nth(2).is_some_and(|folder| folder == path);
        let is_below = file.starts_with(path) || file.starts_with(&below);
        is_below || file.ends_with(path) || is_edit || is_of_crates
    };
    words.keys().filter(|file| is_led(file)).collect()
}

/// Whether a name stands in one of the files; where there is none, anywhere.
fn stands(words: &Words, files: &[&PathBuf], name: &str) -> bool {
    let has = |file: &PathBuf| words[file].contains(name);
    if files.is_empty() { words.keys().any(has) } else { files.iter().any(|file| has(file)) }
}

/// The names that two files of definitions have, but for those that may be.
fn defined_twice() -> io::Result<Vec<String>> {
    let mut homes: BTreeMap<String, Vec<String>> = BTreeMap::new();
    for room in fs::read_dir("crates")? {
        for file in fs::read_dir(room?.path().join("specs")).into_iter().flatten() {
            let file = file?.path();
            for line in fs::read_to_string(&file)?.lines() {
                if let Some(name) = defined(line) {
                    homes.entry(name.to_string()).or_default().push(file.display().to_string());
                }
            }
        }
    }
    let twice = homes.into_iter().filter(|(_, files)| files.len() > 1);
    let unmeant = twice.filter(|(name, _)| !TWICE.iter().any(|(allowed, _)| allowed == name));
    Ok(unmeant.map(|(name, files)| format!("{name} is defined in {}", files.join(" and "))).collect())
}

/// The name that a line defines for all.
fn defined(line: &str) -> Option<&str> {
    let heads = ["abbrev pub ", "unfoldable pub ", "pub record ", "pub data "];
    let rest = heads.iter().find_map(|head| line.strip_prefix(head))?;
    rest.split_whitespace().next()
}
