//! The public functions of `crates/*/src`: where each stands, what it takes and gives, the clauses of
//! its contract, and where the names in them come from.

use std::collections::BTreeMap;
use std::fs;
use std::io;
use std::path::{Path, PathBuf};

/// What may stand between `pub` and `fn`.
const QUALIFIERS: [&str; 4] = ["const", "unsafe", "extern", "\"C\""];

/// A public function by its path, as `cluster::sets::within`, with blanks folded in all its parts.
pub struct Public {
    pub room: String,
    pub path: String,
    pub place: String,
    pub parameters: String,
    pub result: String,
    pub requires: Vec<String>,
    pub ensures: Vec<String>,
    /// The names that its file brings in for contracts, each with its module.
    pub names: BTreeMap<String, String>,
}

/// The public functions of all crates, in the order of their paths.
pub fn functions(crates: &Path) -> io::Result<Vec<Public>> {
    let mut functions = Vec::new();
    for folder in listed(crates)? {
        let src = folder.join("src");
        for file in sources(&src)? {
            let text = without_comments(&fs::read_to_string(&file)?);
            let names = brought_in(&text);
            for (start, name) in public(&text) {
                let line = text[..start].lines().count();
                let (parameters, rest) = parameters(&text[start..]);
                let (result, requires, ensures) = clauses(rest);
                functions.push(Public {
                    room: name_of(&folder),
                    path: path_of(&name_of(&folder), &src, &file, name),
                    place: format!("{}, line {line}", file.display()),
                    parameters: folded(parameters),
                    result,
                    requires,
                    ensures,
                    names: names.clone(),
                });
            }
        }
    }
    functions.sort_by(|one, other| one.path.cmp(&other.path));
    Ok(functions)
}

/// The names of `ghost use MODULE.{NAME, ..};`, each with its module.
fn brought_in(text: &str) -> BTreeMap<String, String> {
    let mut names = BTreeMap::new();
    for part in text.split("ghost use ").skip(1) {
        let import = part.split(';').next().unwrap_or_default();
        let (module, rest) = import.split_once(".{").unwrap_or_default();
        let (listed, _) = rest.split_once('}').unwrap_or_default();
        for name in listed.split(',').map(str::trim).filter(|name| !name.is_empty()) {
            names.insert(name.to_string(), module.trim().to_string());
        }
    }
    names
}

/// A function's result, its `requires` and its `ensures`, which stand between its parameters and its body.
fn clauses(mut rest: &str) -> (String, Vec<String>, Vec<String>) {
    let (mut result, mut requires, mut ensures) = (None, Vec::new(), Vec::new());
    while let Some((words, block)) = rest.split_once('{') {
        let at = |word: &str| words.split_whitespace().position(|w| w == word);
        let clause = at("requires").or(at("ensures"));
        let before = words.split_whitespace().take(clause.unwrap_or(usize::MAX));
        result.get_or_insert(folded(&before.collect::<Vec<_>>().join(" ")));
        if clause.is_none() {
            break;
        }
        let after_block = after(block, '{', '}');
        let clause = folded(&rest[..rest.len() - after_block.len()]);
        let from = clause.find("requires").into_iter().chain(clause.find("ensures")).min();
        let list = if at("requires").is_some() { &mut requires } else { &mut ensures };
        list.push(clause[from.unwrap_or(0)..].to_string());
        rest = after_block;
    }
    (result.unwrap_or_default(), requires, ensures)
}

fn folded(text: &str) -> String {
    text.split_whitespace().collect::<Vec<_>>().join(" ")
}

fn listed(folder: &Path) -> io::Result<Vec<PathBuf>> {
    let mut paths = Vec::new();
    for entry in fs::read_dir(folder)? {
        paths.push(entry?.path());
    }
    paths.sort();
    Ok(paths)
}

/// The files of code in a folder and below it.
fn sources(folder: &Path) -> io::Result<Vec<PathBuf>> {
    let mut files = Vec::new();
    for path in listed(folder)? {
        if path.is_dir() {
            files.extend(sources(&path)?);
        } else if path.extension().is_some_and(|extension| extension == "rt") {
            files.push(path);
        }
    }
    Ok(files)
}

/// The last name of a path, without its ending.
fn name_of(path: &Path) -> String {
    path.file_stem().unwrap_or_default().to_string_lossy().into_owned()
}

/// The code alone, its lines in their places, so that a comment can't pass for a contract. Nothing
/// in a literal begins a comment.
fn without_comments(text: &str) -> String {
    let (mut code, mut rest) = (String::new(), text);
    while let Some(first) = rest.chars().next() {
        let is_comment = rest.starts_with("//") || rest.starts_with("/*");
        let (part, after) = rest.split_at(length_of_part(rest));
        if is_comment {
            code.extend(part.matches('\n'));
        } else {
            code.push_str(part);
        }
        debug_assert!(part.len() >= first.len_utf8());
        rest = after;
    }
    code
}

/// How many bytes a comment, a literal or else one character takes that a text begins with.
fn length_of_part(text: &str) -> usize {
    let to = |from: usize, end: &str| text[from..].find(end).map(|at| from + at);
    if text.starts_with("//") {
        return to(0, "\n").unwrap_or(text.len());
    }
    if text.starts_with("/*") {
        return to(2, "*/").map_or(text.len(), |at| at + 2);
    }
    if text.starts_with('"') {
        return closed_by(text, '"');
    }
    if text.starts_with("b'") {
        return 1 + closed_by(&text[1..], '\'');
    }
    text.chars().next().map_or(0, char::len_utf8)
}

/// How many bytes a literal takes, from its quote to the next that no backslash stands before.
fn closed_by(text: &str, quote: char) -> usize {
    let mut escaped = false;
    for (at, character) in text.char_indices().skip(1) {
        if !escaped && character == quote {
            return at + character.len_utf8();
        }
        escaped = !escaped && character == '\\';
    }
    text.len()
}

/// The public functions of a text: where each name begins, and the name.
fn public(text: &str) -> Vec<(usize, &str)> {
    let heads = text.match_indices("fn ").filter(|(at, _)| is_public(&text[..*at]));
    let names = heads.map(|(at, head)| {
        let start = at + head.len();
        let end = text[start..].find(|c: char| !c.is_alphanumeric() && c != '_');
        (start, &text[start..end.map_or(text.len(), |end| start + end)])
    });
    names.collect()
}

fn is_public(before: &str) -> bool {
    let is_word = before.ends_with(char::is_whitespace);
    let word = before.split_whitespace().rev().find(|word| !QUALIFIERS.contains(word));
    is_word && word == Some("pub")
}

/// `cluster::sets::within` for `within` in `crates/cluster/src/sets.rt`.
fn path_of(room: &str, src: &Path, file: &Path, name: &str) -> String {
    let below = file.strip_prefix(src).unwrap_or(file).with_extension("");
    let modules = below.iter().map(|part| part.to_string_lossy()).filter(|part| part != "lib");
    let mut path = room.to_string();
    for module in modules {
        path = format!("{path}::{module}");
    }
    format!("{path}::{name}")
}

/// A function's parameters, and what follows them.
fn parameters(text: &str) -> (&str, &str) {
    let (_, inside) = text.split_once('(').unwrap_or_default();
    let rest = after(inside, '(', ')');
    (&inside[..inside.len() - rest.len()], rest)
}

/// What follows the bracket that closes one opened before the text.
fn after(text: &str, open: char, close: char) -> &str {
    let mut depth = 1;
    for (at, character) in text.char_indices() {
        if character == open {
            depth += 1;
        } else if character == close {
            depth -= 1;
        }
        if depth == 0 {
            return &text[at + close.len_utf8()..];
        }
    }
    ""
}

