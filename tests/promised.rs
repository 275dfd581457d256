//! What public functions promise, as a table, and whether the rows of `docs/PROMISES.md` agree with it.

use crate::publics::Public;
use std::collections::BTreeSet;
use std::path::Path;

/// A line for each function's signature, one for each of its clauses, and one for the homes of the
/// names in them.
pub fn table(publics: &[Public]) -> String {
    let mut table = String::new();
    for public in publics {
        let Public { path, parameters, result, requires, ensures, .. } = public;
        table += &format!("{path}({parameters} {result}\n");
        for clause in requires.iter().chain(ensures) {
            table += &format!("    {clause}\n");
        }
        let homes = names_in(public).into_iter().map(|name| {
            let home = &public.names[name];
            format!("{name} of {home}")
        });
        let homes: Vec<String> = homes.collect();
        if !homes.is_empty() {
            table += &format!("    where {}\n", homes.join(", "));
        }
    }
    table
}

/// The names that a function's clauses use of those that its file brings in: a word, or what is
/// projected in one, as `s` in `s.log`. An operator is used where what stands about its places does.
fn names_in(public: &Public) -> BTreeSet<&str> {
    let clauses = public.requires.iter().chain(&public.ensures);
    let words = clauses.flat_map(|c| c.split([' ', '(', ')', '{', '}', ';', ',']));
    let words: BTreeSet<&str> = words.filter_map(|word| word.split('.').next()).collect();
    let used = |name: &str| name.split('◌').filter(|part| !part.is_empty()).all(|part| words.contains(part));
    public.names.keys().map(String::as_str).filter(|name| used(name)).collect()
}

/// Those of them that a room of ours defines.
fn definitions_in(public: &Public) -> BTreeSet<&str> {
    let room = |name: &str| public.names[name].split('.').nth(1).unwrap_or_default();
    let ours = |name: &&str| Path::new("crates").join(room(name)).is_dir();
    names_in(public).into_iter().filter(ours).collect()
}

/// What is wrong with a function's row, in its room's section.
pub fn lacks_in_row(public: &Public, promises: &str) -> Vec<String> {
    let room = &public.room;
    let is_named = |names: BTreeSet<&str>| {
        names.into_iter().any(|name| public.path.ends_with(&format!("::{name}")))
    };
    let (_, below) = promises.split_once(&format!("\n## {room}\n")).unwrap_or_default();
    let section = below.split("\n## ").next().unwrap_or_default();
    let rows: Vec<&str> = section
        .lines()
        .filter(|line| line.starts_with('|') && is_named(quoted(cell(line, 1))))
        .collect();
    let [row] = rows[..] else {
        return vec![format!("has {} rows in its room's section", rows.len())];
    };
    let (told, made_of) = (quoted(cell(row, 2)), definitions_in(public));
    let listed = |names: BTreeSet<&str>| names.into_iter().collect::<Vec<_>>().join(", ");
    if told == made_of || quoted(cell(row, 1)).len() > 1 && told.is_superset(&made_of) {
        return Vec::new();
    }
    let (told, made_of) = (listed(told), listed(made_of));
    vec![format!("is told to be {told}, and its `ensures` is made of {made_of}")]
}

fn cell(row: &str, number: usize) -> &str {
    row.split('|').nth(number).unwrap_or_default()
}

/// What stands between backquotes.
fn quoted(text: &str) -> BTreeSet<&str> {
    text.split('`').skip(1).step_by(2).collect()
}
