//! Whether every edit of `crates/*/must-fail` and `crates/*/tried` still applies: each `old:` stands
//! once in its file, where the pairs before it have been made. Names each that doesn't; the last
//! line counts them.

use std::collections::BTreeMap;
use std::fs;
use std::io;
use std::path::{Path, PathBuf};
use std::process::ExitCode;

fn main() -> ExitCode {
    let edits = match edits(Path::new("crates")) {
        Ok(edits) => edits,
        Err(error) => {
            eprintln!("edits: {error}");
            return ExitCode::FAILURE;
        }
    };
    let mut failed = 0;
    for edit in &edits {
        if let Err(why) = applies(edit) {
            eprintln!("edits: {} doesn't apply: {why}", edit.display());
            failed += 1;
        }
    }
    println!("{} passed, {failed} failed", edits.len() - failed);
    if failed == 0 { ExitCode::SUCCESS } else { ExitCode::FAILURE }
}

fn edits(crates: &Path) -> io::Result<Vec<PathBuf>> {
    let mut edits = Vec::new();
    for room in fs::read_dir(crates)? {
        for kind in ["must-fail", "tried"] {
            let folder = room.as_ref().map(|room| room.path().join(kind)).unwrap_or_default();
            let files = fs::read_dir(folder).into_iter().flatten();
            edits.extend(files.flatten().map(|file| file.path()));
        }
    }
    edits.sort();
    Ok(edits)
}

/// Makes an edit's pairs one after the other; a `file:` holds for the pairs after it.
fn applies(edit: &Path) -> Result<(), String> {
    let room = edit.parent().and_then(Path::parent).unwrap_or(Path::new("."));
    let text = fs::read_to_string(edit).map_err(|error| error.to_string())?;
    let mut files: BTreeMap<&str, String> = BTreeMap::new();
    let (mut file, mut old, mut pairs) = ("", None, 0);
    for line in text.lines() {
        let (word, rest) = line.split_once(": ").unwrap_or((line.trim_end_matches(':'), ""));
        match word {
            "file" => {
                file = rest;
                if !files.contains_key(file) {
                    let whole = fs::read_to_string(room.join(file));
                    files.insert(file, whole.map_err(|_| format!("there is no {file}"))?);
                }
            }
            "old" => old = Some(rest),
            "new" => {
                let old = old.take().ok_or("a 'new:' has no 'old:' before it")?;
                let whole = files.get_mut(file).ok_or("no 'file:' stands before")?;
                match whole.matches(old).count() {
                    1 => *whole = whole.replacen(old, rest, 1),
                    n => return Err(format!("'{old}' stands {n} times in {file}")),
                }
                pairs += 1;
            }
            _ => return Err(format!("the line '{line}' is none of an edit")),
        }
    }
    if pairs > 0 && old.is_none() { Ok(()) } else { Err("it has no whole pair".to_string()) }
}
