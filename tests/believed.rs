//! The definitions that a reader has to believe: all that 01's step, texts and frames, the ranges of
//! the types, what is promised of runs, the plan, a trace, the program's orders and the words of the other claims are made
//! of, found by following names through every `crates/*/specs`. Writes how many lines of each file they
//! are, and fails where they are more than it says below or a name is missing. The types that they speak
//! of, declared in `crates/*/src`, are counted apart. With `--pins` it writes instead the files that hold
//! them, the page of claims, and the files that a statement there takes a word from. The gate holds them
//! to `.ci/pinned`.

use std::collections::{BTreeMap, BTreeSet, HashMap};
use std::env;
use std::fs;
use std::io;
use std::path::{Path, PathBuf};
use std::process::ExitCode;

/// Where the following starts: a module and what it defines.
const ROOTS: [(&str, &str); 33] = [
    ("rules.Rules", "step_of"),
    ("replay.Texts", "answers"),
    ("replay.Texts", "leaves"),
    ("frames.Steps", "read_step"),
    ("frames.Steps", "write_step"),
    ("answers.Answers", "read_answer"),
    ("answers.Answers", "write_answer"),
    ("answers.Ranges", "FitsTelling"),
    ("cluster.Ranges", "Fits"),
    ("reads.Lists", "whole_list"),
    ("reads.Lists", "committed_list"),
    ("promises.Demand3", "Demand3Promised"),
    ("promises.Newest", "NewestPromised"),
    ("rules.Stamped", "Stamped"),
    ("promises.Clocks", "ClocksPromised"),
    ("saved.Saved", "save_of"),
    ("saved.Shape", "shaped"),
    ("promises.Texts", "TextsAreRuns"),
    ("promises.Texts", "RunsAreTexts"),
    ("promises.Written", "Never9Written"),
    ("promises.Written", "RefusedBeforeAStart"),
    ("promises.Written", "CarriedInTexts"),
    ("histories.Checking", "check_of"),
    ("promises.Longest", "LongestPromised"),
    ("promises.Honest", "HonestPromised"),
    ("histories.Reasons", "Because"),
    ("promises.Verdicts", "VerdictPromised"),
    ("orders.Orders", "orders_in"),
    ("plans.Making", "planned_of"),
    ("recovery.Promise", "RecoveryPromised"),
    ("recovery.Promise", "OnlyNine"),
    ("trails.Traces", "trace_of"),
    ("trails.Reading", "answers_in"),
];
/// What the claims decide completely by other definitions, so that its own need not be believed: it
/// is named, and not followed.
const DECIDED: [(&str, &str); 2] = [("loads.Loads", "load_for"), ("verdicts.Verdicts", "verdict_on")];
/// Modules that hold the words of claims and nothing else: all that they define.
const WORDS: [&str; 3] = ["steps.Reasons", "rules.Statements", "loads.Statements"];
/// What a type's module is named by, as `server_log.declared.Entry`, where its definition is its declaration.
const DECLARED: &str = ".declared.";
/// The page of claims.
const PAGE: &str = "crates/claims/proofs/Claims.antt";
/// How many lines they may be.
const MOST: usize = 1680;

/// A definition by its module, as `server_log.Entries`, and its name.
type Place = (String, String);

/// What a file of `specs` imports under which name, and the lines of each of its definitions.
#[derive(Default)]
struct Module {
    imports: HashMap<String, Place>,
    definitions: BTreeMap<String, Vec<String>>,
}

fn main() -> ExitCode {
    let read = read_modules(Path::new("crates"));
    let read = read.and_then(|modules| Ok((modules, fs::read_to_string(PAGE)?)));
    let (modules, page) = match read {
        Ok(read) => read,
        Err(error) => {
            eprintln!("believed: {error}");
            return ExitCode::FAILURE;
        }
    };
    match believed(&modules) {
        Ok(places) if env::args().nth(1).as_deref() == Some("--pins") => {
            pins(&places, &page).iter().for_each(|file| println!("{file}"));
            ExitCode::SUCCESS
        }
        Ok(places) => report(&modules, &places),
        Err((module, name)) => {
            eprintln!("believed: {module} has no {name}");
            ExitCode::FAILURE
        }
    }
}

/// The files that are pinned.
fn pins(places: &BTreeSet<Place>, page: &str) -> BTreeSet<String> {
    let mut files = BTreeSet::from([PAGE.to_string()]);
    for (module, _) in places.iter().filter(|place| !place.0.contains(DECLARED)) {
        let (room, file) = module.split_once('.').unwrap_or_default();
        files.insert(format!("crates/{room}/specs/{file}.antt"));
    }
    let statements = statements(page);
    let words: BTreeSet<&str> = statements.split(is_between).collect();
    let heads: BTreeSet<&str> = words.iter().map(|word| head(word)).collect();
    let ours = |import: &&str| Path::new("crates").join(head(import)).is_dir();
    let imports = page.lines().filter_map(|line| line.strip_prefix("use Rattle."));
    for import in imports.filter(ours) {
        let module = import.split(" as ").next().unwrap_or_default();
        let module = module.split(".{").next().unwrap_or_default();
        let path = format!("crates/{}.antt", module.replace('.', "/"));
        let is_named = match import.split_once(" as ") {
            // Its name may be a value's too, with a projection.
            Some((_, name)) => {
                let text = fs::read_to_string(&path).unwrap_or_default();
                let below = words.iter().filter_map(|word| word.strip_prefix(&format!("{name}.")));
                let mut parts = below.map(head);
                parts.any(|part| text.lines().any(|line| states(line, part)))
            }
            None => {
                let (_, names) = import.split_once(".{").unwrap_or_default();
                names.trim_end_matches('}').split(", ").any(|name| heads.contains(name))
            }
        };
        let file = module.rsplit('.').next().unwrap_or_default();
        let is_contract = file == "Reads" || file.starts_with(|c: char| c.is_lowercase());
        let is_source = module.contains(DECLARED) || is_contract;
        if is_named && !is_source {
            files.insert(path);
        }
    }
    files
}

/// Whether a line of a module begins what is named so there.
fn states(line: &str, name: &str) -> bool {
    let heads = ["pub", "abbrev", "unfoldable", "record", "data"];
    line.split_whitespace().find(|word| !heads.contains(word)) == Some(name)
}

/// The page's statements: each claim from its name to where its proof begins.
fn statements(page: &str) -> String {
    let (mut statements, mut name) = (String::new(), None);
    for line in page.lines() {
        if let Some(claim) = line.strip_prefix("pub ") {
            name = claim.split_whitespace().next();
        } else if name.is_some_and(|name| line.starts_with(&format!("{name} "))) || line.starts_with("unfolding") {
            name = None;
        }
        if name.is_some() {
            statements += line;
            statements.push('\n');
        }
    }
    statements
}

fn read_modules(crates: &Path) -> io::Result<BTreeMap<String, Module>> {
    let mut modules = BTreeMap::new();
    for folder in fs::read_dir(crates)? {
        let folder = folder?;
        let room = folder.file_name().to_string_lossy().into_owned();
        for path in files(&folder.path().join("specs")) {
            let stem = path.file_stem().unwrap_or_default().to_string_lossy();
            modules.insert(format!("{room}.{stem}"), module(&fs::read_to_string(&path)?));
        }
        for path in files(&folder.path().join("src")) {
            let stem = path.file_stem().unwrap_or_default().to_string_lossy();
            let below = if stem == "lib" { String::new() } else { format!("{stem}.") };
            for (name, lines) in declarations(&fs::read_to_string(&path)?) {
                let mut module = Module::default();
                module.definitions.insert(name.clone(), lines);
                modules.insert(format!("{room}{DECLARED}{below}{name}"), module);
            }
        }
    }
    Ok(modules)
}

/// The files of a folder, none where there is no folder.
fn files(folder: &Path) -> Vec<PathBuf> {
    let entries = fs::read_dir(folder).into_iter().flatten();
    entries.flatten().map(|entry| entry.path()).filter(|path| path.is_file()).collect()
}

/// The types that a file of code declares, each with its lines.
fn declarations(text: &str) -> Vec<(String, Vec<String>)> {
    let mut found: Vec<(String, Vec<String>)> = Vec::new();
    let mut open = false;
    for line in text.lines() {
        let head = line.strip_prefix("pub struct ").or(line.strip_prefix("pub enum "));
        if let Some(rest) = head {
            let name = rest.split(|c: char| !c.is_alphanumeric()).next().unwrap_or_default();
            found.push((name.to_string(), Vec::new()));
            open = true;
        }
        if let Some((_, lines)) = found.last_mut().filter(|_| open) {
            lines.push(line.trim().to_string());
            open = line != "}";
        }
    }
    found
}

fn module(text: &str) -> Module {
    let mut module = Module::default();
    let mut current = None;
    for line in text.lines() {
        let words = line.trim();
        if words.is_empty() || words.starts_with("--") || words.starts_with("pub mod ") {
            continue;
        }
        if let Some(import) = words.strip_prefix("use ") {
            take_import(&mut module.imports, import);
            continue;
        }
        current = defined(words).or(current);
        if let Some(name) = &current {
            let lines: &mut Vec<String> = module.definitions.entry(name.clone()).or_default();
            lines.push(words.to_string());
        }
    }
    module
}

/// `Rattle.server_log.specs.Entries.{a, b as c}`; what comes from elsewhere is not the project's.
fn take_import(imports: &mut HashMap<String, Place>, import: &str) {
    let Some(rest) = import.strip_prefix("Rattle.") else { return };
    let Some((room, rest)) = rest.split_once(".specs.") else { return };
    let Some((file, names)) = rest.split_once(".{") else { return };
    let module = format!("{room}.{file}");
    for name in names.trim_end_matches('}').split(", ") {
        let (theirs, ours) = name.split_once(" as ").unwrap_or((name, name));
        imports.insert(ours.to_string(), (module.clone(), theirs.to_string()));
    }
}

/// The name that a line begins to define.
fn defined(words: &str) -> Option<String> {
    let heads = ["abbrev pub ", "unfoldable pub ", "pub record ", "pub data ", "module "];
    let rest = heads.iter().find_map(|head| words.strip_prefix(head))?;
    rest.split_whitespace().next().map(str::to_string)
}

/// Everything that the roots are made of; a root that isn't there is the error.
fn believed(modules: &BTreeMap<String, Module>) -> Result<BTreeSet<Place>, Place> {
    let mut open: Vec<Place> = ROOTS.map(|(module, name)| (module.into(), name.into())).into();
    for words in WORDS {
        let module = modules.get(words).ok_or((words.to_string(), "such module".to_string()))?;
        open.extend(module.definitions.keys().map(|name| (words.to_string(), name.clone())));
    }
    let mut places = BTreeSet::new();
    while let Some(place) = open.pop() {
        if DECIDED.contains(&(place.0.as_str(), place.1.as_str())) {
            continue;
        }
        let module =
            modules.get(&place.0).filter(|module| module.definitions.contains_key(&place.1));
        let Some(module) = module else { return Err(place) };
        if places.insert(place.clone()) {
            let words = module.definitions[&place.1].iter().flat_map(|line| line.split(is_between));
            open.extend(words.filter_map(|word| resolved(modules, &place.0, word)));
        }
    }
    Ok(places)
}

fn is_between(character: char) -> bool {
    character.is_whitespace() || "(){};,".contains(character)
}

/// What a projection is of, as `s` in `s.log`; a word without one is itself.
fn head(word: &str) -> &str {
    word.split('.').next().unwrap_or_default()
}

/// The definition that a word in a module stands for, or what is projected there, if it is one.
fn resolved(modules: &BTreeMap<String, Module>, here: &str, word: &str) -> Option<Place> {
    let (module, word) = (&modules[here], head(word));
    if module.definitions.contains_key(word) {
        return Some((here.to_string(), word.to_string()));
    }
    let place = module.imports.get(word)?;
    let there = modules.get(&place.0)?;
    there.definitions.contains_key(&place.1).then(|| place.clone())
}

fn report(modules: &BTreeMap<String, Module>, places: &BTreeSet<Place>) -> ExitCode {
    let lines = |(module, name): &Place| modules[module].definitions[name].len();
    for (module, Module { definitions, .. }) in
        modules.iter().filter(|(_, m)| !m.definitions.is_empty())
    {
        let all: usize = definitions.values().map(Vec::len).sum();
        let some: usize = places.iter().filter(|place| place.0 == *module).map(lines).sum();
        println!("{some:4} of {all:3} lines  {module}");
    }
    let (types, definitions): (Vec<_>, Vec<_>) =
        places.iter().partition(|place| place.0.contains(DECLARED));
    let total: usize = definitions.into_iter().map(lines).sum();
    let declared: usize = types.into_iter().map(lines).sum();
    println!(
        "{total} lines of definitions have to be believed, over {declared} lines of declared types"
    );
    if total <= MOST { ExitCode::SUCCESS } else { ExitCode::FAILURE }
}
