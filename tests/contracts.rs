//! What each public function of `crates/*/src` promises. Each has an `ensures`, no `requires`, and a
//! law in its crate's `proofs/Results.antt` that its contract allows one result: the law has the
//! function's name and `_lem`, and speaks of the reading of that contract. Its row in
//! `docs/PROMISES.md` names the definitions that its `ensures` is made of, and no others. Fails on
//! each that lacks one of these and isn't among that paper's exceptions, and on an exception that
//! nothing needs. With `--table` it writes every public function's signature and contract instead,
//! word for word and with the homes of the names in it, for the gate to compare with what landed.

mod promised;
mod publics;

use publics::Public;
use std::collections::BTreeSet;
use std::env;
use std::fs;
use std::io;
use std::path::Path;
use std::process::ExitCode;

/// Where the exceptions stand, below the heading of that name.
const PROMISES: &str = "docs/PROMISES.md";
/// How a law speaks of a contract: of the result, or of the result and of a buffer lent by `&mut`.
const OF_RESULT: &str = "OneResult (λ x. ";
const OF_BUFFER: &str = "OneOutcome (λ x o. ";

/// A public function by its path, as `cluster::sets::within`, where it stands, and what it lacks.
struct Function {
    path: String,
    place: String,
    lacks: Vec<String>,
}

fn main() -> ExitCode {
    match run() {
        Ok(status) => status,
        Err(error) => {
            eprintln!("contracts: {error}");
            ExitCode::FAILURE
        }
    }
}

fn run() -> io::Result<ExitCode> {
    let publics = publics::functions(Path::new("crates"))?;
    if env::args().nth(1).as_deref() == Some("--table") {
        print!("{}", promised::table(&publics));
        return Ok(ExitCode::SUCCESS);
    }
    let promises = fs::read_to_string(PROMISES)?;
    let functions: Vec<Function> = publics.iter().map(|p| function(p, &promises)).collect();
    Ok(report(&functions, &exceptions(&promises)))
}

fn function(public: &Public, promises: &str) -> Function {
    let Public { room, path, .. } = public;
    let results = fs::read_to_string(format!("crates/{room}/proofs/Results.antt"));
    let results = laws_alone(&results.unwrap_or_default());
    let mut lacks = Vec::new();
    if public.ensures.is_empty() {
        lacks.push("has no `ensures`; promise what it returns".to_string());
    }
    if !public.requires.is_empty() {
        lacks.push("has a `requires`; take any argument and refuse it instead".to_string());
    }
    let form = if public.parameters.contains("&mut") { OF_BUFFER } else { OF_RESULT };
    if !has_law(&results, path, form) && !has_walked_law(&results, path) {
        lacks.push(law_wanted(room, path, form));
    }
    lacks.extend(promised::lacks_in_row(public, promises));
    Function { path: path.clone(), place: public.place.clone(), lacks }
}

/// A file of laws without its comments: `--` to the line's end, and `{-` to `-}`, one in another too.
fn laws_alone(text: &str) -> String {
    let (mut laws, mut rest, mut depth) = (String::new(), text, 0);
    while let Some(first) = rest.chars().next() {
        let opens = rest.starts_with("{-");
        let closes = depth > 0 && rest.starts_with("-}");
        if depth == 0 && rest.starts_with("--") {
            rest = &rest[rest.find('\n').unwrap_or(rest.len())..];
        } else if opens || closes {
            depth = if opens { depth + 1 } else { depth - 1 };
            rest = &rest[2..];
        } else {
            if depth == 0 {
                laws.push(first);
            }
            rest = &rest[first.len_utf8()..];
        }
    }
    laws
}

/// A function's name by its path, and the line that brings the reading of its contract. Its law has that name and `_lem`.
fn law_of(path: &str) -> (String, String) {
    let (room, below) = path.split_once("::").unwrap_or(("", path));
    let name = below.rsplit("::").next().unwrap_or(below).to_string();
    let module = format!("Rattle.{room}.proofs.{}.Reads", below.replace("::", "."));
    let import = format!("use {module} as {name}_reads");
    (name, import)
}

fn has_law(results: &str, path: &str, form: &str) -> bool {
    let (name, import) = law_of(path);
    let mut laws = results.split("\npub ");
    let law = laws.find(|law| law.starts_with(&format!("{name}_lem : "))).unwrap_or_default();
    let statement = law.split(&format!("\n{name}_lem ")).next().unwrap_or_default();
    let speaks = statement.contains(&format!("{form}{name}_reads.Learnt "));
    speaks && results.lines().any(|line| line == import)
}

/// Whether there are both laws of a function over a lent struct or a slice of structs, whose contract has no
/// reading: its clauses come to facts about what is allowed, and each of these allows one value.
fn has_walked_law(results: &str, path: &str) -> bool {
    let (room, below) = path.split_once("::").unwrap_or(("", path));
    let (name, _) = law_of(path);
    let import = format!("use Rattle.{room}.specs.contracts.{} as the_{name}", below.replace("::", "."));
    let law = |start: &str| {
        let law = results.split("pub ").find(|law| law.starts_with(start)).unwrap_or_default();
        law.split("\n\n").next().unwrap_or_default()
    };
    let says = law(&format!("{name}_says : "));
    let facts = says.lines().find_map(|line| line.trim_start().strip_prefix("≡ ")).unwrap_or_default();
    let of_fact = |part: &str| part.split([' ', ')']).next().unwrap_or_default().to_string();
    let allowed: Vec<String> = facts.split("fact 𝓤 (").skip(1).map(of_fact).collect();
    let decides = law(&format!("{name}_lem : ")).replace('\n', " ") + " ";
    results.lines().any(|line| line == import)
        && says.contains(&format!("the_{name}.clauses "))
        && !allowed.is_empty()
        && allowed.iter().all(|fact| fact.starts_with("Allowed") && decides.contains(&format!("OneResult {fact} ")))
}

fn law_wanted(room: &str, path: &str, form: &str) -> String {
    let (name, import) = law_of(path);
    format!(
        "has no law about its contract; state one in crates/{room}/proofs/Results.antt as \
         `pub {name}_lem : .. → {form}{name}_reads.Learnt ..)`, with `{import}`"
    )
}

/// The paths that the list below the heading begins its items with.
fn exceptions(promises: &str) -> BTreeSet<&str> {
    let (_, below) = promises.split_once("\n## Exceptions\n").unwrap_or_default();
    let section = below.split("\n## ").next().unwrap_or_default();
    let items = section.lines().filter_map(|line| line.strip_prefix("- `"));
    items.filter_map(|item| item.split('`').next()).collect()
}

fn report(functions: &[Function], excepted: &BTreeSet<&str>) -> ExitCode {
    let (mut findings, mut unneeded) = (Vec::new(), excepted.clone());
    for Function { path, place, lacks } in functions.iter().filter(|f| !f.lacks.is_empty()) {
        unneeded.remove(path.as_str());
        if !excepted.contains(path.as_str()) {
            let told = |lack| format!("{path} ({place}) {lack}, or except it in {PROMISES}");
            findings.extend(lacks.iter().map(told));
        }
    }
    for path in unneeded {
        findings.push(format!(
            "{PROMISES} excepts {path}, which lacks nothing or isn't there; take the item out"
        ));
    }
    for finding in &findings {
        eprintln!("contracts: {finding}");
    }
    let all = functions.len();
    if findings.is_empty() {
        let except = excepted.len();
        println!(
            "{all} public functions, each but {except} with a contract that decides its result"
        );
        return ExitCode::SUCCESS;
    }
    println!("{all} public functions, findings: {}", findings.len());
    ExitCode::FAILURE
}
