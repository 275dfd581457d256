#!/usr/bin/env python3
"""Brings the repository's own definitions and lemmas to the spelling of today's Rattle: words in snake case.

usage: python3 tools/respell.py            rewrites crates/*/{src,specs,proofs} in place
       python3 tools/respell.py --table    prints each name and its new spelling

Types and modules keep their capitals. Names of std, of the logic, of src/ and those that Rattle makes keep theirs.
Run it once, after port.py.
"""

import os
import re
import sys
from collections import defaultdict

ROOT = os.path.join(os.path.dirname(os.path.abspath(__file__)), "..")
TOKEN = re.compile(r"[^\s(){}\[\],;.\"«»@`]+")
SIGNED = re.compile(r"^\s*((?:(?:abbrev|unfoldable|pub|axiom)\s+)*)(?:module _ .* where\s+)?([^\s(){}\[\],;.\"«»:]+)\s+:(?:\s|$)")
KEYWORDS = set("data record deriving module where use mod pub package open as unfoldable abbrev axiom unfold unfolding ruleset mutual infix infixl infixr elim let in do Type".split())
RULESET = re.compile(r"^\s*(?:pub\s+)?ruleset\s+([^\s(){}\[\],;.:]+)")
# A lemma that would have its function's name gets _lem: those that the words of specs/ don't tell, since their plain spelling was taken before.
LEMMAS = {
    "cluster.proofs.Good": ["well-formed"],
    "cluster.proofs.Masks": ["ones-in"],
    "lines.proofs.Held": ["too_long"],
    "loads.proofs.Texts": ["same_text"],
    "log.proofs.Orderly": ["in_order"],
    "recovery.proofs.Best": ["not_behind"],
    "replay.proofs.Whole": ["says_all"],
    "rules.proofs.Shut": ["leaves_all"],
    "safety.proofs.SeenMajorities": ["not_behind"],
    "traces.proofs.Keeping": ["one_more"],
}
OTHER = {"loads.proofs.Shaped": {"first_frame": "the_first_frame"}}


def new_name(n):
    """Words in snake case; a part that is a type keeps its capital."""
    parts = []
    for part in n.replace("′", "'").split("-"):
        if part[:1].isupper():
            parts.append(part)
        else:
            part = part.replace("getD", "get_or")
            parts.append(re.sub(r"(?<=[a-z0-9₀-₉])([A-Z])", lambda m: "_" + m[1].lower(), part))
    return "_".join(parts)


def plain(n):
    return not re.search(r"[A-Za-z]", n) or n in KEYWORDS


def module_of(path):
    rel = os.path.relpath(path, os.path.join(ROOT, "crates"))
    parts = rel[: -len(".antt")].split(os.sep)
    return "Rattle." + ".".join(parts)


def files(ending):
    for folder, dirs, names in os.walk(os.path.join(ROOT, "crates")):
        dirs[:] = sorted(d for d in dirs if d != "out")
        for f in sorted(names):
            if f.endswith(ending):
                yield os.path.join(folder, f)


def read(path):
    with open(path, encoding="utf-8") as f:
        return f.read()


def uncommented(line):
    return re.sub(r"(?:^|(?<=\s))--(?:\s.*)?$", "", line)


def in_prose(text, at):
    """A comment's words are English, but for names in backticks."""
    line = text[text.rfind("\n", 0, at) + 1 : at]
    start = re.search(r"(?:^|\s)(--|//)(?:\s|$)", line)
    return start and line[start.end() :].count("`") % 2 == 0


def is_walk(path):
    return os.path.basename(path) in ("Proof.antt", "Answers.antt", "Invariants.antt") and os.path.basename(os.path.dirname(path)) not in ("specs", "proofs")


def defined(text):
    """The names that a file gives a signature, a clause of its own included."""
    found = set()
    for line in text.split("\n"):
        line = uncommented(line)
        m = SIGNED.match(line) or RULESET.match(line)
        if m:
            n = m.group(m.lastindex)
            if not plain(n):
                found.add(n)
    return found


PATH_TO = re.compile(r"((?:[^\s(){}\[\],;.\"]+|\))(?:\.[^\s(){}\[\],;.\"]+)*)\.$")
USE = re.compile(r"(?m)^(\s*(?:(?:pub|ghost|unfoldable)\s+)*use\s+)(Rattle\.[^\s{};]+?)\.\{([^{}]*)\}")
USE_AS = re.compile(r"(?m)^\s*(?:(?:pub|ghost|unfoldable)\s+)*use\s+(Rattle\.[^\s{};]+?)(?:\s+as\s+([^\s;]+))?;?\s*$")


def functions_of(crate):
    found = set()
    for p in files(".rt"):
        if os.path.relpath(p, os.path.join(ROOT, "crates")).split(os.sep)[0] == crate:
            found |= set(re.findall(r"fn (\w+)", read(p)))
    return found


def own_fields():
    found = set()
    for p in files(".antt"):
        inside, depth = False, 0
        for line in read(p).split("\n"):
            line = uncommented(line)
            indent = len(line) - len(line.lstrip())
            if re.match(r"\s*(?:abbrev\s+)?(?:pub\s+)?record\b.*\bwhere\s*$", line):
                inside, depth = True, indent
            elif inside and line.strip() and indent <= depth:
                inside = False
            elif inside and SIGNED.match(line):
                found.add(SIGNED.match(line)[2])
    return found


def main(argv):
    own = {}
    for p in files(".antt"):
        own[module_of(p)] = defined(read(p)) if not is_walk(p) else set()
    turned = {m: {n: new_name(n) for n in names if new_name(n) != n} for m, names in own.items()}
    words = {new_name(n) for m, names in own.items() if ".specs." in m for n in names}
    inner = own_fields()
    for m, names in own.items():
        if ".proofs." in m:
            turned[m].update({n: new_name(n) + "_lem" for n in names - inner if "-" in n and new_name(n) in words})
    turned["Rattle.rules.proofs.Others"]["changed-by"] = "changed_by_lem"
    for m, names in LEMMAS.items():
        turned["Rattle." + m].update({n: new_name(n) + "_lem" for n in names})
    for m, names in OTHER.items():
        turned["Rattle." + m].update(names)
    # The law on what a function's contract allows is a lemma of the function's name.
    for m in turned:
        if m.endswith(".proofs.Results") and m != "Rattle.base.proofs.Results":
            functions = functions_of(m.split(".")[1])
            turned[m] = {n: new_name(n) + ("_lem" if new_name(n) in functions else "") for n in own[m]}
    if "--table" in argv:
        for m in sorted(turned):
            for n, t in sorted(turned[m].items()):
                print(m, n, t)
        return 0
    # A camel-case word is nobody's but the repository's.
    camel = {n: t for names in turned.values() for n, t in names.items() if re.search(r"[a-z0-9][A-Z]", n.split("-")[0]) and n[0].islower()}
    anywhere = {n: new_name(n) for names in own.values() for n in names if "-" in n}
    trouble = []
    fields = {n: new_name(n) for n in inner if new_name(n) != n}

    def here(module, names):
        return module in turned and {n: turned[module][n] for n in names if n in turned[module]} or {}

    def scope_of(text, module):
        scope = dict(camel)
        scope.update(turned.get(module, {}))
        aliases = {}
        for _, m, listed in USE.findall(text):
            names = [it.split(" as ")[0].strip() for it in listed.split(",")]
            # a module's file, or an item of it by a longer path
            scope.update(here(m, names))
        for m, alias in USE_AS.findall(text):
            if m in turned:
                aliases[alias or m.split(".")[-1]] = turned[m]
            if "-" in alias:
                scope[alias] = alias.replace("-", "_")
        return scope, aliases

    def respell(text, module, path):
        scope, aliases = scope_of(text, module)
        bare = "\n".join(uncommented(l) for l in text.split("\n"))
        tokens = {m[0] for m in TOKEN.finditer(bare) if bare[m.start() - 1 : m.start()] != "." and bare[m.end() : m.end() + 1] != "."}
        for n, t in scope.items():
            if n in tokens and t in tokens and not (path.endswith(".rt") or os.path.basename(path) == "Results.antt"):
                trouble.append(f"{os.path.relpath(path, ROOT)}: {n} and {t} fall together")
        out, last = [], 0
        for m in TOKEN.finditer(text):
            n = m[0]
            t = n
            path_to = PATH_TO.search(text, max(0, m.start() - 200), m.start())
            if path_to:
                if path_to[1] in aliases and n in aliases[path_to[1]]:
                    t = aliases[path_to[1]][n]
                elif not path_to[1].startswith("Rattle"):
                    t = fields.get(n, n)
            elif text[m.start() - 1 : m.start()] == "`":
                t = scope.get(n) or fields.get(n) or anywhere.get(n, n)
            elif not in_prose(text, m.start()):
                t = scope.get(n) or fields.get(n, n)
            out.append(text[last : m.start()])
            out.append(t)
            last = m.end()
        out.append(text[last:])
        return "".join(out)

    for p in list(files(".antt")):
        text = read(p)
        new = respell(text, module_of(p), p)
        if new != text:
            with open(p, "w", encoding="utf-8") as f:
                f.write(new)
    for p in list(files(".rt")):
        text = read(p)
        new = respell(text, None, p)
        if new != text:
            with open(p, "w", encoding="utf-8") as f:
                f.write(new)
    for t in trouble:
        print("look:", t)
    return 0


if __name__ == "__main__":
    raise SystemExit(main(sys.argv[1:]))
