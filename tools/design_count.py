#!/usr/bin/env python3
"""Counts the places of docs/DESIGN-PASS.md's points in crates/*/src: tools/design_count.py [-v] [COMMIT]

Without a commit it reads the files as they are. With -v it prints each place."""
import re
import subprocess
import sys
from glob import glob

LENT = ("names", "types", "sets", "values", "heads", "slots")


def sources(commit):
    if commit is None:
        for path in sorted(glob("crates/*/src/*.rt")):
            yield path, open(path).read()
        return
    listed = subprocess.run(["git", "ls-tree", "-r", "--name-only", commit, "crates"], capture_output=True, text=True, check=True)
    for path in listed.stdout.split():
        if re.match(r"crates/[^/]+/src/.*\.rt$", path):
            shown = subprocess.run(["git", "show", f"{commit}:{path}"], capture_output=True, text=True, check=True)
            yield path, shown.stdout


def lines_with(text, pattern):
    return [(text.count("\n", 0, m.start()) + 1, m.group(0).strip().split("\n")[0]) for m in re.finditer(pattern, text, re.M)]


def functions(text):
    """Each function with the names of its parameters."""
    for m in re.finditer(r"\bfn (\w+)(?:<[^(]*?>)?\(((?:[^()]|\([^()]*\))*)\)", text):
        names = [p.split(":")[0].strip() for p in m.group(2).split(",") if ":" in p]
        yield text.count("\n", 0, m.start()) + 1, m.group(1), names


def enums_like_result(text):
    for m in re.finditer(r"enum (\w+) \{([^}]*)\}", text):
        if re.search(r"^\s*(Nothing|Nobody|Other|Refused?|Halted|Stop|Wrong)\b", m.group(2), re.M):
            yield text.count("\n", 0, m.start()) + 1, "enum " + m.group(1)


def flags_beside(text):
    for m in re.finditer(r"struct (\w+) \{([^}]*)\}", text):
        if re.search(r": bool,|fault: u8|number: u8|verdict: Verdict|told: Told", m.group(2)) and m.group(2).count(":") > 1:
            yield text.count("\n", 0, m.start()) + 1, "struct " + m.group(1)


def travelling(text, wanted):
    for line, name, parameters in functions(text):
        if wanted(set(parameters), len(parameters)):
            yield line, "fn " + name


POINTS = [
    ("1  enums of the shape of Option or Result", enums_like_result),
    ("1  a flag or a refusal's number beside a value, in a struct", flags_beside),
    ("1  numbers for kinds: rel, sec, cur, kind, fault or tag as a parameter, field or local", lambda t: lines_with(t, r"\b(rel|sec|cur|kind|fault|tag): u(8|64)\b")),
    ("1  numbers that stand for nothing, as a comment says ('.. for none', '255 for ..', '255 where ..')", lambda t: lines_with(t, r"^\s*//.*\b(0|5|6|64|255) (for|where it|where none|where there)\b.*$")),
    ("1  refusals by number in code", lambda t: lines_with(t, r"\b(Refuse|Refused|Wrong|Halted|Stop|Err|refused)\((\d+)\b")),
    ("2  functions named by a size", lambda t: lines_with(t, r"\bfn \w*[a-z_](8|16|32|64)\(")),
    ("3  while and loop", lambda t: lines_with(t, r"^\s*(while|loop)\b.*")),
    ("3  of these, by an index or a count", lambda t: lines_with(t, r"^\s*while (\w+ <=? [\w.()]+( as \w+\))?|0 < (left|i|e)) \{")),
    ("4  if .. {} else {", lambda t: lines_with(t, r"\{\} else \{")),
    ("4  return true or return false", lambda t: lines_with(t, r"^\s*return (true|false);")),
    ("4  a field given by its own name, as x: x", lambda t: lines_with(t, r"\b(\w+): \1,")),
    ("4  a field copied into a local before its use", lambda t: lines_with(t, r"^\s*let (now|on|control|u|t|m|g|v|k|n|a|c|i|threads|counts|told|key|kind|body|bytes|used|bound|state|env) = \w+(\.\w+)+;")),
    ("5  parameters that travel together: a job's tables", lambda t: travelling(t, lambda s, n: len(s & set(LENT)) >= 5)),
    ("5  the same: heads and slots, without the other tables", lambda t: travelling(t, lambda s, n: {"heads", "slots"} <= s and len(s & set(LENT)) < 5)),
    ("5  the same: anc, types, sets", lambda t: travelling(t, lambda s, n: {"anc", "types", "sets"} <= s)),
    ("5  the same: the store's tables", lambda t: travelling(t, lambda s, n: {"pairs", "bindings"} <= s)),
    ("5  functions of six parameters or more", lambda t: travelling(t, lambda s, n: n >= 6)),
    ("6  a buffer with its length beside it", lambda t: lines_with(t, r"^\s*pub (len|length): usize,|out: &mut \[u8; SCRATCH\]")),
    ("7  a bool or a number that picks what is done", lambda t: lines_with(t, r"^\s*(rel|sec|run|divides|sum|is_sum|first): (u8|bool),|\((rel|is_sum|run|sec): (u8|bool)")),
]


def main():
    arguments = [a for a in sys.argv[1:] if a != "-v"]
    texts = list(sources(arguments[0] if arguments else None))
    for title, find in POINTS:
        places = [(path, line, what) for path, text in texts for line, what in find(text)]
        print(f"{len(places):4} {title}")
        if "-v" in sys.argv:
            for path, line, what in places:
                print(f"       {path}:{line}: {what[:110]}")


main()
