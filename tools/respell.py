#!/usr/bin/env python3
"""Spells the repository's own names as today's Rattle does: words in snake case, types and modules in camel case.

usage: tools/respell.py [--list]       at the top of the repository, once, after port.py

It turns each name that a specs/ or a proofs/ file of the repository declares (definitions, lemmas, fields, constructors, variables), where those files and the clauses of src/ say it. Names of the kit,
names that Rattle makes of the code, Rust's own names, strings and comments stay; a comment's name in backticks is turned. With --list it writes nothing, and prints each name with its new one.
"""
import collections
import os
import re
import sys

NAME = r"[^\s(){}.;,@\"«»]+"
CHAIN = re.compile(rf"{NAME}(?:\.{NAME})*")
# Names that a definition in camel case would meet: lemmas, and two of one crate each, since other crates have functions of those names.
LEMMAS = ("last_entry", "bound_all", "same_effect", "below_by", "in_head")
OF_ONE_CRATE = (("crates/tree/", "set_word"), ("crates/print/", "ran_line"))
MADE = re.compile(r"/proofs/.*/(Proof|Answers|Invariants)\.antt$")
DECLARED = re.compile(rf"(?m)^ *(?:(?:pub|abbrev|unfoldable|field|constructor) +)*((?:{NAME} +)*{NAME})(?: *\{{[^{{}}\n]*\}}| *\([^()\n]*\))* *:(?=\s)")


def snake(name):
    # A prime, an arrow or an index at either end stays where it is.
    words = re.sub(r"(?<=[a-z0-9])[A-Z](?=[a-z])", lambda m: "_" + m[0].lower(), name)
    words = re.sub(r"(?<=[a-z0-9])[A-Z](?![a-z])", lambda m: "_" + m[0].lower(), words)
    return re.sub(r"(?<=[\w'?→≡≢◌])-(?=[\w→←?◌])", "_", words)


def is_old(name):
    if re.match(r"[A-Z]", name) and "-" not in name:
        return False
    if re.match(r"0x|\d", name):
        return False
    return snake(name) != name


def files():
    for folder, dirs, names in os.walk("crates"):
        dirs[:] = sorted(d for d in dirs if d != "out")
        for f in sorted(names):
            if f.endswith((".antt", ".rt")):
                yield os.path.join(folder, f)


def bare(text):
    return re.sub(r"--.*", "", text)


def kit_names(text, own):
    """The names that a file has from the kit, and the other names of modules that it uses."""
    names, heads = set(), {}
    for m in re.finditer(r"(?m)^ *(?:pub )?(?:ghost )?use ([^\s;{]+?)(?:\.\{([^}]*)\})?(?: as ([^\s;]+))?;?$", text):
        path, list_, alias = m.groups()
        mine = re.match(rf"Rattle\.({'|'.join(own)})\.(specs|proofs)\b", path)
        made = mine and re.search(r"\.proofs\.[a-z+]", path)
        if alias:
            heads[alias] = "mine" if mine and not made else "made"
        if list_ and (not mine or made):
            for n in list_.split(","):
                n = n.strip()
                if " as " in n:
                    continue
                names.add(n)
    return names, heads


def main(argv):
    own = sorted(d for d in os.listdir("crates") if os.path.isdir(os.path.join("crates", d, "src")))
    texts = {p: open(p, encoding="utf-8").read() for p in files()}
    declared = collections.Counter()
    for p, t in texts.items():
        if p.endswith(".antt"):
            for m in DECLARED.finditer(bare(t)):
                if MADE.search(p) and re.search(r":\s*(tie|goal)\.", t[m.end() - 2:m.end() + 12]):
                    continue
                for n in m[1].split():
                    declared[n] += 1
    old = {n: snake(n) for n in declared if is_old(n)}
    from_kit = set().union(*(kit_names(t, own)[0] for t in texts.values()))
    words = {s for n, s in old.items() if "-" not in n}
    for n, s in list(old.items()):
        # A lemma that would have its function's name.
        if "-" in n and (s in words or s in declared or s in from_kit):
            old[n] = s + "_lem"
    for n in LEMMAS:
        old[n] = n + "_lem"
    everywhere = old
    out, seen = {}, collections.defaultdict(lambda: collections.defaultdict(set))
    for p, t in texts.items():
        kit, heads = kit_names(t, own)
        old = everywhere | {n: n + "_lem" for c, n in OF_ONE_CRATE if p.startswith(c)}
        rt = p.endswith(".rt")
        made = bool(MADE.search(p))

        def turn(chain):
            parts = chain.split(".")
            first = parts[0]
            done = []
            for i, n in enumerate(parts):
                new = n
                if i == 0:
                    if n in kit:
                        new = n
                    elif n in old:
                        new = old[n]
                    elif not rt and not made and is_old(n) and n not in heads:
                        new = snake(n)
                elif first in heads and heads[first] == "made":
                    new = n
                elif first == "Rattle":
                    if parts[1] in own and n in old and not (len(parts) > 3 and parts[2] == "proofs" and re.match("[a-z+]", parts[3])):
                        new = old[n]
                elif made and first in ("c", "w", "l", "g", "v", "b", "tie", "goal", "reads", "lts"):
                    new = old[n] if n in old and n in FIELDS else n
                elif n in old:
                    new = old[n]
                done.append(new)
                seen[p][new].add(n)
            return ".".join(done)

        def line(l):
            code, sep, note = l, "", ""
            if rt:
                m = re.search(r"//", l)
                if m:
                    code, sep, note = l[: m.start()], "//", l[m.end():]
                if code.count('"') >= 2:
                    return l
            else:
                m = re.search(r"(?<!\S)--(?=\s|$)", l)
                if m:
                    code, sep, note = l[: m.start()], "--", l[m.end():]
            code = CHAIN.sub(lambda m: turn(m[0]), code)
            note = re.sub(r"`([^`]+)`", lambda m: "`" + CHAIN.sub(lambda k: ".".join(old.get(x, x) for x in k[0].split(".")), m[1]) + "`", note)
            return code + sep + note

        out[p] = "\n".join(line(l) for l in t.split("\n"))
    old = everywhere
    if "--list" in argv:
        for n in sorted(old):
            print(n, old[n], declared[n])
    falls = 0
    for p in sorted(seen):
        for new, olds in sorted(seen[p].items()):
            if len(olds) > 1:
                print(f"meets: {p}: {new}: {' '.join(sorted(olds))}")
                falls += 1
    if "--list" in argv:
        return 0
    for p, t in out.items():
        if t != texts[p]:
            with open(p, "w", encoding="utf-8") as f:
                f.write(t)
    return 0


FIELDS = set()


def fields():
    """Fields of the repository's own records."""
    for p in files():
        if not p.endswith(".antt") or MADE.search(p):
            continue
        t = bare(open(p, encoding="utf-8").read())
        for m in re.finditer(r"(?ms)^ *(?:pub |abbrev |unfoldable )*record\b.*?(?=^\S|\Z)", t):
            for k in DECLARED.finditer(m[0].split("\n", 1)[-1]):
                FIELDS.update(k[1].split())


if __name__ == "__main__":
    fields()
    raise SystemExit(main(sys.argv[1:]) or 0)
