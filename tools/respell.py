#!/usr/bin/env python3
"""Spells this repository's own definitions and lemmas as the installed Rattle's library does, by the table respell.tsv beside this file.

usage: python3 tools/respell.py [FOLDER]          rewrites the repository in FOLDER (this one, if left out), once, after port.py
       python3 tools/respell.py --table [FOLDER]  writes the table anew from the texts in FOLDER

The rule of the table: words in snake case (`wholeRoot` is `whole_root`), no dot within a name (`c0·5` is `c0_5`), and a dash only between two
names of definitions (`length-fill` stays, `same-less` is `same_less`). Types, modules, functions of src/, exported C names and strings keep
their spelling, and so do the names that the check makes of a function's steps and goals. A file that imports a name of the table from a library
keeps it. It reads .antt, .rt and .edit files, and in .md files what stands between backticks.
"""

import collections
import os
import re
import sys

HERE = os.path.dirname(os.path.realpath(__file__))
TABLE = os.path.join(HERE, "respell.tsv")
TOKEN = re.compile(r"[^\s(){}\[\].;,@\"«»`:]+(?:·[^\s(){}\[\].;,@\"«»`:]+)*")
DECLARED = re.compile(r"(?m)^ *((?:(?:pub|abbrev|unfoldable|record|data) +)*)([^\s(){}.;,@\"«»]+)(?: \{[^{}\n]*\})*(?: \([^\n]*?\))* :(?= |$)([^\n]*)")
CAMEL = re.compile(r"[a-z][a-z0-9]*(?:[A-Z][A-Za-z0-9]*)+(?:[-·_'₀-₉A-Za-z0-9]*)")
# Words of the library that a dash may join to another name.
LIBRARY = set("length get_or take drop set append map replicate add mul sub div mod pow min max suc zero one cons le lt eq not and or round neg cut of_bits to_bits".split())
OWN = re.compile(r"Rattle\.(\w+)\.")


def crates(root):
    return {d for d in os.listdir(os.path.join(root, "crates")) if os.path.isdir(os.path.join(root, "crates", d))}


def files(root, *ends):
    for folder, dirs, names in os.walk(root):
        dirs[:] = sorted(d for d in dirs if d not in ("out", ".git", "target", "tools"))
        for f in sorted(names):
            if f.endswith(ends):
                yield os.path.join(folder, f)


def is_function(path):
    """Whether a file is a function's own proof, as proofs/m/f/Proof.antt."""
    return bool(re.search(r"/proofs/.+/(Proof|Answers|Invariants)\.antt$", path))


def snake(name):
    name = re.sub(r"(?<=[a-z0-9])([A-Z])", lambda m: "_" + m[1].lower(), name)
    return re.sub(r"(?<![A-Za-z])[A-Z](?![a-z])", lambda m: m[0].lower(), name)


def table(root):
    declared = collections.defaultdict(set)
    definitions, functions = set(LIBRARY), set()
    for p in files(os.path.join(root, "crates"), ".rt"):
        functions |= set(re.findall(r"\bfn (\w+)", open(p).read()))
    camel = set()
    for p in files(os.path.join(root, "crates"), ".antt"):
        text = re.sub(r"--.*", "", open(p).read())
        for m in DECLARED.finditer(text):
            marks, name, rest = m.groups()
            if is_function(p) and ("tie." in rest or "statement" in rest):
                continue
            declared[name].add(p)
            if "abbrev" in marks or "unfoldable" in marks or "record" in marks:
                definitions.add(name)
        camel |= {w for w in TOKEN.findall(text) if CAMEL.fullmatch(w) and w[0].islower()}
    rows = {}
    for name in sorted(set(declared) | camel):
        if name[0].isupper() and "-" not in name:
            continue
        new = name.replace("·", "_")
        parts = new.split("-")
        old = name.replace("·", "_").split("-")
        out = parts[0]
        for a, b, x in zip(old, old[1:], parts[1:]):
            joined = a in definitions and b in definitions or a[:1].isupper() or b[:1].isupper()
            out += ("-" if joined else "_") + x
        new = "-".join(p if p[:1].isupper() else snake(p) for p in out.split("-"))
        if new != name:
            rows[name] = new
    # Where two names would fall together, or a lemma would meet a name that its file has from a library, the lemma gets `_lem`.
    taken = collections.defaultdict(list)
    for name in set(declared) | camel:
        taken[rows.get(name, name)].append(name)
    lemmas = {old for olds in taken.values() if len(olds) > 1 for old in olds if "-" in old or (old == rows.get(old, old) and old not in functions and old not in definitions)}
    for p in files(os.path.join(root, "crates"), ".antt"):
        text = open(p).read()
        brought = imported(text, crates(root))
        lemmas |= {w for w in set(TOKEN.findall(text)) & set(rows) if rows[w] in brought and "-" in w}
    for old in sorted(lemmas):
        rows[old] = rows.get(old, old) + "_lem"
    # Fields of records, which meet no other name, and a lemma that does not.
    rows.update({"by-frame": "by_frame", "of-station": "of_station", "held_by": "held_by_lem"})
    rows.pop("position_in", None)
    with open(TABLE, "w") as f:
        for name in sorted(rows):
            f.write(f"{name}\t{rows[name]}\n")
    print(f"{len(rows)} rows")
    return rows, functions


def imported(text, own):
    """The names that a file's use lines bring in from a library."""
    found = set()
    for m in re.finditer(r"\buse ([^\s;{]+?)\.?(?:\{([^}]*)\})?(?:;|\s|$)", text):
        steps = OWN.match(m[1] + ".")
        if steps and steps[1] in own:
            continue
        names = m[2].split(",") if m[2] else [m[1].split(".")[-1]]
        found |= {n.split(" as ")[-1].strip() for n in names}
    return found


def turned(text, rows, kept, of_function, functions):
    def one(m):
        w = m[0]
        if w in kept or w not in rows:
            return w
        before = text[m.start() - 1 : m.start()]
        if w in functions and "." in (before, text[m.end() : m.end() + 1]):
            return w
        if of_function and before == "." and (w.replace("-", "_") in functions or not w[0].islower()):
            return w
        if of_function and text[max(0, m.start() - 4) : m.start()] == "tie.":
            return w
        return rows[w]

    return TOKEN.sub(one, text)


def ghost_turned(line, rows, kept, functions):
    """A line of Rust: strings stay, and a comment's plain words; a name that ends in _lem is no name of Rust's."""
    if re.match(r"\s*//", line):
        return re.sub(r"`[^`]+`", lambda m: turned(m[0], rows, kept, False, functions), line)
    mine = {k: v for k, v in rows.items() if not re.fullmatch(r"\w+", k) or not k.islower()}
    parts = re.split(r"(b?\"(?:[^\"\\\\]|\\\\.)*\"|//.*)", line)
    return "".join(p if i % 2 else turned(p, mine, kept, False, functions) for i, p in enumerate(parts))


def main(argv):
    if argv[:1] == ["--table"]:
        table(argv[1] if len(argv) > 1 else os.path.dirname(HERE))
        return 0
    root = argv[0] if argv else os.path.dirname(HERE)
    rows = dict(line.rstrip("\n").split("\t") for line in open(TABLE))
    own = crates(root)
    functions = set()
    for p in files(os.path.join(root, "crates"), ".rt"):
        functions |= set(re.findall(r"\bfn (\w+)", open(p).read()))
    changed = 0
    for p in files(root, ".antt", ".rt", ".edit", ".md"):
        if os.path.basename(p) == "PORT.md":
            continue
        text = open(p).read()
        if p.endswith(".md"):
            new = re.sub(r"`[^`\n]+`", lambda m: turned(m[0], rows, set(), False, functions), text)
        elif p.endswith(".rt"):
            kept = imported(text, own)
            new = "\n".join(ghost_turned(l, rows, kept, functions) for l in text.split("\n"))
        else:
            mine = is_function(p)
            kept = imported(text, own)
            if mine:
                kept |= {m[2] for m in DECLARED.finditer(text) if "tie." in m[3] or "statement" in m[3]}
            new = turned(text, rows, kept, mine, functions)
        if new != text:
            with open(p, "w") as f:
                f.write(new)
            changed += 1
    print(f"{changed} files")
    return 0


if __name__ == "__main__":
    raise SystemExit(main(sys.argv[1:]) or 0)
