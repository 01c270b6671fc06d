#!/usr/bin/env python3
"""Brings the repository's own names in specs/ and proofs/ to snake case.

usage: python3 tools/snake_names.py [ROOT]     once, after port.py, with ROOT the checkout (default: here)

Renamed are definitions, lemmas, constructors and fields that begin with a small letter and hold a dash or an inner capital.
Where two names would fall together, the lemma gets `_lem`, and the constructor X_told becomes X_is_told. Functions of src/, exported C names, strings and inputs keep theirs.
The names are changed in .antt files, in the clauses of .rt files, in must-fail edits and, in back quotes, in the pages.
What was renamed is written to tools/snake_names.txt as lines OLD NEW.
"""

import collections
import os
import re
import sys

ROOT = os.path.abspath(sys.argv[1] if len(sys.argv) > 1 else ".")
DECLARED = re.compile(r"^(\s*)(?:(?:pub|abbrev|unfoldable|ruleset)\s+)*([^\s:(){}λ.,;|]+)((?:\s+[^\s:(){}λ.,;|]+)*)\s+:\s")
TOKEN = re.compile(r"[^\s(){}\[\].,;λ«»\"`]+")
QUOTED = re.compile(r"`[^`\n]*`")
WORD = re.compile(r"[A-Za-z_][A-Za-z0-9_']*(?:-[A-Za-z0-9_≤≢ℕ'⊎]+)*")
MADE = re.compile(r"(invariant|decreases)-")
ODD = re.compile(r"-|[a-z0-9][A-Z]")
CAMEL = re.compile(r"\b[a-z][a-z0-9]*(?:[A-Z][A-Za-z0-9]*)+\b")


def files(*endings):
    for folder, dirs, names in os.walk(os.path.join(ROOT, "crates")):
        dirs[:] = sorted(d for d in dirs if d != "out")
        for f in sorted(names):
            if f.endswith(endings):
                yield os.path.join(folder, f)


def read(path):
    with open(path, encoding="utf-8") as f:
        return f.read()


def snake(name):
    name = re.sub(r"(?<=[a-z0-9'])([A-Z])", lambda m: "_" + m.group(1).lower(), name)
    return name.replace("-", "_")


def own_names():
    found = collections.OrderedDict()
    for p in files(".antt"):
        for line in read(p).split("\n"):
            m = DECLARED.match(line)
            if m and not line.strip().startswith("--"):
                for name in [m.group(2)] + m.group(3).split():
                    if not MADE.match(name):
                        found.setdefault(name, []).append((p, len(m.group(1))))
    return found


def renamings():
    names = own_names()
    odd = [n for n in names if re.match(r"[a-z]", n) and ("-" in n or re.search(r"[a-z0-9][A-Z]", n))]
    taken = collections.defaultdict(list)
    for n in names:
        taken[n if n not in odd else snake(n)].append(n)
    to = {}
    for new, olds in taken.items():
        definition = [old for old in olds if old in odd and "-" not in old] or [old for old in olds if old not in odd]
        for old in olds:
            plain = len(olds) == 1 or old in definition
            told = re.fullmatch(r"(\w+)_told", new)
            to[old] = new if plain else told.group(1) + "_is_told" if told else new + "_lem"
    return {a: b for a, b in to.items() if a != b}


def turn_antt(text, to):
    out = []
    for line in text.split("\n"):
        code, mark, comment = line, "", ""
        at = re.search(r"(?:^|\s)--(?:\s|$)", line)
        if at:
            code, comment = line[: at.start()], line[at.start():]
        code = TOKEN.sub(lambda m: turn_token(m, to), code)
        out.append(code + turn_words(comment, to))
    return "\n".join(out)


def turn_token(m, to):
    """A field or member keeps a name that was in snake case before, since it may be the name of a function of src/."""
    name = m.group(0)
    return to.get(name, name) if ODD.search(name) or not m.string[: m.start()].endswith(".") else name


def turn_words(text, to):
    """Comments and pages: names in back quotes, and names with an inner capital."""
    text = QUOTED.sub(lambda q: WORD.sub(lambda m: turn_word(m, to), q.group(0)), text)
    return CAMEL.sub(lambda m: to.get(m.group(0), m.group(0)), text)


def turn_word(m, to):
    return to.get(m.group(0), m.group(0)) if ODD.search(m.group(0)) else m.group(0)


def turn_rt(text, to):
    out = []
    for line in text.split("\n"):
        parts = re.split(r'("(?:[^"\\]|\\.)*")', line)
        for k in range(0, len(parts), 2):
            code, slashes, comment = parts[k].partition("//")
            code = WORD.sub(lambda m: turn_word(m, to), code)
            parts[k] = code + slashes + turn_words(comment, to)
        out.append("".join(parts))
    return "\n".join(out)


def turn_edit(text, to):
    out, antt = [], False
    for line in text.split("\n"):
        if line.startswith("file:"):
            antt = line.rstrip().endswith(".antt")
        elif line.startswith(("old:", "new:")):
            line = turn_antt(line, to) if antt else turn_rt(line, to)
        else:
            line = turn_words(line, to)
        out.append(line)
    return "\n".join(out)


def main():
    to = renamings()
    with open(os.path.join(ROOT, "tools", "snake_names.txt"), "w") as f:
        f.write("".join(f"{a} {b}\n" for a, b in sorted(to.items())))
    pages = [os.path.join(ROOT, "README.md")]
    for folder, dirs, names in os.walk(os.path.join(ROOT, "docs")):
        pages += [os.path.join(folder, f) for f in names if f.endswith(".md") and f != "PORT.md"]
    for paths, turn in ((files(".antt"), turn_antt), (files(".rt"), turn_rt), (files(".edit"), turn_edit), (pages, turn_words)):
        for p in list(paths):
            text = read(p)
            new = turn(text, to)
            if new != text:
                with open(p, "w", encoding="utf-8") as f:
                    f.write(new)
    print(f"{len(to)} names renamed; {sum(b.endswith('_lem') for b in to.values())} of them with _lem")


if __name__ == "__main__":
    main()
