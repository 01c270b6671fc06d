#!/usr/bin/env python3
"""Counts the places of docs/DESIGN-PASS.md, point by point, in crates/*/src and crates/*/proofs of the tree in the working folder.

    python3 tools/count_places.py            the counts
    python3 tools/count_places.py -v         and each place
"""
import collections
import glob
import os
import re
import sys

SOURCES = {p: open(p, encoding="utf-8").read() for p in sorted(glob.glob("crates/*/src/*.rt"))}


def line_of(text, at):
    return text.count("\n", 0, at) + 1


def lines_with(pattern):
    """The lines of the sources that a pattern is found in."""
    found = []
    for path, text in SOURCES.items():
        for number, line in enumerate(text.split("\n"), 1):
            if re.search(pattern, line):
                found.append(f"{path}:{number}: {line.strip()}")
    return found


def small_enums():
    """Enums of at most three variants that are no error enum."""
    found = []
    for path, text in SOURCES.items():
        for m in re.finditer(r"^(?:pub )?enum (\w+)(?:<[^>]*>)? \{\n(.*?)^\}", text, re.M | re.S):
            variants = [v for v in m.group(2).split("\n") if re.match(r"    [A-Z]\w*[,( {]", v)]
            if len(variants) <= 3 and m.group(1) != "Refusal":
                found.append(f"{path}:{line_of(text, m.start())}: enum {m.group(1)}")
    return found


def functions():
    """Name, parameters and clauses of each function, with its place."""
    for path, text in SOURCES.items():
        for m in re.finditer(r"^( *)(?:pub )?(?:extern \"C\" )?fn (\w+)(?:<[^>\n]*>)?\(([^)]*)\)(?: -> [^\n{]*)?(?: \{|\n(.*?)\n\1\{$)", text, re.M | re.S):
            yield f"{path}:{line_of(text, m.start())}: {m.group(2)}", m.group(3), m.group(4) or ""


def facts(clauses):
    """The facts of the `requires`, each once, without the names that they are about."""
    found = set()
    for m in re.finditer(r"requires(?: \w+)? \{(.*?)\}\s*(?=requires|ensures|$)", clauses, re.S):
        for fact in re.split(r" × ", " ".join(m.group(1).split())):
            fact = fact.strip()
            while fact.startswith("(") and fact.endswith(")"):
                fact = fact[1:-1].strip()
            found.add(fact)
    return found


def repeated_facts():
    """Facts about a value that the `requires` of three or more functions of one crate state."""
    users = collections.defaultdict(list)
    for place, _, clauses in functions():
        for fact in facts(clauses):
            users[(place.split("/")[1], re.sub(r"\.(old|now)\b", "", fact))].append(place)
    return [f"{crate}: {fact}: {len(u)} functions" for (crate, fact), u in sorted(users.items()) if len(u) >= 3]


def groups():
    """Groups of three or more parameters that three or more functions of one crate have."""
    users = collections.defaultdict(list)
    for place, parameters, _ in functions():
        names = frozenset(n for n in re.findall(r"(\w+):", parameters) if n != "self")
        users[place.split("/")[1]].append((place, names))
    found = []
    for crate, all_of in sorted(users.items()):
        shared = collections.Counter()
        for place, names in all_of:
            for other, others in all_of:
                if place < other and len(names & others) >= 3:
                    shared[names & others] += 1
        groups_here = {g: sum(1 for _, n in all_of if g <= n) for g in shared}
        for g, n in sorted(groups_here.items(), key=lambda x: (-len(x[0]), sorted(x[0]))):
            if n >= 3 and not any(g < h and groups_here[h] >= n for h in groups_here):
                found.append(f"{crate}: {', '.join(sorted(g))}: {n} functions")
    return found


def shapes():
    """Pairs of functions of the same shape: the same text but for names, numbers and strings."""
    seen = collections.defaultdict(list)
    for path, text in SOURCES.items():
        for m in re.finditer(r"^(?:    )?(?:pub )?fn (\w+).*?^(?:    )?\{\n(.*?)^(?:    )?\}", text, re.M | re.S):
            body = re.sub(r"//[^\n]*", "", m.group(2))
            tokens = re.findall(r"\w+|[^\w\s]", body)
            if len(tokens) < 25:
                continue
            keep = {"let", "mut", "if", "else", "while", "for", "in", "return", "match", "loop", "as"}
            shape = " ".join(t if t in keep or not re.match(r"\w", t) else "_" for t in tokens)
            seen[shape].append(f"{path}:{line_of(text, m.start())}: {m.group(1)}")
    return [" = ".join(places) for places in seen.values() if len(places) > 1]


def answers():
    found = []
    for path in sorted(glob.glob("crates/*/proofs/**/Answers.antt", recursive=True)):
        n = len(re.findall(r"^pub \S+ : goal\.", open(path, encoding="utf-8").read(), re.M))
        found += [path] * n
    return found


POINTS = [
    ("1a enums of at most three variants that are no error enum", small_enums),
    ("1b a field that is a flag or an outcome beside values", lambda: lines_with(r"^    (pub )?\w+: (bool|\w*Outcome),")),
    ("1c a number that stands for none", lambda: lines_with(r"//.*(where there is none|or 256\.|0 where it|that names none|0 for a byte)")),
    ("1d numbers for kinds or refusals outside From", lambda: lines_with(r"fn kind_of|fn kind_number|const (OUTSIDE|OPENED)|verdict::refusal\(\d+|^    pub number: u64|\borigin == 0")),
    ("2 functions of one shape", shapes),
    ("3a while and loop", lambda: lines_with(r"^\s*(while|loop)\b")),
    ("3b for over an index of a slice's length or of a constant", lambda: lines_with(r"^\s*for \w+ in (\w+|\w+ \+ \d+)\.\.(\w+\.len\(\)|\d+|count) ")),
    ("4 equality, copying, conversion by a function", lambda: lines_with(r"fn (same_\w+|copy|is_epsilon|is_complement|is_special|kind_\w+|nodes_of|\w*outcome_verdict|refusal_verdict|wide|matched|most|least|ones)\b")),
    ("5a facts in three or more `requires` of a crate", repeated_facts),
    ("5b parameters that three or more functions of a crate have together", groups),
    ("6 buffers with a length beside, parallel arrays, numbers two or three to a record", lambda: lines_with(r"nodes: \[Node; 64\], m: usize|^    nodes: \[Node; 64\],$|pub len: usize|pub written: usize|(names|facts|origins|places|letters\d?|seconds\d?|automaton|records): &(mut )?\[(u64|u32|u8)\]|\[\w+; \d+\], (m|n|k|r): usize")),
    ("7 a match whose arms each call a step", lambda: lines_with(r"^\s*(b'\w'|Stage::\w+|_) => \w+(_case|_\w+)\((out|q\.)")),
    ("8 answers to goals", answers),
]


def main():
    for name, count in POINTS:
        found = count()
        print(f"{len(found):5}  {name}")
        if "-v" in sys.argv[1:] and not name.startswith("8"):
            for place in found:
                print(f"         {place}")


if __name__ == "__main__":
    os.chdir(os.path.join(os.path.dirname(os.path.abspath(__file__)), "..")) if os.path.exists(
        os.path.join(os.path.dirname(os.path.abspath(__file__)), "../crates.txt")
    ) else None
    SOURCES = {p: open(p, encoding="utf-8").read() for p in sorted(glob.glob("crates/*/src/*.rt"))}
    main()
