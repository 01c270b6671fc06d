#!/usr/bin/env python3
"""Prints, as Markdown, what stands otherwise than at a commit: public functions with their clauses, type invariants, definitions of specs/, and
the statements of public lemmas.

    python3 tools/side_by_side.py COMMIT
"""
import re
import subprocess
import sys


def git(*args):
    return subprocess.run(["git", *args], capture_output=True, text=True, check=True).stdout


def files(commit, pattern):
    for name in git("ls-tree", "-r", "--name-only", commit, "crates").split("\n"):
        m = re.fullmatch(pattern, name)
        if m:
            yield m.group(1), name, git("show", f"{commit}:{name}")


def functions(commit):
    """The public functions: crate and path in it to header with clauses."""
    found = {}
    for crate, name, text in files(commit, r"crates/(\w+)/src/.*\.rt"):
        module = re.sub(r".*/src/|\.rt$", "", name).replace("/", "::")
        module = "" if module in ("lib", "main") else module + "::"
        owner = ""
        lines = text.split("\n")
        i = 0
        while i < len(lines):
            line = lines[i]
            m = re.match(r"impl(?:<[^{]*?>)? (?:(\S+(?:<.*>)?) for )?(\w+)", line)
            if m and line.endswith("{"):
                owner = m.group(2) + "::" if not m.group(1) else f"<{m.group(2)} as {m.group(1)}>::"
            if line == "}":
                owner = ""
            m = re.match(r"( *)pub (?:extern \"C\" )?fn (\w+)", line)
            if m:
                header = []
                while i < len(lines) and not re.fullmatch(m.group(1) + r"\{", lines[i]) and not lines[i].endswith(" {"):
                    header.append(lines[i])
                    i += 1
                if i < len(lines) and lines[i].endswith(" {"):
                    header.append(lines[i][:-2])
                words = " ".join(" ".join(header).split())
                found[(crate, module + owner + m.group(2))] = words.replace("( ", "(").replace(", )", ")")
            i += 1
    return found


def invariants(commit):
    found = {}
    for crate, name, text in files(commit, r"crates/(\w+)/src/.*\.rt"):
        for m in re.finditer(r"^pub struct (\w+)[^\n]*\{\n(.*?)^\}", text, re.M | re.S):
            clauses = [" ".join(c.split()) for c in re.findall(r"^    (?:pub )?ghost (\w+: \{.*?\}),$", m.group(2), re.M | re.S)]
            if clauses:
                found[(crate, m.group(1))] = clauses
    return found


def definitions(commit):
    found = {}
    for crate, name, text in files(commit, r"crates/(\w+)/specs/.*\.antt"):
        for block in re.split(r"\n(?=(?:abbrev|unfoldable|pub)\b)", "\n" + text):
            m = re.match(r"(?:abbrev pub|unfoldable pub|pub record|pub data|pub) (?!mod\b)(\S+)", block.strip())
            if m:
                body = "\n".join(re.sub(r"--.*", "", line) for line in block.split("\n"))
                body = re.split(r"\n(?=use |module )", body)[0]
                found[(crate, m.group(1))] = " ".join(body.split())
    return found


def lemmas(commit):
    found = {}
    for crate, name, text in files(commit, r"crates/(\w+)/proofs/\w+\.antt"):
        lines = text.split("\n")
        i = 0
        while i < len(lines):
            m = re.match(r" *pub (?!mod\b|use\b|record\b|data\b)(\S+) : (.*)$", lines[i])
            i += 1
            if m:
                body = [m.group(2)]
                while i < len(lines) and lines[i].startswith(" ") and not re.match(r" *(pub |" + re.escape(m.group(1)) + r"\b)", lines[i]):
                    body.append(lines[i])
                    i += 1
                found[(crate, m.group(1))] = " ".join(" ".join(body).split())
    return found


def show(title, old, new):
    changed = [k for k in old if k in new and old[k] != new[k]]
    gone = [k for k in old if k not in new]
    added = [k for k in new if k not in old]
    print(f"\n### {title}: {len(old)} before, {len(new)} now; the same {len(old) - len(changed) - len(gone)}, changed {len(changed)}, gone {len(gone)}, new {len(added)}\n")
    for key in changed:
        print(f"`{key[0]}` **{key[1]}**\n\n    - {old[key]}\n    + {new[key]}\n")
    if gone:
        print("Gone: " + ", ".join(f"{c} {n}" for c, n in gone) + ".\n")
    if added:
        print("New: " + ", ".join(f"{c} {n}" for c, n in added) + ".\n")


def main():
    old, new = sys.argv[1], "HEAD"
    show("Public functions", functions(old), functions(new))
    print("### Type invariants, all new\n")
    for (crate, struct), clauses in invariants(new).items():
        print(f"- `{crate}` {struct}: " + "; ".join(f"`{c}`" for c in clauses))
    show("Definitions in specs/", definitions(old), definitions(new))
    show("Public lemmas in proofs/", lemmas(old), lemmas(new))


main()
