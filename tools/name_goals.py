#!/usr/bin/env python3
"""Turns the proofs of functions of the older form, proofs/F/Proof.antt, to Invariants.antt and Answers.antt, whose goals go by name.

usage: python3 tools/name_goals.py CRATE NAMES [F ..]     NAMES: the names.json of `rt check --generated DIR --old-names` in CRATE

Answers that only say `search rules` are left out, but where the proof unfolds a definition. What can't be turned is said, and that file stays.
"""

import json
import os
import re
import sys

PATH = re.compile(r"(?<![\w.'-])([A-Za-z_][\w']*[₀₁₂₃]?)((?:\.[\w'+-]+(?:[₀₁₂₃])?)*)")


class Fails(Exception):
    pass


def norm(s):
    return s.replace("-", "_").lower()


def same(f, old):
    m = re.fullmatch(r"is_Is([A-Z]\w*)", f)
    if m:
        f = "is" + re.sub(r"[A-Z]", lambda it: "_" + it.group(0).lower(), m.group(1))
    return norm(f) == norm(old) or f.endswith("_lem") and norm(f[:-4]) == norm(old)


def split_terms(text):
    """The arguments of an application: groups in parentheses and words."""
    terms, i, n = [], 0, len(text)
    while i < n:
        if text[i].isspace():
            i += 1
        elif text.startswith("--", i):
            j = text.find("\n", i)
            i = n if j < 0 else j
        elif text[i] in "([":
            depth, j = 0, i
            while True:
                if text.startswith("--", j) and text[j - 1].isspace():
                    j = text.index("\n", j)
                if text[j] in "([{":
                    depth += 1
                if text[j] in ")]}":
                    depth -= 1
                    if depth == 0:
                        break
                j += 1
            terms.append(text[i : j + 1])
            i = j + 1
        else:
            j = i
            while j < n and not text[j].isspace() and text[j] not in "()":
                j += 1
            terms.append(text[i:j])
            i = j
    return terms


def strip(term):
    """Without the parentheses around the whole, and without its indents."""
    term = term.strip()
    while term.startswith("(") and split_terms(term) == [term] and not comma(term):
        term = term[1:-1].strip()
    return term


def commas(term):
    """Where the commas of a tuple in parentheses stand."""
    depth, out = 0, []
    for i, ch in enumerate(term):
        if ch in "([{":
            depth += 1
        elif ch in ")]}":
            depth -= 1
        elif ch == "," and depth == 1:
            out.append(i)
    return out


def comma(term):
    """Whether a term in parentheses is a tuple."""
    return bool(commas(term))


def parts(term):
    """The parts of a tuple."""
    term = term.strip()
    cuts = [0, *commas(term), len(term) - 1]
    return [part for part in (term[a + 1 : b].strip() for a, b in zip(cuts, cuts[1:])) if part]


def binders(term):
    """(names, body) of a λ, in parentheses or not."""
    t = strip(term)
    m = re.match(r"λ\s+([^.()]*?)\s*\.\s", t)
    if not m:
        return None, t
    return m.group(1).split(), t[m.end() :]


class Part(Fails):
    """The clauses from one on, as the pairs of the older form."""

    def __init__(self, names):
        super().__init__("a part of several clauses")
        self.names = names


class Function:
    def __init__(self, record):
        self.r = record
        self.place = {p[0]: p for p in record["places"]}
        self.index = {p[0]: k for k, p in enumerate(record["places"])}

    def parent(self, place):
        up = self.place[place][1]
        if up is None:
            raise Fails(f"no place before {place}")
        return up

    def clause(self, place, fields):
        """The name of a clause for its old numbers."""
        names = None
        info = self.r["clauses"][self.index[place]]
        if info:
            names = info["fields"]
        return self.numbered(names, fields)

    def numbered(self, names, fields):
        if not names or len(names) < 2 or not fields or not fields[0].isdigit():
            return fields
        k = 0
        rest = list(fields)
        while rest and rest[0] == "1" and k < len(names) - 1:
            rest, k = rest[1:], k + 1
        if k == len(names) - 1:
            return [names[k]] + rest
        if rest and rest[0] == "0":
            return [names[k]] + rest[1:]
        if not rest:
            raise Part(names[k:])
        raise Fails(f"clause {fields}")

    def arm(self, place, old, rest):
        """What a step of the older form in an arm is called."""
        while place is not None:
            arms = self.r["arms"][self.index[place]]
            for field, step, path in sorted(arms[2] if arms else [], key=lambda it: -len(it[2])):
                if step == old and path and rest[: len(path)] == path:
                    return [arms[0], field] + rest[len(path) :]
            for field, step, path in arms[2] if arms else []:
                if step == old and len(rest) < len(path) and path[: len(rest)] == rest and rest != ["ensures"]:
                    raise Fails("a part of an arm")
            place = self.place[place][1]
        return None

    def resolve(self, place, fields, goal_place):
        i = 0
        while i < len(fields) and fields[i] == "before":
            place, i = self.place[place][1] or "Start", i + 1
        fields = fields[i:]
        if not fields:
            return place, None
        f, rest = fields[0], fields[1:]
        # the older form has some places more: the step of that name on the way to the goal
        if f in ("args", "requires", "ranges"):
            place = "Start"
        else:
            way, it = [place], self.place[place][1]
            while it is not None:
                way, it = way + [it], self.place[it][1]
            it = goal_place
            while it is not None:
                way, it = way + [it], self.place[it][1]
            place = next((w for w in way if same(f, self.place[w][2][0])), place)
        old, new = self.place[place][2]
        if old and same(f, old):
            arm = self.arm(goal_place, old, rest)
            if arm:
                return None, arm
            renames = dict((a, b) for a, b in self.place[place][4])
            if rest and rest[0] in renames:
                rest = [renames[rest[0]]] + rest[1:]
            if rest and rest[0] == "given":
                for var, step in self.r["typed"][self.index[goal_place]]:
                    if norm(step) == norm(old):
                        return None, ["type_inv", var] + rest[1:]
            if rest and rest[0] == "ensures":
                rest = ["ensures"] + self.clause(place, rest[1:])
            if rest and rest[0] == "last" and rest[1:2] and rest[1].isdigit():
                rest = ["new"] + rest[1:]
            if rest and rest[0] in ("new", "auto") and len(rest) > 1 and rest[1].isdigit():
                names = self.r["params"].get(self.place[place][3] or "", None)
                if names:
                    k = 1
                    while k < len(rest) and rest[k] == "1" and k < len(names):
                        k += 1
                    rest = [rest[0], names[k - 1]] + rest[k + 1 if k < len(rest) and rest[k] == "0" else k :]
            if new.startswith("in_default") and rest and re.match(r"rest$|keys\d+$", rest[0]):
                rest = [new + "-own"] + rest
            return None, [new] + rest
        if place == "Start" or self.place[place][1] is None:
            if f in ("args", "requires", "ranges"):
                if f == "requires" and self.r["pre"]:
                    names = self.r["pre"]["fields"] if isinstance(self.r["pre"], dict) else self.r["pre"]
                    rest = self.numbered(names, rest)
                for a, b in self.r["args"]:
                    a, b = (it.replace(" ", "").split(".")[1:] for it in (a, b))
                    if [f] + rest[: len(a) - 1] == a:
                        return None, b + rest[len(a) - 1 :]
                return None, [f] + rest
        raise Fails(f"{place} has no {f} (but {old})")

    def shown(self, env, head, flat):
        known = env[head][2]
        if known and flat[: len(known)] == known:
            return ".".join([head] + flat[len(known) :])
        return "c." + ".".join(flat)

    def body(self, text, place, goal_place):
        """A term at a place, its variable being c, with flat paths."""
        env = {"c": (place, [], None)}
        out, at = [], 0
        pattern = re.compile(r"let\s+([\w'₀₁₂₃]+)\s*=\s*([A-Za-z][\w']*(?:\.[\w'-]+)*)\s+in(?![\w'-])\s*")
        token = re.compile(pattern.pattern + "|" + PATH.pattern)
        while True:
            m = token.search(text, at)
            if not m:
                out.append(text[at:])
                break
            out.append(text[at : m.start()])
            at = m.end()
            if m.group(1):
                head, *fields = m.group(2).split(".")
                if head in env:
                    at_place, prefix, _ = env[head]
                    try:
                        where, flat = self.resolve(at_place, prefix + fields, goal_place)
                    except Fails as e:
                        if "a part of" not in str(e):
                            raise
                        where, flat = None, None
                    env[m.group(1)] = (where, [], None) if where else (at_place, prefix + fields, flat)
                    if flat:
                        out.append(f"let {m.group(1)} = {self.shown(env, head, flat)} in\n    ")
                    continue
                env.pop(m.group(1), None)
                out.append(m.group(0))
                continue
            head, fields = m.group(3), [f for f in m.group(4).split(".") if f]
            if head in env:
                at_place, prefix, _ = env[head]
                try:
                    where, flat = self.resolve(at_place, prefix + fields, goal_place)
                except Part as e:
                    last = (prefix + fields)
                    cut = max(i for i, w in enumerate(last) if w in ("requires", "ensures"))
                    base = "c." + ("requires" if last[cut] == "requires" else ".".join(self.resolve(at_place, last[: cut], goal_place)[1] + ["ensures"]))
                    text_of = f"{base}.{e.names[-1]}"
                    for n in reversed(e.names[:-1]):
                        text_of = f"({base}.{n}, {text_of})"
                    out.append(text_of)
                    continue
                if where:
                    raise Fails(f"the place {m.group(0)} as it stands")
                out.append(self.shown(env, head, flat))
            else:
                out.append(m.group(0))
        text = "".join(out)
        text = re.sub(r"\((?:ltb|leb|eqb)-(true|false) _ _ (c\.[\w.+-]+\.)\1-raw\)", r"\2\1", text)
        return re.sub(r"(?:ltb|leb|eqb)-(true|false) _ _ (c\.[\w.+-]+\.)\1-raw\b", r"\2\1", text)


def lets(body):
    """(the lets, the term behind them)."""
    at = 0
    while True:
        m = re.compile(r"\s*let\s").match(body, at)
        if not m:
            return body[:at], body[at:].strip()
        depth, nest, i = 0, 0, m.end()
        word = re.compile(r"(?<![\w.'-])(let|in)(?![\w'-])|[()\[\]{}]")
        while True:
            t = word.search(body, i)
            if not t:
                return body[:at], body[at:].strip()
            i = t.end()
            if t.group(0) in "([{":
                depth += 1
            elif t.group(0) in ")]}":
                depth -= 1
            elif depth == 0 and t.group(0) == "let":
                nest += 1
            elif depth == 0 and t.group(0) == "in":
                if nest == 0:
                    break
                nest -= 1
        at = i


def as_record(body, names):
    head, last = lets(body)
    if last.startswith(("record", "absurd")):
        return body
    if last.startswith("(") and comma(last) and split_terms(last) == [last]:
        ps = parts(last)
        while len(ps) < len(names) and ps[-1].startswith("(") and comma(ps[-1]) and split_terms(ps[-1]) == [ps[-1]]:
            ps = ps[:-1] + parts(ps[-1])
        if len(ps) == len(names):
            return head.rstrip() + "\n    record { " + "; ".join(f"{a} = {b}" for a, b in zip(names, ps)) + " }"
    if re.fullmatch(r"(search rules|omega arith|grind arith)", last):
        return head + " record { " + "; ".join(f"{a} = {last}" for a in names) + " }"
    paths = [("1." * k + ("0" if k < len(names) - 1 else "")).rstrip(".") for k in range(len(names))]
    return head.rstrip() + f"\n    let both = {last} in\n    record {{ " + "; ".join(f"{a} = both.{p}" for a, p in zip(names, paths)) + " }"


def turn(text, record, crate, path):
    f = Function(record)
    module = f"Rattle.{crate}.proofs." + path.replace("/", ".")
    m = re.search(r"^pub (\S+_spec) : \{M : Type 1\} → statement M\n((?:unfolding [^\n]*\n)?)\1 =\s*tie\.close\s*\(tie\.spec\b", text, re.M)
    if not m:
        raise Fails("no tie.spec")
    unfolding = m.group(2)
    tail = text[m.end() :]
    depth, j = 1, 0
    while depth:
        if tail[j] in "([{":
            depth += 1
        if tail[j] in ")]}":
            depth -= 1
        j += 1
    args = split_terms(tail[: j - 1])
    behind = tail[j:].strip()
    front = text[: m.start()]
    named = {}
    # answers that are declared before
    for d in re.finditer(r"^(?:abbrev )?(\S+) :\s*tie\.[^\n]*\n((?:  [^\n]*\n|unfolding [^\n]*\n)*)\1((?: [^\n=]*)?)=((?:[^\n]*\n)(?:[ \t]+[^\n]*\n|\n(?=[ \t]))*)", front + "\n", re.M):
        opened = re.search(r"unfolding [^\n]*\n", d.group(2))
        named[d.group(1)] = (d.group(3).split(), d.group(4).strip(), opened.group(0) if opened else "", d.group(0))
    for it in named.values():
        front = (front + "\n").replace(it[3], "").rstrip("\n") + "\n"
    loops, needs = record["loops"], record["needs"]
    if len(args) != 2 * len(loops) + len(needs):
        raise Fails(f"{len(args)} arguments for {len(loops)} loops and {len(needs)} goals: {[n[1] for n in needs]}")
    comment = re.match(r"(?:--[^\n]*\n)*", front).group(0)
    uses = re.findall(r"^use [^\n]*\n", front, re.M)
    helpers = re.sub(r"^use [^\n]*\n", "", front[len(comment) :], flags=re.M).strip()
    uses = [u for u in uses if ".Statement." not in u and " as tie" not in u]
    if "tie." in helpers or "lts." in helpers or "reads." in helpers:
        raise Fails("a helper names the older records")

    def term(arg):
        if arg in named:
            vs, body, opened, _ = named[arg]
            return vs, body, opened
        vs, body = binders(arg)
        return vs, body, ""

    answers = []
    for k, (old, new) in enumerate(needs):
        vs, body, opened = term(args[2 * len(loops) + k])
        opened = opened or unfolding
        if vs is None:
            vs, body = ["c"], strip(args[2 * len(loops) + k]) + " c"
        plain = strip(body)
        if plain in ("search rules", "tt") and (not opened or re.match(r"offset_bounds|bounds|overflow|nonzero|shape_of|.*-smaller", new)):
            continue
        if vs[0] != "c":
            body = re.sub(rf"(?<![\w.'-]){re.escape(vs[0])}(?=\.)", "c", body)
        place = record["asked_at"][k][0]
        body = f.body(body, place, place)
        bound = [v for v in vs[1:] if v != "κs"]
        if bound:
            body = f"λ {' '.join(bound)}.\n    {body.strip()}"
        if new.startswith("shape_of-") and re.fullmatch(r"c\.[\w+-]+\.auto\.\w+", strip(body)):
            continue
        names = record["asked"].get(old) or record["asked"].get(new)
        if names and len(names) > 1 and not (opened and plain == "search rules"):
            body = as_record(body, names)
        answers.append(f"pub {new} : goal.{new}\n{opened}{new} c =\n    {body.strip()}\n")
    invariants = []
    for k, (pair, vars) in enumerate(loops):
        changed = record["changed"][k]
        for at, kind in ((2 * k, "invariant"), (2 * k + 1, "decreases")):
            vs, body, opened = term(args[at])
            order = [("l.initial." if changed[i] else "l.") + v for i, v in enumerate(vars)] + ["l." + v for i, v in enumerate(vars) if changed[i]]
            if vs is None or len(vs) != len(order):
                raise Fails(f"{kind} of {len(vs or [])} variables for {len(order)}: {vs} {vars}")
            to = dict(zip(vs, order))
            body = PATH.sub(lambda m: to.get(m.group(1), m.group(1)) + m.group(2), body)
            name = f"{kind}-{pair[1]}"
            invariants.append(f"abbrev pub {name} : goal.{name}\n{opened}{name} l =\n    {body.strip()}\n")
    head = comment + "".join(uses)
    a = i = None
    if answers:
        a = head + f"use {module}.Goals as goal\n\n" + (helpers + "\n\n" if helpers else "") + "\n".join(answers)
    if invariants:
        i = head + f"use {module}.Given as goal\n\n" + "\n".join(invariants)
    if behind and behind != "":
        raise Fails("text behind the proof: " + behind[:80])
    return i, a


def used(text):
    """Drops the imports that a file does not name."""
    out, lines = [], text.split("\n")
    rest = "\n".join(l for l in lines if not l.startswith("use "))
    words = set(re.findall(r"[^\s(){}\[\].,;λ]+", rest))
    for l in lines:
        m = re.match(r"use (\S+?)\.\{(.*)\}$", l)
        if not m:
            out.append(l)
            continue
        keep = []
        for it in m.group(2).split(", "):
            name = it.split(" as ")[-1]
            core = [w for w in name.split("◌") if w]
            if name in words or name in rest and "◌" in name or core and all(w in rest for w in core):
                keep.append(it)
        if keep:
            out.append(f"use {m.group(1)}.{{{', '.join(keep)}}}")
    return "\n".join(out)


def main(argv):
    crate, names = os.path.abspath(argv[0]), json.load(open(argv[1]))
    only = argv[2:]
    name = os.path.basename(crate)
    for folder, _, fs in os.walk(os.path.join(crate, "proofs")):
        if "Proof.antt" not in fs:
            continue
        path = os.path.relpath(folder, os.path.join(crate, "proofs"))
        if only and path not in only and path.split("/")[-1] not in only:
            continue
        key = f"Rattle-{name}-proofs.{path.replace('/', '.')}.Lts"
        p = os.path.join(folder, "Proof.antt")
        try:
            if key not in names:
                raise Fails("not in the list of names")
            text = open(p, encoding="utf-8").read()
            i, a = turn(text, names[key], name, path)
        except Fails as e:
            print(f"left: {name}/{path}: {e}")
            continue
        except Exception as e:
            print(f"left: {name}/{path}: {type(e).__name__} {e}")
            continue
        if i:
            open(os.path.join(folder, "Invariants.antt"), "w", encoding="utf-8").write(used(i))
        if a:
            open(os.path.join(folder, "Answers.antt"), "w", encoding="utf-8").write(used(a))
        os.remove(p)
        print(f"turned: {name}/{path}{'' if a else ', no answers'}")


if __name__ == "__main__":
    main(sys.argv[1:])
