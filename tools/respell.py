#!/usr/bin/env python3
"""Brings this repository's own definitions and lemmas to the spelling of today's Rattle. Run once, at the top, after
port.py and before any edit by hand: python3 tools/respell.py

A word is in snake case, a type keeps its capitals, and a prime stays an apostrophe. In a lemma's name a dash joins two
names of definitions, as in `length-list_after`; any other word is joined by an underscore, as in `max_below_ext`. A
record's field has no dash. Names of Rattle's library and names that Rattle makes stay as they are. Two names that would
fall together are told apart by `_lem`, and each such place is printed. Texts of must-fail edits and names in backticks
in the pages are turned likewise.
"""
import collections
import glob
import os
import re
import sys

# a word of antt: no space, bracket or separator, and no dot, since a projection or a path is several words
WORD = re.compile(r"[^\s(){}\[\];,.@\"`:=]+")
DECL = re.compile(r"^(\s*)(?:(?:pub|abbrev|unfoldable)\s+)*([^\s(){}:;,.]+)((?:\s+[({][^:]*:[^)}]*[)}])*)\s*:\s")
KEY = {"record", "data", "module", "ruleset", "use", "mod", "where", "let", "in", "_"}


def files():
    specs = sorted(glob.glob("crates/*/specs/**/*.antt", recursive=True))
    proofs = sorted(glob.glob("crates/*/proofs/**/*.antt", recursive=True))
    lemmas = [p for p in proofs if not p.endswith("/Proof.antt")]
    walks = [p for p in proofs if p.endswith("/Proof.antt")]
    return specs, lemmas, walks


def code(line):
    """A line without its comment."""
    return re.sub(r"(^|\s)--(\s.*|$)", r"\1", line)


def declared(path):
    """The names that a file declares, and which of them are fields of a record."""
    names, fields, record = [], set(), None
    for raw in open(path, encoding="utf-8"):
        line = code(raw).rstrip("\n")
        if not line.strip():
            continue
        indent = len(line) - len(line.lstrip())
        if record is not None and indent <= record:
            record = None
        m = re.match(r"^(\s*)(?:pub\s+)?(record|data)\s+([^\s(){}:]+)", line)
        if m:
            names.append(m.group(3))
            record = len(m.group(1)) if m.group(2) == "record" else None
            continue
        m = re.match(r"^\s*(?:pub\s+)?ruleset\s+([^\s(){}:=]+)", line)
        if m:
            names.append(m.group(1))
            continue
        m = DECL.match(line)
        if m and m.group(2) not in KEY and not m.group(2).startswith(("◌", "→", "λ", "|")):
            names.append(m.group(2))
            if record is not None:
                fields.add(m.group(2))
    return names, fields


def snake(part):
    if not part or part[0].isupper():
        return part
    out = re.sub(r"([a-z0-9])([A-Z])", lambda m: m.group(1) + "_" + m.group(2), part)
    # only a lower-case word is a word; a capital behind a lower one begins the next
    return re.sub(r"_([A-Z])", lambda m: "_" + m.group(1).lower(), out)


def main():
    specs, lemmas, walks = files()
    where = collections.defaultdict(set)
    fields, words = set(), set()
    for p in specs + lemmas:
        names, fs = declared(p)
        fields |= fs
        for n in names:
            where[n].add(p)
        if p in specs:
            words |= set(names)
    own = set(where)
    # names that stand for something of their own, so that a dash may join them: definitions, and functions of src/
    for p in glob.glob("crates/*/src/**/*.rt", recursive=True):
        words |= set(re.findall(r"\bfn (\w+)", open(p, encoding="utf-8").read()))
    text = {p: open(p, encoding="utf-8").read() for p in specs + lemmas + walks}
    foreign = set()
    for p, t in text.items():
        for m in re.finditer(r"^\s*(?:pub )?use ([\w.\u0080-\uffff'-]+)\.\{([^}]*)\}", t, re.M):
            if not m.group(1).startswith("Rattle.") or m.group(1).startswith("Rattle.std"):
                foreign |= {x.strip().split(" as ")[0] for x in m.group(2).split(",")}
    words |= foreign

    def turned(n):
        parts = n.split("-")
        if len(parts) == 1:
            return snake(n)
        if n in fields:
            return "_".join(snake(x) for x in parts)
        out = snake(parts[0])
        for a, b in zip(parts, parts[1:]):
            joined = "-" if (a in words and b in words) else "_"
            out += joined + snake(b)
        return out

    new = {}
    for n in sorted(own):
        if n in foreign or not re.match(r"^[A-Za-z]", n):
            continue
        t = turned(n)
        if t != n:
            new[n] = t
    # names that fall together: with another of the same file's words
    seen = {p: set(WORD.findall("\n".join(code(l) for l in t.split("\n")))) for p, t in text.items()}
    for p in glob.glob("crates/*/src/**/*.rt", recursive=True):
        text[p] = open(p, encoding="utf-8").read()
        seen[p] = set(WORD.findall(text[p]))
    apart = []
    for n in sorted(new):
        t = new[n]
        clash = [p for p, s in seen.items() if n in s and (t in s or any(new.get(x) == t for x in s if x != n))]
        if clash:
            k = t + "_lem"
            apart.append((n, t, k, clash[0]))
            new[n] = k
    for n, t, k, p in apart:
        print(f"apart: {n}: {t} stands in {p} too, so {k}")

    def swap(s):
        return WORD.sub(lambda m: new.get(m.group(0), m.group(0)), s)

    def clauses(s):
        """Only the antt of a .rt file: ghost items and what stands between a clause's braces."""
        out, i = [], 0
        for m in re.finditer(r"\bghost use [^;]*;|\b(?:requires|ensures|ghost)\*?(?: \w+:?)? \{", s):
            if m.start() < i:
                continue
            if m.group(0).startswith("ghost use"):
                out += [s[i:m.start()], swap(m.group(0))]
                i = m.end()
                continue
            depth, j = 1, m.end()
            while depth:
                depth += {"{": 1, "}": -1}.get(s[j], 0)
                j += 1
            out += [s[i:m.end()], swap(s[m.end():j])]
            i = j
        return "".join(out) + s[i:]

    def dotted(s):
        """A path's last words too: WORD stops at dots, so each word of it is turned by itself."""
        return swap(s)

    count = 0
    for p, t in sorted(text.items()):
        u = clauses(t) if p.endswith(".rt") else dotted(t)
        if u != t:
            open(p, "w", encoding="utf-8").write(u)
            count += 1
    for p in sorted(glob.glob("crates/*/must-fail/*.edit")):
        t = open(p, encoding="utf-8").read()
        u = swap(t)
        if u != t:
            open(p, "w", encoding="utf-8").write(u)
            count += 1
    for p in ["README.md"] + sorted(glob.glob("docs/**/*.md", recursive=True)) + sorted(glob.glob("tests/**/*.md", recursive=True)):
        t = open(p, encoding="utf-8").read()
        u = re.sub(r"`[^`\n]+`", lambda m: "`" + swap(m.group(0)[1:-1]) + "`", t)
        if u != t:
            open(p, "w", encoding="utf-8").write(u)
            count += 1
    with open("tools/respelled.tsv", "w", encoding="utf-8") as f:
        f.write("".join(f"{a}\t{b}\n" for a, b in sorted(new.items())))
    print(f"{len(new)} names turned, in {count} files; tools/respelled.tsv lists them")


if __name__ == "__main__":
    os.chdir(os.path.join(os.path.dirname(os.path.abspath(__file__)), ".."))
    sys.exit(main())
