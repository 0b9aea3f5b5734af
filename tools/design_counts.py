#!/usr/bin/env python3
"""Counts, in the sources of one commit, the places that the design pass speaks of (docs/DESIGN-PASS.md).

    python3 tools/design_counts.py COMMIT            the counts
    python3 tools/design_counts.py COMMIT --places   each place that was counted as well, a line for each

Only what a text can show is counted; which of these places could be written otherwise is told in the page. The sources are
crates/*/src/*.rt as they stand in the commit, without comments, texts and what stands in `ghost use`, `requires`
and `ensures`; the proofs are crates/*/proofs.
"""
import re
import subprocess
import sys


def git(*arguments):
    return subprocess.run(["git", *arguments], check=True, capture_output=True, text=True).stdout


def files_of(commit, pattern):
    return [f for f in git("ls-tree", "-r", "--name-only", commit).splitlines() if re.fullmatch(pattern, f)]


def blanked(match):
    return re.sub(r"[^\n]", " ", match.group(0))


def without_comments(text):
    text = re.sub(r'b?"(?:\\.|[^"\\\n])*"', blanked, text)
    text = re.sub(r"b'(?:\\.|[^'\\\n])'", blanked, text)
    return re.sub(r"//[^\n]*", blanked, text)


def closing(text, start, opens, closes):
    depth = 0
    for i in range(start, len(text)):
        if text[i] == opens:
            depth += 1
        elif text[i] == closes:
            depth -= 1
            if depth == 0:
                return i
    return len(text) - 1


CLAUSE = re.compile(r"\b(requires|ensures)(?:\s+\w+)?\s*\{")


def clauses(text):
    """(word, start, end, content) of each clause."""
    found = []
    for m in CLAUSE.finditer(text):
        end = closing(text, m.end() - 1, "{", "}")
        found.append((m.group(1), m.start(), end + 1, text[m.end():end]))
    return found


def without_ghost(text):
    chars = list(text)

    def blank(start, end):
        for i in range(start, end):
            if chars[i] != "\n":
                chars[i] = " "
    for _, start, end, _ in clauses(text):
        blank(start, end)
    for m in re.finditer(r"ghost use[^;]*;", text):
        blank(m.start(), m.end())
    return "".join(chars)


def split_top(text):
    parts, depth, last = [], 0, 0
    for i, ch in enumerate(text):
        if ch in "([{<":
            depth += 1
        elif ch in ")]}" or (ch == ">" and text[i - 1] != "-"):
            depth -= 1
        elif ch == "," and depth == 0:
            parts.append(text[last:i])
            last = i + 1
    parts.append(text[last:])
    return [" ".join(p.split()) for p in parts if p.strip()]


def functions(text):
    """(place, name, parameters) of each function."""
    found = []
    for m in re.finditer(r"\bfn\s+(\w+)\s*(<[^(]*>)?\s*\(", text):
        end = closing(text, m.end() - 1, "(", ")")
        found.append((m.start(), m.group(1), split_top(text[m.end():end])))
    return found


def facts(clause):
    """The facts of a clause, as `Word argument..`: the conjuncts that begin with a predicate's name."""
    depth, last, parts = 0, 0, []
    flat = " ".join(clause.split())
    for i, ch in enumerate(flat):
        depth += ch in "(["
        depth -= ch in ")]"
        if ch == "×" and depth == 0:
            parts.append(flat[last:i])
            last = i + 1
    parts.append(flat[last:])
    cleaned = []
    for p in parts:
        p = p.strip()
        while p.startswith("(") and closing(p, 0, "(", ")") == len(p) - 1:
            p = p[1:-1].strip()
        cleaned.append(p)
    return cleaned


def main():
    commit = sys.argv[1]
    show = "--places" in sys.argv
    counts, places, fact_functions = {}, {}, {}

    def count(name, where):
        counts[name] = counts.get(name, 0) + 1
        places.setdefault(name, []).append(where)

    names = ["1 enums of our own", "1 `bool` fields of structs",
             "3 `while` and `loop`", "3 `for`", "4 casts by `as`", "5 functions of more than five parameters",
             "5 facts that stand in the `requires` of three functions or more",
             "6 parameters that are an array or slice with a `usize` beside it",
             "7 parameters of type `bool`", "8 lines of proofs", "8 answers to goals"]
    for name in names:
        counts[name] = 0
    for path in files_of(commit, r"crates/[^/]+/src/.*\.rt"):
        whole = without_comments(git("show", f"{commit}:{path}"))
        text = without_ghost(whole)
        crate = path.split("/")[1]

        def at(position):
            return f"{path}:{text.count(chr(10), 0, position) + 1}"
        for m in re.finditer(r"\benum\s+(\w+)", text):
            count(names[0], f"{at(m.start())} {m.group(1)}")
        for m in re.finditer(r"\bstruct\s+(\w+)[^{;]*\{", text):
            end = closing(text, m.end() - 1, "{", "}")
            for field in split_top(text[m.end():end]):
                if re.search(r":\s*(\[\s*)?bool\b", field):
                    count(names[1], f"{at(m.start())} {m.group(1)}.{field}")
        for m in re.finditer(r"\b(while|loop)\b(?!-)", text):
            count(names[2], at(m.start()))
        for m in re.finditer(r"\bfor\s+[\w(&,\s)]+?\s+in\b", text):
            count(names[3], at(m.start()))
        for m in re.finditer(r"\bas\s+(u8|u16|u32|u64|usize|i8|i16|i32|i64)\b", text):
            count(names[4], at(m.start()))
        spans = functions(text)
        for start, name, parameters in spans:
            if len(parameters) > 5:
                count(names[5], f"{at(start)} {name} ({len(parameters)})")
            lengths = [p for p in parameters if re.search(r":\s*usize$", p)]
            for p in parameters:
                if re.search(r":\s*&('\w+ )?(mut )?\[", p) and lengths:
                    count(names[7], f"{at(start)} {name}: {p}")
                if re.search(r":\s*bool$", p):
                    count(names[8], f"{at(start)} {name}: {p}")
        starts = [s for s, _, _ in spans]
        for word, start, _, content in clauses(whole):
            if word != "requires":
                continue
            owner = max((s for s in starts if s < start), default=0)
            for fact in facts(content):
                fact_functions.setdefault(fact, set()).add((crate, path, owner))
    for fact, owners in sorted(fact_functions.items()):
        if len(owners) >= 3:
            count(names[6], f"{len(owners)}: {fact}")
    for path in files_of(commit, r"crates/[^/]+/proofs/.*\.antt"):
        text = git("show", f"{commit}:{path}")
        counts[names[9]] += text.count("\n")
        if path.endswith("/Answers.antt"):
            counts[names[10]] += len(re.findall(r"^pub [\w-]+ : goal\.", text, re.M))
    for name in names:
        print(f"{counts[name]:6} {name[2:]} (point {name[0]})")
        if show:
            for place in places.get(name, []):
                print(f"         {place}")


main()
