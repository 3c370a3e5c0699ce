#!/usr/bin/env python3
"""Brings the repository's own names in specs/, proofs/ and clauses to snake case.

usage: python3 tools/respell.py [--list]      at the top of a tree that port.py has turned

A name of this repository with a hyphen, as some-done, gets an underscore, as some_done; a variable ruleAt becomes rule_at.
Names that Rattle makes (goals, steps, parts of them) and names of the library keep their hyphens. Functions of src/, strings,
comments, inputs and outputs are not touched. With --list it prints the names that it would change and writes nothing.
"""

import os
import re
import sys

NAME = re.compile(r"(?<![\w'\u00b7\u25cc-])[A-Za-z_][\w'-]*")
USE = re.compile(r"^\s*(?:ghost )?use ([^\n{]*)\{([^}]*)\}", re.M)
FIELD = re.compile(r"^  +(?:pub )?([a-z][\w'-]*)(?: \{[^}]*\}| \([^)]*\))* : ", re.M)
MADE = re.compile(r"\b(?:c|w|goal|need)\.$")
GOAL = re.compile(r"^(?:abbrev )?(?:pub )?([a-z][\w'-]*) : (?:goal|need)\.", re.M)
OWN = re.compile(r"Rattle\.(?:%s)\." % "|".join(sorted(os.listdir("crates"))))
COMMENT = re.compile(r"(?:^|(?<=\s))--(?=\s|$)[^\n]*|//[^\n]*|\"[^\"\n]*\"")

# plain snake case would give these a name that is taken
OTHERWISE = {
    "put-mid": "put_middle",
}


def files():
    for folder, dirs, names in os.walk("crates"):
        dirs[:] = sorted(d for d in dirs if d not in ("out", "data", "must-fail"))
        for n in sorted(names):
            if n.endswith((".rt", ".antt")):
                yield os.path.join(folder, n)


def read(path):
    with open(path, encoding="utf-8") as f:
        return f.read()


def is_answer(path):
    return os.path.basename(path) in ("Answers.antt", "Invariants.antt")


def snake(name):
    if name in OTHERWISE:
        return OTHERWISE[name]
    if name[0].isupper():
        return name.replace("-", "_")
    return re.sub(r"(?<=[a-z])[A-Z]", lambda m: "_" + m.group(0).lower(), name).replace("-", "_")


def blank(match):
    return " " * len(match.group(0))


def clauses(path, text):
    """The text with all but what the logic reads blanked out, character for character."""
    text = COMMENT.sub(blank, text)
    if path.endswith(".antt"):
        return text
    out, depth = [], 0
    for line in text.split("\n"):
        start = re.search(r"\b(?:ghost|requires|ensures)\b", line)
        keep = depth > 0 or start
        if keep:
            depth = max(0, depth + line.count("{") - line.count("}"))
            if re.match(r"\s*ghost use\b", line):
                depth = 0
        out.append(line if keep else " " * len(line))
    return "\n".join(out)


def odd(name):
    return "-" in name or re.search(r"[a-z][A-Z]", name) and name[0].islower()


def collect(texts):
    std, fields, goals, own = set(), set(), set(), set()
    for path, text in texts.items():
        for m in USE.finditer(text):
            if not OWN.match(m.group(1)):
                std |= set(NAME.findall(re.sub(r" as [\w'-]+", "", m.group(2))))
        if path.endswith(".antt") and not is_answer(path):
            fields |= {m for m in FIELD.findall(text) if odd(m)}
        goals |= set(GOAL.findall(text))
    for path, text in texts.items():
        for m in NAME.finditer(text):
            name = m.group(0)
            if odd(name) and text[m.start() - 1 : m.start()] != ".":
                own.add(name)
    return std, fields, goals, {n for n in own if n not in std and n not in goals}


def turned(path, text, own, fields):
    seen = clauses(path, text)
    out, at = [], 0
    for m in NAME.finditer(seen):
        name = m.group(0)
        before = seen[max(0, m.start() - 8) : m.start()]
        if name in own and (not before.endswith(".") or name in fields and not MADE.search(before)):
            out.append(text[at : m.start()])
            out.append(snake(name))
            at = m.end()
    out.append(text[at:])
    return "".join(out)


def main(argv):
    raw = {p: read(p) for p in files()}
    seen = {p: clauses(p, t) for p, t in raw.items()}
    std, fields, goals, own = collect(seen)
    if "--list" in argv:
        words = set()
        for t in seen.values():
            words |= set(NAME.findall(t))
        for n in sorted(own):
            print(n, snake(n), "FIELD" if n in fields else "", "TAKEN" if snake(n) in words else "")
        return 0
    for path, text in raw.items():
        new = turned(path, text, own, fields)
        if new != text:
            with open(path, "w", encoding="utf-8") as f:
                f.write(new)
    return 0


if __name__ == "__main__":
    raise SystemExit(main(sys.argv[1:]))
