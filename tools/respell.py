#!/usr/bin/env python3
"""Brings the repository's own definitions and lemmas to the prover's spelling: types in camel case, words in snake case.

usage: python3 tools/respell.py        at the top of a checkout in which the kit's port.py has run, once

tools/respell.tsv has a row for each name: old, a tab, new. Whole words turn in proof files, and in the clauses, ghost
items and comments' code spans of source files; strings do not. A must-fail edit turns whole, and its projections are
written tight, as proof files have them. Documents turn in code spans alone.
"""

import os
import re

WORD = re.compile(r"[^\s(){}\[\].;,@\"«»`]+")
QUIET = re.compile(r'"(?:[^"\\\n]|\\.)*"')
SPAN = re.compile(r"`[^`\n]*`")
PROJECTION = re.compile(r"(?<=[\w')]) \.(?=[a-z0-9])")


def table(path):
    with open(path, encoding="utf-8") as f:
        return dict(line.rstrip("\n").split("\t") for line in f if line.strip())


def turn(text, rows):
    return WORD.sub(lambda m: rows.get(m.group(), m.group()), text)


def outside_strings(text, rows):
    out, at = [], 0
    for m in QUIET.finditer(text):
        out += [turn(text[at : m.start()], rows), m.group()]
        at = m.end()
    return "".join(out + [turn(text[at:], rows)])


def spans(text, rows):
    return SPAN.sub(lambda m: turn(m.group(), rows), text)


def by_comment(text, rows, mark, code):
    """Code turns as the function `code` says, comments in code spans alone."""
    lines = []
    for line in text.split("\n"):
        at = line.find(mark)
        if at < 0 or (at and not line[at - 1].isspace()):
            lines.append(code(line, rows))
        else:
            lines.append(code(line[:at], rows) + spans(line[at:], rows))
    return "\n".join(lines)


def edit(text, rows):
    lines = []
    for line in text.split("\n"):
        head, sep, rest = line.partition(":")
        if sep and head in ("old", "new"):
            line = head + ":" + PROJECTION.sub(".", outside_strings(rest, rows))
        lines.append(line)
    return "\n".join(lines)


def turned(path, text, rows):
    if path.endswith(".antt"):
        return by_comment(text, rows, "--", outside_strings)
    if path.endswith(".rt"):
        return by_comment(text, rows, "//", outside_strings)
    if path.endswith(".edit"):
        return edit(text, rows)
    return spans(text, rows)


def files(root):
    for folder, dirs, names in os.walk(root):
        dirs[:] = sorted(d for d in dirs if d not in ("out", ".git"))
        for name in sorted(names):
            if name.endswith((".antt", ".rt", ".edit", ".md")):
                yield os.path.join(folder, name)


def main():
    here = os.path.dirname(os.path.realpath(__file__))
    rows = table(os.path.join(here, "respell.tsv"))
    n = 0
    for path in files(os.path.dirname(here)):
        with open(path, encoding="utf-8") as f:
            old = f.read()
        new = turned(path, old, rows)
        if new != old:
            n += 1
            with open(path, "w", encoding="utf-8") as f:
                f.write(new)
    print(f"respell: {n} files changed")


main()
