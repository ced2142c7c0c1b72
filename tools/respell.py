#!/usr/bin/env python3
"""Gives definitions, lemmas and their fields the spelling of the library: snake case, and a dash only between two names.

usage: respell.py            at the top of the repository; the names stand in respelled.txt beside this script, old and new

Turned are whole words of specs/ and proofs/ and of the ghost lines of src/. Names of Rust functions, names that the check makes
(after 'goal.'), comments of src/ and strings stay. A second run changes nothing.
"""
import pathlib
import re

HERE = pathlib.Path(__file__).resolve().parent
TABLE = dict(line.split() for line in (HERE / "respelled.txt").read_text().splitlines())
WORD = re.compile(
    r"(?<![\w'-])(?<!goal\.)(" + "|".join(re.escape(old) for old in sorted(TABLE, key=len, reverse=True)) + r")(?![\w'-])"
)


def respelled(text):
    return WORD.sub(lambda match: TABLE[match.group(1)], text)


def respelled_source(text):
    lines = []
    for line in text.split("\n"):
        code, mark, comment = line.partition("//")
        lines.append(respelled(code) + mark + comment)
    return "\n".join(lines)


def main():
    changed = 0
    for path in sorted(pathlib.Path("crates").rglob("*")):
        if path.suffix not in (".antt", ".rt") or "out" in path.parts:
            continue
        before = path.read_text()
        after = respelled(before) if path.suffix == ".antt" else respelled_source(before)
        if after != before:
            path.write_text(after)
            changed += 1
    print("%d files changed" % changed)


main()
