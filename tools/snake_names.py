#!/usr/bin/env python3
"""Brings the repository's own definitions and lemmas to the spelling of today's Rattle: words in snake case, types in camel case.

usage: python3 tools/snake_names.py        at the top of the repository, once, right after port.py

It renames what is defined in specs/ and in the lemma files of proofs/ (and helpers beside a function's answers), wherever
it is cited in specs/, proofs/ and clauses, and in the pages between backticks. Names that Rattle makes, as those of goals,
strings, comments and the functions of src/ stay as they are. It prints each renaming, and stops where two names would fall
together.
"""

import os
import re
import sys

WORD = re.compile(r"(?<![\w'-])[A-Za-z][\w']*(?:-[\w']+)+")
DEFINED = re.compile(r"\s*(?:\| )?(?:abbrev |unfoldable |pub )*(?:record |data |ruleset )?(?:pub )?([^\s:(){},;]+)\s*(?:[({][^:]*:.*)?:\s")
# What a function's folder states are goals, whose names Rattle makes.
GOAL = re.compile(
    r"^(returns|loop|invariant|decreases|overflow|offset|unreachable|index|ghost)-|-requires(-|$)|^rows-(init|preserved)|^(init|preserved)-"
)
MARK = re.compile(r'"(?:\\.|[^"\\])*"|--[^\n]*|//[^\n]*')
TICKED = re.compile(r"`[^`\n]*`")


def files(top, *ends):
    for folder, dirs, names in os.walk(top):
        dirs[:] = sorted(d for d in dirs if d not in ("out", "must-fail"))
        for name in sorted(names):
            if name.endswith(ends):
                yield os.path.join(folder, name)


def is_answers(path):
    parts = path.split(os.sep)
    return "proofs" in parts and parts.index("proofs") < len(parts) - 2


def defined(path):
    for line in open(path, encoding="utf-8"):
        found = DEFINED.match(line.split("--")[0])
        if found and "-" in found.group(1) and WORD.fullmatch(found.group(1)):
            if not (is_answers(path) and GOAL.search(found.group(1))):
                yield found.group(1)


# The library has these words.
TAKEN = {"bit-and": "bit_of_and", "bit-or": "bit_of_or", "bit-xor": "bit_of_xor"}


def renamed(name):
    if name in TAKEN:
        return TAKEN[name]
    if name[0].isupper():
        return "".join(part[:1].upper() + part[1:] for part in name.split("-"))
    return name.replace("-", "_")


def main():
    sources = list(files("crates", ".antt", ".rt"))
    old = {n for p in sources if p.endswith(".antt") for n in defined(p)}
    new = {n: renamed(n) for n in old}
    words = set()
    for path in sources:
        if path.endswith(".antt"):
            text = MARK.sub(" ", open(path, encoding="utf-8").read())
            words |= set(re.findall(r"[A-Za-z][\w']*", text))
    together = {}
    for n, to in new.items():
        together.setdefault(to, []).append(n)
    bad = {to: ns for to, ns in together.items() if len(ns) > 1}
    if bad:
        print("fall together:", bad, file=sys.stderr)
        return 1
    for n in sorted(new):
        print(f"{n} -> {new[n]}" + ("   (that word is used already)" if new[n] in words else ""))

    def word(found):
        return new.get(found.group(0), found.group(0))

    def outside_marks(text):
        out, at = [], 0
        for mark in MARK.finditer(text):
            out.append(WORD.sub(word, text[at : mark.start()]))
            kept = mark.group(0)
            out.append(kept if kept[0] == '"' else TICKED.sub(lambda t: WORD.sub(word, t.group(0)), kept))
            at = mark.end()
        out.append(WORD.sub(word, text[at:]))
        return "".join(out)

    pages = [p for p in ["README.md", *files("docs", ".md")] if os.path.basename(p) != "PORT.md"]
    for path in [*sources, *pages]:
        text = open(path, encoding="utf-8").read()
        to = TICKED.sub(lambda t: WORD.sub(word, t.group(0)), text) if path.endswith(".md") else outside_marks(text)
        if to != text:
            open(path, "w", encoding="utf-8").write(to)
    return 0


if __name__ == "__main__":
    raise SystemExit(main())
