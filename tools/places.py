#!/usr/bin/env python3
"""Counts places in crates/*/src where a plainer form of Rust might stand (docs/DESIGN-PASS.md). With --list it prints each."""
import collections
import glob
import re
import sys

FILES = {f: open(f).read() for f in sorted(glob.glob("crates/*/src/**/*.rt", recursive=True))}

# A place is a line that one of the point's patterns finds.
PATTERNS = {
    "1 hand-written `?`, map or ok_or": [
        r"Err\((why|e)\) => return",
        r"\bNone => None\b",
        r"\bErr\((why|e)\) => Err\(",
        r"\bOk\(\(\)\) => Ok\(\(\)\)",
        r"let (Some|Ok)\(\w+\) = .* else \{$",
    ],
    "1 success told by a bool": [r"fn \w+.*&mut .*-> bool"],
    "1 a value that stands for none": [r"= u\d+::MAX;", r"^(pub(\(crate\))? )?const (UNUSED|NO_\w+)"],
    "3 index loops and counters": [r"for \w+ in \(?\w[\w.()+ ]*\.\.", r"\b(at|i) \+= 1;"],
    "3 library methods by hand": [r"if len < MOST", r"\.len\(\) == 0\b"],
    "4 equality by hand": [r"fn equals\b"],
    "4 conversion by hand": [r"fn (number|name|of_letter|capital|to_byte)\b"],
    "4 printing by hand": [r"fn (put_\w+|write_fault|control_text)\b.*(u8|str)"],
    "6 buffers and arrays in structs": [r"^\s+(pub )?\w+: \[.*; \d+\],", r"-> .*\[\w+; \d+\], "],
    "7 switches on an end, a call or a kind": [r"match (end|call|edit|ending|line|self) \{"],
}


def functions(text):
    """Each function's name and body."""
    lines = text.splitlines()
    for i, line in enumerate(lines):
        head = re.match(r"( *)(?:pub(?:\(\w+\))? )?(?:final )?fn (\w+)", line)
        if not head or line.rstrip().endswith(("}", ";")):
            continue
        opened = next((k for k in range(i, len(lines)) if lines[k].endswith(("{", ";"))), None)
        if opened is None or lines[opened].endswith(";"):
            continue
        closed = next(k for k in range(opened, len(lines)) if lines[k] == head.group(1) + "}")
        yield head.group(2), "\n".join(lines[opened + 1 : closed])


def shape(body):
    """A body with its names and numbers left out."""
    words = re.findall(r"[A-Za-z_]\w*|\d+|\S", re.sub(r"//.*", "", body))
    keep = {"if", "else", "for", "in", "while", "match", "return", "let", "mut", "Ok", "Err", "Some", "None", "self"}
    return tuple(w if w in keep else "x" if re.match(r"\w", w) else w for w in words)


def twins():
    """Functions whose bodies have one shape, of twelve words at least."""
    groups = collections.defaultdict(list)
    for f, text in FILES.items():
        for name, body in functions(text):
            s = shape(body)
            if len(s) >= 12:
                groups[s].append(f"{f}: {name}")
    return [g for g in groups.values() if len(g) > 1]


def repeated():
    """Clauses that three or more contracts of a crate hold."""
    count = collections.Counter()
    for f, text in FILES.items():
        crate = f.split("/")[1]
        for m in re.finditer(r"^\s*(requires|ensures)\s*\w*\s*\{ (.*?) \}\s*$", text, re.M):
            count[crate, m.group(1), m.group(2)] += 1
    return [(n, *k) for k, n in count.items() if n >= 3]


def main():
    listed = "--list" in sys.argv[1:]

    def show(point, rows):
        print(f"{len(rows):4} {point}")
        if listed:
            for row in rows:
                print("       ", row)

    for point, patterns in PATTERNS.items():
        show(point, [f"{f}:{n}: {line.strip()}" for f, text in FILES.items()
                     for n, line in enumerate(text.splitlines(), 1)
                     if any(re.search(p, line) for p in patterns)])
    show("2 groups of functions of one shape", [" = ".join(g) for g in twins()])
    show("5 clauses in three contracts or more", [f"{c}: {n} times {kind} {{ {fact} }}" for n, c, kind, fact in sorted(repeated(), reverse=True)])


main()
