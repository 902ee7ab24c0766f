#!/usr/bin/env python3
"""Brings the repository's own definitions, fields and lemmas to snake case, `isFull` to `is_full`, `row-apart` to `row_apart`,
and its types to camel case, `Only-cross` to `OnlyCross`.

usage: python3 tools/respell.py        at the top, once, after the kit's port.py

What it leaves: names of modules, names that Rattle makes (goals, invariants), names of the library,
functions of src/, strings. It says where two names fall together, and then writes nothing.
"""

import collections
import os
import re
import sys

WORD = re.compile(r"(?<![\w'-])[A-Za-z][\w'-]*")
CAMEL = re.compile(r"[a-z][a-z0-9]*(?:[A-Z][A-Za-z0-9']*)+")
TYPE = re.compile(r"^\s*(?:abbrev |unfoldable )?(?:pub )?(?:record |data )?([A-Z]\w*(?:-\w+)+) :.*Type \d$", re.M)
DEFINED = re.compile(r"^\s*(?:abbrev |unfoldable )?(?:pub )?([a-z][\w'-]*) :", re.M)
# names of Rattle's own or the library's that look like ours
MADE = re.compile(r"(?:loop|returns|invariant|decreases|overflow|nonzero|bounds|in|if)-|.*-requires(?:-|$)")


def files(ends):
    for folder, dirs, names in os.walk("crates"):
        dirs[:] = sorted(d for d in dirs if d != "out")
        for name in sorted(names):
            if name.endswith(ends):
                yield os.path.join(folder, name)


def snake(name):
    name = re.sub(r"([A-Z])", lambda m: "_" + m.group(1).lower(), name)
    return name.replace("-", "_")


def camel(name):
    return "".join(part[0].upper() + part[1:] for part in name.split("-"))


def read(path):
    with open(path, encoding="utf-8") as f:
        return f.read()


def library_names(texts):
    """Names that are brought in from somewhere else than a crate of this repository."""
    ours = {d for d in os.listdir("crates")}
    found = set()
    for text in texts.values():
        for path, names in re.findall(r"\buse ([\w.·'+-]+)\.\{([^}]*)\}", text):
            parts = path.split(".")
            if parts[0] == "Rattle" and len(parts) > 1 and parts[1] in ours:
                continue
            found |= {n.split(" as ")[0].strip() for n in names.split(",")}
    return found


def renames(texts):
    library = library_names(texts)
    words = collections.defaultdict(set)
    defined = collections.defaultdict(set)
    for path, text in texts.items():
        for m in WORD.finditer(text):
            words[m.group()].add(path)
        for m in DEFINED.finditer(text):
            defined[m.group(1)].add(path)
    turned = {}
    for text in texts.values():
        for m in TYPE.finditer(text):
            turned[m.group(1)] = camel(m.group(1))
    for word in words:
        if word in library or MADE.match(word):
            continue
        if CAMEL.fullmatch(word):
            turned[word] = snake(word)
        elif "-" in word and word in defined:
            turned[word] = snake(word)
    clashes = []
    by_new = collections.defaultdict(list)
    for old, new in turned.items():
        by_new[new].append(old)
        if new in defined:
            clashes.append((old, new, sorted(defined[new])[:3]))
        elif new in library:
            clashes.append((old, new, ["the library"]))
    for new, olds in by_new.items():
        if len(olds) > 1:
            clashes.append((" and ".join(sorted(olds)), new, []))
    return turned, clashes


# where two names fall together, the name that one of them gets instead
APART = {
    "is-step": "step_is",
    "on-side": "side_is",
    "asked_by": "asked_by_lem",
    "askedBy": "asked_by",
    "same-side": "same_side_lem",
    "step-b": "step_b_lem",
    "slip-number": "slip_number_lem",
    "quote-from": "quote_from_lem",
    "not-asked": "not_asked_lem",
    "spent-by": "spent_by_lem",
    "told-lines": "told_lines_lem",
}


def clause_parts(text):
    """Spans of a .rt file that are ghost text: ghost items and what stands in the braces of a clause."""
    spans = []
    for m in re.finditer(r"^\s*(?:pub )?ghost [^;{]*(?:\{[^}]*\})?[^;\n]*;?", text, re.M):
        spans.append(m.span())
    for m in re.finditer(r"\b(?:ensures|requires)\b[^{\n]*\{|\bghost \w+:? ?=? ?\{", text):
        depth, at = 1, m.end()
        while at < len(text) and depth:
            depth += {"{": 1, "}": -1}.get(text[at], 0)
            at += 1
        spans.append((m.start(), at))
    return spans


def turn(text, names):
    def word(m):
        return names.get(m.group(), m.group())

    return WORD.sub(word, text)


def turn_source(text, names):
    out, at = [], 0
    for start, end in sorted(clause_parts(text)):
        if start < at:
            start = at
        if end <= start:
            continue
        out.append(text[at:start])
        out.append(turn(text[start:end], names))
        at = end
    out.append(text[at:])
    return "".join(out)


def main():
    proofs = {p: read(p) for p in files(".antt")}
    names, clashes = renames(proofs)
    names.update(APART)
    clashes = [c for c in clashes if not any(old in APART for old in c[0].split(" and "))]
    for old, new, where in clashes:
        print(f"falls together: {old} -> {new} {' '.join(where)}")
    if clashes:
        return 1
    for path, text in proofs.items():
        new = turn(text, names)
        if new != text:
            with open(path, "w", encoding="utf-8") as f:
                f.write(new)
    for path in files(".rt"):
        text = read(path)
        new = turn_source(text, names)
        if new != text:
            with open(path, "w", encoding="utf-8") as f:
                f.write(new)
    for old in sorted(names):
        print(f"{old} {names[old]}")
    return 0


if __name__ == "__main__":
    sys.exit(main())
