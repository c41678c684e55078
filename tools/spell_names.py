#!/usr/bin/env python3
"""Spells this repository's own definitions and lemmas as today's Rattle does.

usage: python3 tools/spell_names.py        at the top of a checkout, once, after the kit's port.py

A name of ours with dashes gets underscores (value-at: value_at), and one that begins with a capital is put
together (Well-formed: WellFormed). Names of the library, names that Rattle makes (goals, steps) and texts in
quotes stay. It stops where two names would fall together.
"""

import collections
import os
import re
import sys

DECLARED = re.compile(r"\s*(?:(?:pub|abbrev|unfoldable|opaque|mutual)\s+)*(?:(?:data|record)\s+([A-Za-z_][\w'\-]*)\s+[({:]|([A-Za-z_][\w'\-]*)\s+:\s)")
IMPORTED = re.compile(r"\buse ([^\s{]+)\.\{([^}]*)\}")
MADE = re.compile(r"(?m)^\s*(?:pub |abbrev |unfoldable )*([A-Za-z][\w'\-]*) : (?:goal|given|need)\.")
ALIAS = re.compile(r" as ([A-Za-z][\w']*(?:-[\w'>]+)+)")
BOUND = re.compile(r"\blet ([A-Za-z][\w']*(?:-[\w'>]+)+)")
TOKEN = re.compile(r"[A-Za-z_][\w'₀-₉≡≢≤<>-]*")
QUOTED = re.compile(r"b?\"(?:[^\"\\]|\\.)*\"")


def files(root):
    for folder, dirs, names in os.walk(os.path.join(root, "crates")):
        dirs[:] = sorted(d for d in dirs if d not in ("out", "data"))
        for name in sorted(names):
            if name.endswith((".rt", ".antt")):
                yield os.path.join(folder, name)


def read(path):
    with open(path, encoding="utf-8") as f:
        return f.read()


def spelled(name):
    if name[0].isupper():
        return "".join(part[0].upper() + part[1:] for part in name.split("-"))
    return name.replace("-", "_")


def renamings(texts):
    declared, made, other, taken = set(), set(), set(), set()
    crates = set(os.listdir("crates"))
    for path, text in texts.items():
        made.update(MADE.findall(text))
        other.update(ALIAS.findall(text) + BOUND.findall(text))
        for module, names in IMPORTED.findall(text):
            if module.split(".")[1] not in crates:
                taken.update(n.split(" as ")[0].strip() for n in names.split(","))
        if path.endswith(".antt"):
            for line in text.split("\n"):
                found = DECLARED.match(line)
                if found and not line.lstrip().startswith("--"):
                    declared.add(found.group(1) or found.group(2))
    ours = {n for n in (declared | other) - made - taken if re.fullmatch(r"[A-Za-z][\w']*(?:-[\w']+)+", n)}
    to = {n: spelled(n) for n in ours}
    count = collections.Counter(to.values())
    together = sorted(n for n in ours if count[to[n]] > 1 or to[n] in declared)
    if together:
        sys.exit("these names would fall together with others: " + ", ".join(together))
    return to


def respell(text, to):
    return TOKEN.sub(lambda m: to.get(m.group(0), m.group(0)), text)


def main():
    texts = {p: read(p) for p in files(".")}
    to = renamings(texts)
    for path, text in texts.items():
        kept = QUOTED.split(text) if path.endswith(".rt") else [text]
        quoted = QUOTED.findall(text) if path.endswith(".rt") else []
        new = respell(kept[0], to)
        for text_in_quotes, rest in zip(quoted, kept[1:]):
            new += text_in_quotes + respell(rest, to)
        if new != text:
            with open(path, "w", encoding="utf-8") as f:
                f.write(new)
    print(f"{len(to)} names spelled anew")


if __name__ == "__main__":
    main()
