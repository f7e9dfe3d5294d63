#!/usr/bin/env python3
"""Brings the repository's own definitions and lemmas to the library's spelling, once, after the kit's port.py:
functions, lemmas, fields and constructors in snake case, types and laws in camel case. Functions of src/,
strings, inputs and outputs keep their names. Names that the library gives, or that the check makes, stay.

usage: python3 tools/respell.py        at the top of the repository; prints each name that it turned
"""
import collections
import glob
import re
import sys

# A lemma that would take the name of the definition it speaks of has an ending of its own.
APART = {
    "data-tag": "data_tag_lem",
    "mean-of": "mean_of_lem",
    "item-at": "item_at_lem",
    "entry-fits": "entry_fits_lem",
    "day-fits": "day_fits_lem",
    "exposure-fits": "exposure_fits_lem",
    "new-fits": "new_fits_lem",
    "old-fits": "old_fits_lem",
    "answer-of": "answer_of_lem",
}
# The library's script had turned this lemma already, to the name of a definition below it.
APART_IN = {"crates/pledgor/": {"table_fits": "table_fits_lem"}}

WORD = re.compile(r"[^\s(){}\[\];:,.«»|λ⌜⌝]+")
DECLARED = re.compile(r"^\s*(?:pub |abbrev |unfoldable |data |record )*([^\s(){};:,.|]+)(?: [^:\n]*)? : (.*)$", re.M)


def files(*patterns):
    return sorted(p for x in patterns for p in glob.glob(x, recursive=True))


def read(path):
    with open(path, encoding="utf-8") as f:
        return f.read()


def turned(name):
    if name in APART:
        return APART[name]
    if name[0].isupper():
        return re.sub(r"-(\w)", lambda m: m.group(1).upper(), name)
    name = re.sub(r"([a-z0-9])([A-Z])", lambda m: m.group(1) + "_" + m.group(2).lower(), name)
    return name.replace("-", "_")


def names():
    own, made = set(), set()
    for path in files("crates/*/specs/**/*.antt", "crates/*/proofs/**/*.antt"):
        for m in DECLARED.finditer(read(path)):
            if m.group(2).split()[:1] and m.group(2).split()[0].startswith("goal."):
                made.add(m.group(1))
            else:
                own.add(m.group(1))
    return {n: turned(n) for n in own - made if turned(n) != n}


def imported(text):
    """The names that a file takes from the library."""
    found = set()
    for m in re.finditer(r"^(?:ghost )?use (\S+?)\.\{([^}]*)\}", text, re.M):
        root = m.group(1).split(".")
        if root[0] != "Rattle" or root[1] in ("std", "core", "io"):
            found |= {x.strip().split(" ")[0] for x in m.group(2).split(",")}
    return found


def antt(text, table):
    """Code is turned word by word; a comment only where a name cannot be plain English."""
    skip = imported(text)

    def word(m):
        return m.group(0) if m.group(0) in skip else table.get(m.group(0), m.group(0))

    out = []
    for line in text.split("\n"):
        at = re.search(r"(^|\s)-- ?", line)
        code, said = (line, "") if not at else (line[: at.start()], line[at.start():])
        out.append(WORD.sub(word, code) + comment(said, table))
    return "\n".join(out)


def comment(text, table):
    def word(m):
        w = m.group(0)
        plain = not (re.search(r"[a-z][A-Z]", w) or (w[0].isupper() and w.count("-") > 0))
        return w if plain else table.get(w, w)

    return re.sub(r"[A-Za-z][\w'-]*", word, text)


def rattle(text, table):
    """Ghost imports and attributes are turned whole, and what stands between the braces of a clause or a ghost item."""
    out, at = [], 0
    start = re.compile(r"^ghost use [^;]*;|^\s*ghost use [^;]*;|#!?\[tactic[^\]]*\]|(?:requires|ensures)\*? ?[\w]* ?\{|ghost \w+(?: =|:) ?\{", re.M)
    for m in iter(lambda: start.search(text, at), None):
        out.append(text[at: m.start()])
        end = m.end()
        if m.group(0).endswith("{"):
            depth = 1
            while depth:
                depth += {"{": 1, "}": -1}.get(text[end], 0)
                end += 1
        out.append(WORD.sub(lambda w: table.get(w.group(0), w.group(0)), text[m.start(): end]))
        at = end
    out.append(text[at:])
    lines = "".join(out).split("\n")
    return "\n".join(x if "//" not in x else x[: x.index("//")] + comment(x[x.index("//"):], table) for x in lines)


def main():
    table = names()
    fallen = collections.defaultdict(set)
    for old, new in table.items():
        fallen[new].add(old)
    for new, olds in fallen.items():
        if len(olds) > 1:
            sys.exit("respell: %s all become %s" % (sorted(olds), new))
    for path in files("crates/*/specs/**/*.antt", "crates/*/proofs/**/*.antt", "crates/*/src/**/*.rt"):
        mine = dict(table)
        for folder, more in APART_IN.items():
            if path.startswith(folder) and "/proofs/" in path:
                mine.update(more)
        old = read(path)
        new = (rattle if path.endswith(".rt") else antt)(old, mine)
        if new != old:
            with open(path, "w", encoding="utf-8") as f:
                f.write(new)
    for path in files("README.md", "docs/*.md"):
        old = read(path)
        new = re.sub(r"`([^`\n]+)`", lambda m: "`" + comment(m.group(1), table) + "`", old)
        if new != old:
            with open(path, "w", encoding="utf-8") as f:
                f.write(new)
    for old in sorted(table):
        print(old, table[old])


if __name__ == "__main__":
    main()
