#!/usr/bin/env python3
"""Spells the repository's own definitions and lemmas as today's Rattle does: words in snake case, facts in upper camel case.

usage: python3 tools/spell_names.py [--try]     at the top of the repository, once, after port.py

A lemma named for the left side of its equation keeps the dash behind the outer call, as length-bytes_of.
Names of src/, of the library and of what the check generates (answers, invariants) are left as they are.
With --try it only says which names would fall together with another one of the same file.
"""

import os
import re
import subprocess
import sys

TOKEN = re.compile(r"[A-Za-z_][\w'-]*")
MADE = ("Answers.antt", "Invariants.antt", "Proof.antt")
DEFINED = re.compile(r"\s*(?:(?:unfoldable|abbrev|pub|private)\s+)*([A-Za-z_][\w'-]*)\s*:(?:\s|$)")
TYPED = re.compile(r"\s*(?:pub\s+)?(?:record|data)\s+(?:pub\s+)?([A-Za-z_][\w'-]*)")
OUTER = ("length-", "getD-", "get_or-")
# names of which the rule would make one that is taken
APART = {
    # in the same file
    "after-hearing": "heard_after_hearing",
    "is-better": "better_passes",
    "may-wire": "may_wire_apart",
    # what would read as a variant of an enum, or as a tactic
    "No-wire": "NoWireTo",
    "first_of": "first_that",
}


def texts():
    for folder, dirs, files in os.walk("crates"):
        dirs[:] = sorted(d for d in dirs if d != "out")
        for f in sorted(files):
            if f.endswith((".rt", ".antt")):
                yield os.path.join(folder, f)


def read(path):
    with open(path, encoding="utf-8") as f:
        return f.read()


def snake(name):
    parts = re.sub(r"([a-z0-9])([A-Z])", r"\1_\2", name).replace("-", "_")
    return parts.lower()


def spelled(name):
    if name in APART:
        return APART[name]
    if name[0].isupper():
        return "".join(p[0].upper() + p[1:] for p in name.split("-"))
    for outer in OUTER:
        if name.startswith(outer):
            return outer.replace("getD", "get_or") + snake(name[len(outer):])
    return snake(name)


def renamings():
    found = {}
    for p in texts():
        if p.endswith(".rt") or "/proofs/" in p and os.path.basename(p) in MADE:
            continue
        for line in read(p).splitlines():
            for pattern in (DEFINED, TYPED):
                m = pattern.match(line)
                if m and spelled(m.group(1)) != m.group(1) and ("-" in m.group(1) or m.group(1)[0].islower()):
                    found[m.group(1)] = spelled(m.group(1))
    return found


def together(path, text, names):
    said = set(TOKEN.findall(text))
    new = {}
    for t in sorted(said):
        if t in names:
            new.setdefault(names[t], []).append(t)
    for n, olds in sorted(new.items()):
        if len(olds) > 1 or n in said:
            print(f"{path}: {' '.join(olds)} and {n} fall together")


def turned(line, mark, names):
    """A line with its names respelled; in what follows a comment's mark only camel case and what stands in backquotes."""
    code, sign, said = line.partition(mark)
    code = TOKEN.sub(lambda m: names.get(m.group(0), m.group(0)), code)
    said = TOKEN.sub(lambda m: names.get(m.group(0), m.group(0)) if "-" not in m.group(0) else m.group(0), said)
    said = re.sub(r"`[^`]*`", lambda m: TOKEN.sub(lambda t: names.get(t.group(0), t.group(0)), m.group(0)), said)
    return code + sign + said


def main(argv):
    names = renamings()
    for p in texts():
        text = read(p)
        if argv == ["--try"]:
            together(p, text, names)
            continue
        mark = "//" if p.endswith(".rt") else "-- "
        new = "\n".join(turned(l, mark, names) for l in text.split("\n"))
        if new != text:
            with open(p, "w", encoding="utf-8") as f:
                f.write(new)
    if not argv:
        for crate in sorted(os.listdir("crates")):
            subprocess.run(["rt", "fmt"], cwd=os.path.join("crates", crate), check=True, stdout=subprocess.DEVNULL)
    print(f"{len(names)} names")
    return 0


if __name__ == "__main__":
    raise SystemExit(main(sys.argv[1:]))
