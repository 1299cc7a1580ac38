#!/usr/bin/env python3
"""Lists places in src/ that may be written in a plainer form, by kind, as docs/DESIGN-PASS.md counts them.

Usage: python3 tools/count_forms.py [COMMIT]      of the files as they stand, or at a commit

It goes by text and by names, so each line is a place to look at and not a fault. Tests are left out.
"""
import collections
import difflib
import itertools
import re
import subprocess
import sys


def lines(*args):
    return subprocess.run(["git", *args], capture_output=True, text=True, check=True).stdout.splitlines()


def sources(commit):
    """Path and text of each source file, without its tests."""
    names = lines("ls-tree", "-r", "--name-only", commit) if commit else lines("ls-files", "-co", "--exclude-standard")
    for name in names:
        if re.match(r"crates/\w+/src/.*\.rt$", name) and not name.endswith("tests.rt"):
            text = "\n".join(lines("show", f"{commit}:{name}")) if commit else open(name).read()
            yield name.removeprefix("crates/").replace("/src/", "/"), text.split("#[cfg(test)]\nmod tests {")[0]


def code(text):
    return re.sub(r"//[^\n]*|ghost use [^\n]*|(requires|ensures)[^\n]*", "", text)


def functions(text):
    """Name, parameters, result and body of each function."""
    text = code(text)
    for m in re.finditer(r"\bfn (\w+)(<(?:[^<>]|->|<[^<>]*>)*>)?\(((?:[^()]|\(\))*)\)\s*(->[^{;]*)?\{", text):
        depth, end = 1, m.end()
        while depth:
            depth += {"{": 1, "}": -1}.get(text[end], 0)
            end += 1
        yield m.group(1), m.group(3), m.group(4) or "", text[m.end() : end - 1]


def grep(files, pattern):
    return [f"{name}:{n + 1}: {line.strip()}" for name, text in files for n, line in enumerate(code(text).splitlines()) if re.search(pattern, line)]


def two_cases(files):
    """Enums with two cases, of which one at least holds a value."""
    for name, text in files:
        for m in re.finditer(r"enum (\w+)(<[^{]*>)? \{([^}]*)\}", code(text)):
            cases = [c.strip() for c in m.group(3).split(",\n") if c.strip()]
            if len(cases) == 2 and any("(" in c for c in cases):
                yield f"{name}: enum {m.group(1)}"


def answers_by_bool(files):
    for name, text in files:
        for fn, params, result, _ in functions(text):
            if result.strip() == "-> bool" and "&mut " in params:
                yield f"{name}: {fn}"


def twins(files):
    """Functions whose code is nearly the same, name for name, and types of the same name."""
    parts = []
    for name, text in files:
        for fn, params, result, body in functions(text):
            tokens = re.findall(r"\w+|[^\w\s]", params + result + body)
            if len(tokens) >= 12:
                parts.append((f"{name}: {fn}", tokens))
    for (a, x), (b, y) in itertools.combinations(parts, 2):
        if difflib.SequenceMatcher(None, x, y, autojunk=False).ratio() >= 0.8:
            yield f"{a} and {b}"
    types = collections.defaultdict(list)
    for name, text in files:
        for m in re.finditer(r"\b(?:enum|struct) (\w+)", code(text)):
            types[m.group(1)].append(name)
    for type_name, places in types.items():
        if len(places) > 1:
            yield f"type {type_name}: {' '.join(places)}"


def requirements(files):
    found = collections.defaultdict(list)
    for name, text in files:
        for m in re.finditer(r"requires( \w+)? \{(.*)\}", re.sub(r"\.(old|now)\b", "", text)):
            found[m.group(2).strip()].append(name)
    return [f"{len(places)} times: {fact}" for fact, places in found.items() if len(places) >= 3]


def travelling(files):
    found = collections.defaultdict(list)
    for name, text in files:
        for fn, params, _, _ in functions(text):
            names = {p.split(":")[0].replace("mut ", "").strip() for p in params.split(",") if ":" in p} - {"heap", "rt", "f"}
            for pair in itertools.combinations(sorted(names), 2):
                found[pair].append(f"{name}: {fn}")
    return [f"{len(places)} times: {' and '.join(pair)} ({'; '.join(places)})" for pair, places in found.items() if len(places) >= 3]


def main():
    commit = sys.argv[1] if len(sys.argv) > 1 else ""
    files = list(sources(commit))
    kinds = [
        ("1 enums of two cases, one with a value", list(two_cases(files))),
        ("1 an error in an Option", grep(files, r"Option<(Refusal|Reason|\w*Error|\w*Fault)>")),
        ("1 a change answered by a bool", list(answers_by_bool(files))),
        ("1 a case that says that there is none", grep(files, r"^\s+(Unknown|Nothing|Invalid),")),
        ("2 near twins", list(twins(files))),
        ("3 loops by an index, while, loop", grep(files, r"\bfor \w+ in .*\.\.|\bwhile\b|\bloop \{")),
        ("4 conversion, comparison and printing by hand", grep(files, r"\bfn (text|number|of|heard|told|shown|refusal|or_\w+|eq|cmp|clone|is|\w*_text|text_of|to_\w+|from_\w+)\(")),
        ("5 a requirement of three functions or more", requirements(files)),
        ("5 parameters together in three functions or more", travelling(files)),
        ("6 fixed arrays, lent words, sorted by hand", grep(files, r"^\s+(pub |pub\(crate\) )?\w+: (&'\w+ mut \[u32\]|\[\w+; WIRES\]|usize),|binary_search")),
        ("7 a switch on a step, tables of functions", grep(files, r"match (part|step|kind|which)\b|\bdyn |: fn\(|enum (Part|Step)\b")),
    ]
    for kind, places in kinds:
        print(f"{kind}: {len(places)}")
        for place in places:
            print(f"    {place}")


main()
