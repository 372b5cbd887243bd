#!/usr/bin/env python3
"""Brings the repository's own definitions, lemmas and fields to snake case, once, right after the toolchain's port.py.

usage: python3 tools/respell.py [ROOT]

Words are in snake case, types and modules in camel case. A lemma whose name would become that of the definition it speaks of,
where a file has both, gets `_lem` behind it, as the style of the toolchain's guides has it. Names of code, of the library, of
what the toolchain makes for a function's proof, strings and files that are read or compared stay.
Each renaming is printed as a line `old new`.
"""

import collections
import os
import re
import sys

ROOT = os.path.abspath(sys.argv[1] if len(sys.argv) > 1 else ".")
CRATES = os.path.join(ROOT, "crates")
WORD = re.compile(r"(?<![\w'₀-₉-])[^\W\d_][\w'₀-₉]*(?:-[\w'₀-₉]+)*")
OWN = set(os.listdir(CRATES))
# Lemmas that port.py has already brought to snake case, where a definition in camel case would now get the same name.
TAKEN = {name: name + "_lem" for name in ("left_over", "line_after", "first_kind", "lines_fit", "found_none")}
MADE = re.compile(r"(invariant|decreases)-\w+|[\w-]+-spec")


def snake(word):
    word = word.replace("-", "_").replace("getD", "get_d")
    return re.sub(r"(?<=[a-z0-9'₀-₉])([A-Z])(?=[a-z])", lambda m: "_" + m.group(1).lower(), word)


def is_long(word):
    return "-" in word or re.search(r"[a-z0-9'₀-₉][A-Z][a-z]", word) is not None


def files(ending):
    for folder, dirs, names in os.walk(CRATES):
        dirs[:] = sorted(d for d in dirs if d != "out")
        for name in sorted(names):
            if name.endswith(ending):
                yield os.path.join(folder, name)


def read(path):
    with open(path, encoding="utf-8", newline="") as it:
        return it.read()


def split(line, mark):
    """A line's code and its comment."""
    at = re.search(r"(^|\s)" + mark + r"( |$)", line)
    return (line, "") if at is None else (line[: at.start()], line[at.start() :])


def is_function_proof(path):
    return path.endswith("/Proof.antt")


# THE NAMES
imported = set()
found = collections.defaultdict(set)
every = collections.defaultdict(set)
top = set()
for path in files(".antt"):
    for line in read(path).split("\n"):
        code, _ = split(line, "--")
        use = re.match(r"\s*(?:pub )?use (\S+?)\.\{(.*)\}", code)
        if use:
            first = use.group(1).split(".")
            if not (first[0] == "Rattle" and first[1] in OWN):
                imported.update(w.strip() for part in use.group(2).split(",") for w in part.split(" as "))
        law = not is_function_proof(path)
        for word in WORD.findall(code) if law else ():
            every[word].add(path)
            if is_long(word):
                found[word].add(path)
        sign = re.match(r"\s*((?:(?:pub|abbrev|unfoldable) )*)((?:%s )+):" % WORD.pattern, code)
        if sign:
            top.update(sign.group(2).split())

own = {w: snake(w) for w in found if w not in imported and (w[0].islower() or (w in top and "-" in w))}
groups = collections.defaultdict(set)
for word, to in own.items():
    groups[to].add(word)
for to, words in groups.items():
    hyphened = {w for w in words if "-" in w}
    others = [w for w in words if w not in hyphened] + ([to] if to in every and to not in words and to not in TAKEN else [])
    for word in hyphened:
        if any(every[word] & every[other] for other in others):
            own[word] = to + "_lem"
for word, to in TAKEN.items():
    own[word] = to
own = {w: to for w, to in own.items() if w != to}


def turned(text, table):
    return WORD.sub(lambda m: table.get(m.group(0), m.group(0)), text)


camel = {w: to for w, to in own.items() if "-" not in w and w not in TAKEN}


def comment(text, mark):
    """In a comment: words in camel case, and of the list of names with which a file begins the others too."""
    names = re.match(r"(\s*" + mark + r"   +)(.*?)(   *.*)?$", text, re.S)
    if names:
        listed = turned(names.group(2), {w: to for w, to in own.items() if w in top or w in camel})
        return names.group(1) + re.sub(r"(?<=, )-(?=\w)", "_", listed) + turned(names.group(3) or "", camel)
    return turned(text, camel)


def proof(text, path):
    table = own
    if is_function_proof(path):
        local = re.findall(r"(?m)^(?:abbrev |pub )*(%s) :" % WORD.pattern, text)
        table = own | {w: snake(w) for w in local if "-" in w and not MADE.fullmatch(w)}
    out = []
    for line in text.split("\n"):
        code, rest = split(line, "--")
        out.append(turned(code, table) + comment(rest, "--"))
    return "\n".join(out)


def source(text):
    """In code: the clauses and the ghost imports."""
    out, depth = [], 0
    for line in text.split("\n"):
        code, rest = split(line, "//")
        if depth or re.match(r"\s*(requires|ensures|ghost)\b", code):
            depth = max(0, depth + code.count("{") - code.count("}"))
            code = turned(code, own)
        out.append(code + comment(rest, "//"))
    return "\n".join(out)


def page(text):
    """In a page: words between backquotes, those too that port.py has brought to snake case."""
    named = {w: to for w, to in own.items() if w in top or w in camel}

    def one(m):
        word = m.group(0)
        return named.get(word) or (snake(word) if is_long(word) and word not in every and snake(word) in every else word)

    return re.sub(r"`[^`\n]+`", lambda m: WORD.sub(one, m.group(0)), text)


def write(path, text):
    if text != read(path):
        with open(path, "w", encoding="utf-8", newline="") as it:
            it.write(text)


for path in files(".antt"):
    write(path, proof(read(path), path))
for path in files(".rt"):
    write(path, source(read(path)))
for folder in (ROOT, os.path.join(ROOT, "docs"), os.path.join(ROOT, "docs", "landings")):
    for name in sorted(os.listdir(folder)):
        if name.endswith(".md"):
            write(os.path.join(folder, name), page(read(os.path.join(folder, name))))
for word in sorted(own):
    print(word, own[word])
