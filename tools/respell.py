#!/usr/bin/env python3
"""Spells this repository's own definitions and lemmas in snake case: allZero becomes all_zero, hexBytes-append hex_bytes-append.

usage: tools/respell.py [--list] [FOLDER]

Run once, at the top, right behind the kit's port.py. A name turns where a text of specs/ or proofs/ declares it with a small first
letter and a capital behind it: in those texts, in clauses and 'ghost use' lines of src/, in the wrong versions' texts of either, and in
what docs/ and README.md cite in backquotes. Types and modules keep their capitals, a dash goes on joining two names, and functions of src/,
exported names, strings, inputs and outputs stay. Two lemmas that would get their function's name end in _lem.
The crate hex becomes hex_text, since Rattle has a library of the old name. It stops, with nothing written, where two names would fall together.
"""

import os
import re
import sys

WORD = r"[^\s(){}.;,@\"«»:`|\[\]]+"
DECLARED = re.compile(rf"^ *(?:(?:pub|abbrev|unfoldable) +)*({WORD}(?: {WORD})*)(?:(?: \{{[^}}]*\}})|(?: \([^)]*\)))* :(?= |$)", re.M)
CLAUSE = re.compile(r"(?:requires|ensures)\s*\*?\s*(?:\w+\s*)?\{|ghost\s*(?:\w+\s*(?::\s*(?:(?:owns|lends)\s*)?|=\s*))?\{")
GHOST_USE = re.compile(r"ghost\s+use\b[^;]*;")
# A word as antt cuts words, and one as a page's backquotes hold it.
WHOLE = re.compile(WORD)
# Lemmas that would have their function's name.
LEMMAS = {"length_found": "length_found_lem", "word_sum": "word_sum_lem"}


def snake(name):
    return re.sub(r"(?<=[a-z0-9])[A-Z]", lambda m: "_" + m[0].lower(), name)


def files(root, *endings):
    for folder, dirs, names in os.walk(root):
        dirs[:] = [d for d in dirs if d not in ("out", ".git", "target", "build")]
        for name in names:
            if name.endswith(endings):
                yield os.path.join(folder, name)


def read(path):
    with open(path, encoding="utf-8") as f:
        return f.read()


def declared(texts):
    found = set()
    for text in texts:
        for line in DECLARED.finditer(re.sub(r"--[^\n]*", "", text)):
            found |= set(line[1].split())
    return {n for n in found if re.match(r"[a-z]", n) and re.search(r"[a-z0-9][A-Z]", n)}


def closing(text, i):
    deep = 0
    for k in range(i, len(text)):
        deep += (text[k] == "{") - (text[k] == "}")
        if not deep:
            return k + 1
    return len(text)


def turn_words(text, table):
    return WHOLE.sub(lambda m: table.get(m[0], m[0]), text)


def turn_source(text, table):
    """Clauses and 'ghost use' items alone."""
    out, at = [], 0
    spans = [(m.start(), m.end()) for m in GHOST_USE.finditer(text)]
    spans += [(m.start(), closing(text, m.end() - 1)) for m in CLAUSE.finditer(text)]
    for a, b in sorted(spans):
        if a < at:
            continue
        out += [text[at:a], turn_words(text[a:b], table)]
        at = b
    return "".join(out + [text[at:]])


def turn_edit(text, table):
    """The texts of an edit of specs/ or of a clause; the file that it edits stands before them."""
    out, antt = [], False
    for line in text.splitlines(keepends=True):
        if line.startswith("file:"):
            antt = line.strip().endswith(".antt")
        elif line.startswith(("old:", "new:")):
            line = turn_words(line, table) if antt else turn_source(line, table)
        out.append(line)
    return "".join(out)


def rename_crate(root, old, new):
    """In crates.txt, paths and calls; in pages, where a backquote holds it."""
    crates = os.path.join(root, "crates")
    turns = [
        ((".antt", ".rt", ".edit"), rf"(?<![\w.]){old}::(?=\w)", new + "::"),
        ((".antt", ".rt", ".edit"), rf"\bRattle\.{old}\.", f"Rattle.{new}."),
        ((".rt",), rf"(?m)^use {old}\b", "use " + new),
        ((".md",), rf"`{old}`", f"`{new}`"),
        ((".md",), rf"\bcrates/{old}/", f"crates/{new}/"),
    ]
    for path in [*files(crates, ".antt", ".rt", ".edit"), *files(os.path.join(root, "docs"), ".md"), os.path.join(root, "README.md")]:
        text = turned = read(path)
        for endings, pattern, to in turns:
            if path.endswith(endings) and not path.endswith("CHANGES.md"):
                turned = re.sub(pattern, to, turned)
        if turned != text:
            with open(path, "w", encoding="utf-8") as f:
                f.write(turned)
    path = os.path.join(root, "crates.txt")
    lines = [re.sub(rf"(?<!\w){old}(?!\w)", new, l) if not l.startswith("#") else l for l in read(path).splitlines(keepends=True)]
    with open(path, "w", encoding="utf-8") as f:
        f.write("".join(lines))
    os.rename(os.path.join(crates, old), os.path.join(crates, new))


def turn_page(text, table):
    return re.sub(r"(`+)[^`]+\1", lambda m: turn_words(m[0], table), text)


def main(words):
    only_list = "--list" in words
    rest = [w for w in words if w != "--list"]
    root = rest[0] if rest else "."
    crates = os.path.join(root, "crates")
    antt = {p: read(p) for p in files(crates, ".antt")}
    source = {p: read(p) for p in files(crates, ".rt")}
    table = {n: snake(n) for n in declared(antt.values())}
    if only_list:
        print("\n".join(f"{a} {b}" for a, b in sorted(table.items())))
        return 0
    bad = []
    ghosts = {}
    for path, text in antt.items():
        text = re.sub(r"--[^\n]*", "", text)
        ghosts[path] = {m[0] for m in WHOLE.finditer(text) if text[m.start() - 1 : m.start()] != "." and text[m.end() : m.end() + 1] != "."}
    for path, text in source.items():
        # What a clause can name: the words of clauses, parameters and fields. A function may be spelled like its definition.
        spans = [m[0].split("{")[-1] for m in GHOST_USE.finditer(text)] + [text[m.start() : closing(text, m.end() - 1)] for m in CLAUSE.finditer(text)]
        ghosts[path] = {w for s in spans for w in WHOLE.findall(s)} | set(re.findall(r"\b(\w+): ", text))
    every = set().union(*ghosts.values())
    for old, new in sorted(table.items()):
        if list(table.values()).count(new) > 1:
            bad.append(f"{old}: another name becomes {new}")
        for path, seen in ghosts.items():
            if new in seen and old in seen and new not in LEMMAS:
                bad.append(f"{path}: {old} would meet {new}")
    for line in bad:
        print("left: " + line)
    if bad:
        return 1
    for old, new in sorted(table.items()):
        if new in every:
            print(f"look: {new} (was {old}) is spelled like another word")
    table |= LEMMAS
    pages = {p: read(p) for p in files(os.path.join(root, "docs"), ".md")}
    pages[os.path.join(root, "README.md")] = read(os.path.join(root, "README.md"))
    jobs = [(antt, turn_words), (source, turn_source), (pages, turn_page)]
    jobs.append(({p: read(p) for p in files(crates, ".edit")}, turn_edit))
    for texts, turn in jobs:
        for path, text in texts.items():
            new = turn(text, table)
            if new != text:
                with open(path, "w", encoding="utf-8") as f:
                    f.write(new)
    rename_crate(root, "hex", "hex_text")
    return 0


raise SystemExit(main(sys.argv[1:]))
