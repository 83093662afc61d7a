#!/usr/bin/env python3
"""Respells the repository's own definitions, lemmas and constructors as today's Rattle spells names: what is no type is in snake case,
each part between dashes by itself. Run once, at the top, on what port.py wrote: crates/ (specs/, proofs/, the clauses of src/, the
edits of must-fail/) and the names between backticks in README.md and docs/.

    python3 tools/respell.py [--list]        --list: prints the names alone

A name is respelled where it is declared in specs/ or proofs/ and a part of it that begins small has a capital inside. Functions of
src/, fields, exported names, strings, inputs and outputs are in snake case as they are, and keep their names. LEMMAS has
those that would fall together with another.
"""
import collections
import os
import re
import sys

NAME = r"[^\s(){}.;,@\"«»\[\]`]+"
SIGNATURE = re.compile(r"^\s*(?:(?:abbrev|unfoldable|pub|data|record)\s+)*((?:" + NAME + r"\s+)+?)(?:\{[^{}]*\}\s*|\([^()]*\)\s*)*:\s")
NOT_ONE = re.compile(r"\s*(let|in|use|→|λ|\(|\||--)")
SMALL = re.compile(r"^[a-z]")
INSIDE = re.compile(r"[A-Za-z0-9][A-Z]")

# Lemmas whose names would fall together with a definition's new one: they get the dash back that stands between two names.
LEMMAS = {"count_past": "count-past", "row_kept": "row-kept", "pairs_of": "pairs-of", "best_of": "best-of"}


def part(word):
    if not SMALL.match(word) or not INSIDE.search(word):
        return word
    return re.sub(r"(?<!^)(?<!_)([A-Z])", lambda m: "_" + m[1].lower(), word)


def respelled(name):
    return "-".join(part(w) for w in name.split("-"))


def texts(suffixes):
    for folder, folders, files in os.walk("crates"):
        folders[:] = sorted(f for f in folders if f != "out")
        for f in sorted(files):
            if f.endswith(suffixes):
                yield os.path.join(folder, f)


def read(path):
    with open(path, encoding="utf-8") as f:
        return f.read()


def declared():
    names = set()
    for path in texts((".antt",)):
        for line in read(path).split("\n"):
            m = None if NOT_ONE.match(line) else SIGNATURE.match(line)
            if m:
                names.update(m[1].split())
    return {n: respelled(n) for n in sorted(names) if respelled(n) != n} | {n: m for n, m in LEMMAS.items() if n in names}


TOKEN = re.compile(NAME)
WORD = re.compile(r"[A-Za-z][A-Za-z0-9_'′₀-₉-]*")


def turned(text, table, token=TOKEN):
    return token.sub(lambda m: table.get(m[0], m[0]), text)


def turned_pages(text, table):
    return re.sub(r"`[^`\n]+`", lambda m: WORD.sub(lambda w: table.get(w[0], w[0]), m[0]), text)


def report(table):
    by_new = collections.defaultdict(list)
    for old, new in table.items():
        by_new[new].append(old)
    for new, olds in by_new.items():
        if len(olds) > 1:
            print(f"fall together: {' '.join(olds)} as {new}", file=sys.stderr)
    for path in texts((".antt", ".rt")):
        words = set(TOKEN.findall(read(path)))
        for old in sorted(words & set(table)):
            if table[old] in words:
                print(f"{path}: {old} would meet {table[old]}", file=sys.stderr)


def main():
    table = declared()
    if "--list" in sys.argv[1:]:
        print("\n".join(f"{old} {new}" for old, new in table.items()))
        report(table)
        return
    report(table)
    for path in texts((".antt", ".rt", ".edit")):
        text = read(path)
        new = turned(text, table)
        if new != text:
            with open(path, "w", encoding="utf-8") as f:
                f.write(new)
    pages = ["README.md"] + [os.path.join(d, f) for d, _, fs in os.walk("docs") for f in fs if f.endswith(".md")]
    for path in pages:
        text = read(path)
        new = turned_pages(text, table)
        if new != text:
            with open(path, "w", encoding="utf-8") as f:
                f.write(new)


main()
