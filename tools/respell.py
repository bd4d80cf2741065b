#!/usr/bin/env python3
"""Brings the names of definitions and lemmas to today's spelling, once, after port.py: words in snake case.

usage: tools/respell.py [--list]     at the top of the repository; --list only prints old and new names

A capital inside a word, as in nodeAt, begins a new word: node_at. A dash becomes an underscore, but it stays where it joins
names of definitions, as in length-body. A lemma that would then have a definition's name gets _lem. Names that begin with a capital
(types, facts, constructors, modules) stay, and so do functions of src/ and names that stand in std.
It goes by text: definitions and lemmas are the names declared in crates/*/specs/*.antt and crates/*/proofs/*.antt, and helper lemmas
below crates/*/proofs/*/ whose names have a capital inside. It rewrites the .antt and .rt files, the edits and the documents.
A crate that has a library's name, hex, gets another: text_hex."""
import glob
import os
import re
import sys
from pathlib import Path

DECLARED = re.compile(r"^\s*(?:(?:abbrev|unfoldable|mutual|pub|data|record|opaque)\s+)*([^\s(){}:,.]+)(?: [({].*[)}])* : ")
USED = re.compile(r"^\s*(?:pub )?(?:ghost )?use ([\w.·+'-]+)\.\{([^}]*)\}", re.M)
TOKEN = re.compile(r"[^\s(){}.,;:`\"«»|/\[\]<>=!*]+")
# two names that would fall together in one file; and a fact
OVER = {"no-schema": "no_schemas", "rowPiece": "row_piece_of", "is_refused": "IsRefused"}
# a law of one of these words at another keeps the dash between the two, as laws of std do
JOINED = {"length", "take", "drop", "append", "map", "set", "over", "part", "le", "leAt"}


def snake(name):
    name = re.sub(r"([a-z0-9])([A-Z])", r"\1_\2", name)
    return re.sub(r"([A-Z])([A-Z][a-z])", r"\1_\2", name).lower()


def read(path):
    return Path(path).read_text(encoding="utf-8")


def declared(pattern):
    found = {}
    for path in sorted(glob.glob(pattern, recursive=True)):
        for line in read(path).splitlines():
            match = DECLARED.match(line)
            if match and re.match(r"[a-z]", match.group(1)):
                found.setdefault(match.group(1), set()).add(path)
    return found


def foreign():
    """Names that are brought in from elsewhere than the repository's own crates."""
    own = {path.split("/")[1] for path in glob.glob("crates/*/src")}
    names = set()
    for path in glob.glob("crates/**/*.antt", recursive=True) + glob.glob("crates/**/*.rt", recursive=True):
        for where, what in USED.findall(read(path)):
            parts = where.split(".")
            if not (parts[0] == "Rattle" and len(parts) > 1 and parts[1] in own):
                names |= {w.split(" as ")[0].strip() for w in what.split(",")}
    return names


def table():
    specs = declared("crates/*/specs/*.antt")
    lemmas = {n: f for n, f in declared("crates/*/proofs/*.antt").items() if n not in specs}
    below = {n: f for n, f in declared("crates/*/proofs/*/**/*.antt").items() if re.search("[A-Z]", n) and n not in specs and n not in lemmas}
    elsewhere = foreign()
    definitions = set(specs) | JOINED
    new = {}
    for name in specs:
        new[name] = OVER.get(name) or snake(name).replace("-", "_")
    taken = set(new.values()) | {name for name in set(lemmas) | set(below) if snake(name).replace("-", "_") == name and name not in specs}
    # a helper function, as nodeAt, gets the plain name before a lemma, as node-at, does
    for name in sorted(set(lemmas) | set(below), key=lambda n: ("-" in n, n)):
        if name in OVER:
            new[name] = OVER[name]
            continue
        dashes = [i for i, c in enumerate(name) if c == "-"]
        kept = next((i for i in dashes if name[:i] in JOINED and name[i + 1:] in definitions), None)
        to = "".join("-" if i == kept else "_" if c == "-" else c for i, c in enumerate(name))
        to = snake(to)
        if to in (set(new.values()) if to == name else taken):
            to += "_lem"
        taken.add(to)
        new[name] = to
    return {old: to for old, to in new.items() if old != to and old not in elsewhere}


def rename_crate(old, new):
    """Moves a crate's folders, and writes its new name where code names it."""
    for top in ("crates", "wrong"):
        if os.path.isdir(f"{top}/{old}"):
            os.rename(f"{top}/{old}", f"{top}/{new}")
    for path in files():
        text = read(path)
        to = re.sub(rf"\bRattle\.{old}\.", f"Rattle.{new}.", text)
        to = re.sub(rf"\b{old}::", f"{new}::", to)
        if to != text:
            Path(path).write_text(to, encoding="utf-8")
    lines = read("crates.txt").splitlines()
    lines = [line if line.startswith("#") else re.sub(rf"\b{old}\b", new, line) for line in lines]
    Path("crates.txt").write_text("\n".join(lines) + "\n", encoding="utf-8")


def files():
    found = glob.glob("crates/**/*", recursive=True) + glob.glob("wrong/**/*", recursive=True)
    return [f for f in found if f.endswith((".antt", ".rt", ".edit", ".right")) and "/out/" not in f]


def main():
    names = table()
    if "--list" in sys.argv:
        for old in sorted(names):
            print(old, names[old])
        return
    def respell(match):
        word = match.group(0)
        if re.fullmatch("[a-z0-9_]+", word):
            # it may be a function of src/, whose names stand in paths and after a dot
            text, (start, end) = match.string, match.span()
            if not path.endswith(".antt") or text[start - 1:start] == "." or text[end:end + 1] == ".":
                return word
        return names.get(word, word)
    rename_crate("hex", "text_hex")
    for path in files():
        old = read(path)
        text = TOKEN.sub(respell, old)
        if text != old:
            Path(path).write_text(text, encoding="utf-8")
    # in documents only what stands in backticks
    for path in ["README.md", *sorted(glob.glob("docs/*.md")), *sorted(glob.glob("wrong/*.md"))]:
        old = read(path)
        text = re.sub(r"`[^`\n]+`", lambda m: TOKEN.sub(respell, m.group(0)), old)
        if text != old:
            Path(path).write_text(text, encoding="utf-8")


main()
