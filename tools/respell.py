#!/usr/bin/env python3
"""Turns this repository's own names of rules and laws to today's spelling: words in snake case, types and modules in camel case.

usage: tools/respell.py    at the top of the repository, once, after the kit's port.py

It reads crates/ (.rt, .antt and .edit), README.md and docs/. In a name it turns each part between dashes that is in camel case (`rowRule`, `sorted-takenAll`), and the dashes of a definition of
specs/ (`row-wide`). Strings, names from Rust and module paths stay. Two definitions that would fall together get the name in FIXED; a law that would get its rule's name gets a dash back.
"""
import os
import re

FIXED = {"date-at": "date_offset", "sender-at": "sender_offset", "number-at": "number_offset", "message-row": "message-row", "no-day": "no-day"}
LAWS = {"end_leaves", "form_of", "line_on", "line_step", "mark_of", "no_bytes", "no_number", "number_at", "pair_held", "put_one", "row_step", "rows_in"}
CAMEL = re.compile(r"[a-z][a-z0-9]*[A-Z][A-Za-z0-9]*'*")
TOKEN = re.compile(r"[A-Za-z0-9_'\-◌₀-₉μ]+")
STRING = re.compile(r'b?"(?:\\.|[^"\\])*"', re.S)


def snake(word):
    return re.sub(r"(?<=[a-z0-9])([A-Z])", lambda m: "_" + m.group(1).lower(), word)


def below(folder, endings):
    for where, dirs, files in os.walk(folder):
        dirs[:] = [d for d in dirs if d not in ("out", "data")]
        yield from (os.path.join(where, f) for f in files if f.endswith(endings))


def dashed():
    found = set()
    for path in below("crates", ".antt"):
        if "/specs/" in path:
            with open(path, encoding="utf-8") as f:
                found |= {n for n in re.findall(r"(?m)^(?:abbrev pub|unfoldable pub|pub|abbrev|unfoldable) ([^ :\n]+) :", f.read()) if "-" in n}
    return {n: FIXED.get(n, n.replace("-", "_")) for n in found}


def turned(text, names, is_proof):
    def one(m):
        word = m.group(0)
        before = text[m.start() - 1 : m.start()]
        if word.startswith("-"):
            return word
        if word in names:
            return names[word]
        if is_proof and word in LAWS and before != ".":
            return word.replace("_", "-")
        return "-".join(snake(p) if CAMEL.fullmatch(p) else p for p in word.split("-"))

    return TOKEN.sub(one, text)


def main():
    names = dashed()
    paths = [*below("crates", (".rt", ".antt", ".edit")), "README.md", *below("docs", ".md")]
    for path in sorted(paths):
        with open(path, encoding="utf-8", newline="") as f:
            text = f.read()
        if path.endswith(".rt"):
            parts, at = [], 0
            for m in STRING.finditer(text):
                parts += [turned(text[at : m.start()], names, False), m.group(0)]
                at = m.end()
            new = "".join([*parts, turned(text[at:], names, False)])
        else:
            new = turned(text, names, path.endswith(".antt"))
        if new != text:
            with open(path, "w", encoding="utf-8", newline="") as f:
                f.write(new)


main()
