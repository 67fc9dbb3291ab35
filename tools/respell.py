#!/usr/bin/env python3
"""Spells this repository's own definitions, lemmas, fields and constructors as Rattle now spells names.

usage: python3 tools/respell.py     at the top of the repository, once

A dash between words of one name becomes an underscore (terms-of: terms_of); a name that begins with a capital, so a
type or a fact, loses its dashes and gets capitals (Past-empty: PastEmpty). Only names that the repository's own .antt
files declare are turned: the library's names, the names of goals (which Rattle makes) and all Rust names, strings and
comments stay. It stops, and writes nothing, where two names would fall together.
"""
import os
import re
import sys

# Bound variables with a dash: they are declared by no signature.
BOUND = ["in-o", "in-s", "now-is", "p-short", "p-some", "q-short", "q-some", "Ticket-record"]

# Names whose turned form the library has already.
OTHER = {"bit-and": "bit_of_and", "bit-or": "bit_of_or"}


def files(endings):
    for folder, dirs, names in os.walk("crates"):
        dirs[:] = sorted(d for d in dirs if d != "out")
        for name in sorted(names):
            if name.endswith(endings):
                yield os.path.join(folder, name)


def read(path):
    with open(path, encoding="utf-8") as f:
        return f.read()


def bare(text):
    return re.sub(r"(?m)(^|\s)--\s.*$", "", text)


def names():
    """The own names that have a dash, and every other name that stands in a signature or an import."""
    crates = "|".join(sorted(d for d in os.listdir("crates")))
    own, library, goals = set(), set(), set()
    for path in files((".antt",)):
        text = bare(read(path))
        for m in re.finditer(r"(?m)^(?:pub )?use (\S+?)\.\{(.*?)\}", text):
            if not re.match(rf"Rattle\.({crates})\.", m.group(1)):
                library |= {re.sub(r".* as ", "", n.strip()) for n in m.group(2).split(",")}
        for m in re.finditer(r"(?m)^\s*(?:pub |abbrev |unfoldable )*([\w'-]+)(?: [^:=\n]*?)? : ?(goal\.)?", text):
            (goals if m.group(2) else own).add(m.group(1))
        for m in re.finditer(r"(?m)^\s*(?:pub |abbrev )*(?:record|data|module) ([\w'-]+)", text):
            own.add(m.group(1))
    own = {n for n in own if not re.match(r"(invariant|decreases)-loop", n)}
    return {n for n in own if "-" in n} - goals - library | set(BOUND), own | library


def turned(name):
    if name in OTHER:
        return OTHER[name]
    if name[0].isupper():
        return "".join(w[:1].upper() + w[1:] for w in name.split("-"))
    return name.replace("-", "_")


def respell(text, table, comment):
    """The text with each name of the table turned, but in comments and strings."""
    token = re.compile(comment + r'|"(?:[^"\\]|\\.)*"|[A-Za-z_][\w\'-]*')
    return token.sub(lambda m: table.get(m.group(0), m.group(0)), text)


def main():
    if not os.path.isdir("crates"):
        sys.exit("respell: no crates/ here")
    own, known = names()
    table = {n: turned(n) for n in own}
    back = {}
    for old, new in table.items():
        back.setdefault(new, set()).add(old)
    together = [sorted(v) + [k] for k, v in back.items() if len(v) > 1 or (k in known and k not in own)]
    if together:
        sys.exit(f"respell: these would fall together: {together}")
    for path in files((".antt", ".rt")):
        comment = r"(?m:(?:(?<=\s)|^)--\s.*$)" if path.endswith(".antt") else r"(?m://.*$)"
        text = read(path)
        new = respell(text, table, comment)
        if new != text:
            with open(path, "w", encoding="utf-8") as f:
                f.write(new)
    for old in sorted(table):
        print(old, table[old])


if __name__ == "__main__":
    main()
