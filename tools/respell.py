#!/usr/bin/env python3
"""Spells the definitions and lemmas of this repository's crates as the installed Rattle spells names.

usage: python3 tools/respell.py [FOLDER]     FOLDER holds crates/; the current folder where it is left out

Run once, behind the toolchain's own respelling. A word that a file of specs/ or proofs/ declares with dashes gets
underscores in their place, as `points-of` becomes `points_of`; a type loses its dashes and gets capitals, as `Only-that`
becomes `OnlyThat`. Names of goals and of what a goal cites, which the checker makes, stay, and so does what is imported
from a library. A name that another word had already, as a function of src/, is listed: look there. In the pages of the
repository the names in backquotes follow.
"""

import collections
import os
import re
import sys

KEYWORDS = {"abbrev", "unfoldable", "opaque", "pub", "record", "data", "private", "let", "in", "partial"}
WORD = r"[^\s(){}\[\],;.λ`\"«»@]+"
TOKEN = re.compile(WORD)
DASHED = re.compile(r"[A-Za-z0-9₀-₉']-[A-Za-z0-9]")
DECLARED = re.compile(r"(?:\w+ )*?(" + WORD + r")(?: \{[^{}]*\})* :(?:\s|$)")
USE = re.compile(r"\buse ([^\s;{]*)\{([^}]*)\}")
COMMENT = re.compile(r"(?m)(--|//).*$")


def texts(top):
    for folder, dirs, files in os.walk(os.path.join(top, "crates")):
        dirs[:] = sorted(d for d in dirs if d not in ("out", "data"))
        for name in sorted(files):
            if name.endswith((".antt", ".rt", ".edit")):
                yield os.path.join(folder, name)


def pages(top):
    for folder in (".", "docs", "benches"):
        for name in sorted(os.listdir(os.path.join(top, folder))):
            if name.endswith(".md"):
                yield os.path.join(top, folder, name)


def in_page(word, turned, seen):
    """A name of a page: as turned here, or as the toolchain's own script turned it."""
    if word in turned:
        return turned[word]
    return respelled(word) if DASHED.search(word) and word not in seen and respelled(word) in seen else word


def declared(text):
    """The words that a text of antt declares, without the goals that it answers."""
    for line in COMMENT.sub("", text).split("\n"):
        words = line.split()
        kinds = []
        while words and words[0] in KEYWORDS:
            kinds.append(words.pop(0))
        if not words:
            continue
        if "record" in kinds or "data" in kinds:
            if TOKEN.fullmatch(words[0]):
                yield words[0]
            continue
        found = DECLARED.match(line.strip())
        if found and not re.search(r": goal\.", line):
            yield found[1]


def respelled(name):
    if name[0].isupper():
        first, *rest = name.split("-")
        return first + "".join(w[:1].upper() + w[1:] for w in rest)
    return name.replace("-", "_")


def main():
    top = sys.argv[1] if len(sys.argv) > 1 else "."
    read = {path: open(path, encoding="utf-8").read() for path in texts(top)}
    crates = set(os.listdir(os.path.join(top, "crates")))
    names, library, seen = set(), set(), collections.defaultdict(set)
    for path, text in read.items():
        if path.endswith(".antt"):
            names.update(n for n in declared(text) if DASHED.search(n))
        for use in USE.finditer(text):
            steps = use[1].split(".")
            if not (steps[0] == "Rattle" and steps[1] in crates):
                library.update(n.split(" as ")[0].strip() for n in use[2].split(","))
        for word in TOKEN.findall(COMMENT.sub("", text)):
            seen[word].add(path)
    turned = {}
    for name in sorted(names - library):
        new = respelled(name)
        if new in seen:
            both = " ".join(sorted(seen[new] & seen[name])) or "no file"
            print(f"look: {new} was there before {name} became it; both stand in {both}")
        turned[name] = new
    for path, text in read.items():
        new = TOKEN.sub(lambda m: turned.get(m[0], m[0]), text)
        if new != text:
            with open(path, "w", encoding="utf-8") as file:
                file.write(new)
    for path in pages(top):
        with open(path, encoding="utf-8") as file:
            text = file.read()
        new = re.sub(r"`([^`\n]+)`", lambda m: TOKEN.sub(lambda w: in_page(w[0], turned, seen), m[0]), text)
        if new != text:
            with open(path, "w", encoding="utf-8") as file:
                file.write(new)
    print(f"{len(turned)} names respelled")


main()
