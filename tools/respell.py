#!/usr/bin/env python3
"""Respells the names that this repository gives its own definitions and lemmas: words are joined by '_', as in Rattle's Prelude.

usage: tools/respell.py FOLDER    once, on a tree that port.py has just turned; prints what falls together and changes nothing then

It goes over specs/, proofs/, the ghost text of src/, the must-fail edits and the pages of crates/ and docs/. A name that a file imports from a
library keeps the library's spelling there. Functions, fields, constants and types of src/ keep their names, and so do modules.
"""
import collections
import glob
import os
import re
import sys

TOKEN = re.compile(r"[^\s()\[\]{},;.\"«»⌜⌝`|/]+")
USE = re.compile(r"(?m)^use\s+([^\s{;]+?)(?:\.\{([^}]*)\})?(?:\s+as\s+(\S+))?\s*;?$")
GIVEN = re.compile(r"\bc(?:\.before)*\.[^\s.(){},]+")
# A lemma that would have the name of a definition of its file's scope gets an ending, as the library's lemmas do.
ENDING = "_lem"


def snake(name):
    name = name.replace("-", "_")
    return re.sub(r"([a-z0-9])([A-Z])", lambda m: m.group(1) + "_" + m.group(2).lower(), name)


def is_old(name):
    return name[:1].islower() and re.fullmatch(r"[\w'₀-₉-]+", name) and ("-" in name or re.search(r"[a-z0-9][A-Z]", name))


def read(path):
    with open(path, encoding="utf-8") as f:
        return f.read()


def code_of(text):
    return re.sub(r"--.*", "", text)


def imported(text, crates):
    """The names that a file takes from a library, and not from a crate of this repository."""
    names = set()
    for m in USE.finditer(code_of(text)):
        parts = m.group(1).split(".")
        if parts[0] == "Rattle" and parts[1] in crates and "declared" not in parts:
            continue
        names |= {n.strip().split(" as ")[0] for n in (m.group(2) or "").split(",")}
    return names


def is_walk(path):
    return os.path.basename(path) == "Proof.antt"


def table(texts, crates):
    """Each old name of this repository's own, with its new one."""
    found = set()
    for path, text in texts.items():
        body = re.sub(r"(?m)^use\s.*$", "", code_of(text))
        if is_walk(path):
            body = GIVEN.sub("c", re.sub(r"(?m)^(\S+) : tie\.(?:.|\n[ ])*?\n(?:unfolding.*\n)?\1 ", "", body))
            body = re.sub(r"tie\.(?:spec|close)[^=]*", "", body)
        found |= {t for t in TOKEN.findall(body) if is_old(t)} - imported(text, crates)
    news = collections.defaultdict(set)
    for name in found:
        news[snake(name)].add(name)
    there = {t for text in texts.values() for line in code_of(text).splitlines() for t in TOKEN.findall(re.sub(r"Rattle\.[\w.]*", "", line))}
    names = {}
    for new, olds in news.items():
        lemmas = sorted(n for n in olds if "-" in n)
        definitions = sorted(n for n in olds if "-" not in n)
        for n in definitions:
            names[n] = new
        for n in lemmas:
            names[n] = new + (ENDING if definitions or (new in there and n in CLASH) else "")
        if len(definitions) > 1 or len(lemmas) > 1:
            raise SystemExit(f"these fall together: {sorted(olds)}")
    return names


# Lemmas whose new name a definition of a module that they speak of has already.
CLASH = {"all-below", "at-start", "in-block", "flat-map", "no-link", "copy-at"}


def respelled(text, names, keeps, is_walk_file):
    def token(m):
        t = m.group(0)
        return names[t] if t in names and t not in keeps else t

    if not is_walk_file:
        return TOKEN.sub(token, text)
    out, at = [], 0
    for m in GIVEN.finditer(text):
        out += [TOKEN.sub(token, text[at : m.start()]), m.group(0)]
        at = m.end()
    return "".join(out + [TOKEN.sub(token, text[at:])])


SPAN = re.compile(r"(?m)^(?:old|new):.*$|`[^`\n]*`")


def span(m, names, camel):
    """A line of an edit, or what stands in a page between marks: a name alone, or the definitions in it."""
    text = m.group(0)
    if text[0] != "`":
        return respelled(text, names, set(), False)
    name = text.strip("`")
    return f"`{names[name]}`" if name in names else respelled(text, camel, set(), False)


def together(texts, names, crates):
    """Where two names of one file would become one."""
    for path, text in texts.items():
        keeps = imported(text, crates)
        code = "\n".join(re.sub(r"Rattle\.[\w.]*| as \S+", "", l) for l in code_of(text).splitlines())
        code = GIVEN.sub("c", code) if is_walk(path) else re.sub(r"\brecord_of\.", "", code)
        tokens = set(TOKEN.findall(code))
        news = collections.defaultdict(set)
        for t in tokens:
            news[names[t] if t in names and t not in keeps else t].add(t)
        for new, olds in news.items():
            if len(olds) > 1:
                yield path, new, sorted(olds)


def main(root):
    os.chdir(root)
    crates = set(os.listdir("crates"))
    antt = sorted(glob.glob("crates/*/specs/**/*.antt", recursive=True) + glob.glob("crates/*/proofs/**/*.antt", recursive=True))
    texts = {p: read(p) for p in antt}
    names = table(texts, crates)
    clashes = list(together(texts, names, crates))
    for path, new, olds in clashes:
        print(f"falls together: {path}: {new}: {' '.join(olds)}")
    if clashes:
        return 1
    camel = {o: n for o, n in names.items() if "-" not in o}
    for path, text in texts.items():
        new = respelled(text, names, imported(text, crates), is_walk(path))
        if new != text:
            open(path, "w", encoding="utf-8").write(new)
    others = glob.glob("crates/*/src/**/*.rt", recursive=True)
    edits = glob.glob("crates/*/must-fail/*.edit") + glob.glob("crates/*/must-fail-long/*.edit")
    there = {t for text in texts.values() for t in TOKEN.findall(code_of(text))}
    pages = glob.glob("docs/*.md") + glob.glob("crates/*/README.md") + ["README.md"]
    for path in others + edits + pages:
        text = read(path)
        if path.endswith(".rt"):
            new = respelled(text, camel, set(), False)
        else:
            # port.py has respelled some names where they are defined, and turns no page and no edit.
            ported = {t: snake(t) for t in TOKEN.findall(text) if is_old(t) and t not in names and t not in there and snake(t) in there}
            new = SPAN.sub(lambda m: span(m, names | ported, camel | {o: n for o, n in ported.items() if "-" not in o}), text)
        if new != text:
            open(path, "w", encoding="utf-8").write(new)
    with open("docs/respelled.tsv", "w", encoding="utf-8") as f:
        f.write("".join(f"{o}\t{n}\n" for o, n in sorted(names.items())))
    print(f"{len(names)} names")
    return 0


if __name__ == "__main__":
    raise SystemExit(main(sys.argv[1]))
