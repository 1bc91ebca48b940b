#!/usr/bin/env python3
"""Respells the repository's own words: definitions, lemmas and fields in snake case (respell.tsv: old, tab, new).

usage: tools/respell.py [FOLDER]      the sources below FOLDER/crates (this repository by default), and the texts of must-fail edits
       tools/respell.py --pages FILE..     names between backticks, in pages

Run once, after the kit's own script for older repositories. A word behind a dot is a field, so a name with a dash is turned there only behind a
module's name or in a field of a record that is in FIELDS. Strings of the code stay. Some old names are new names of others, so it writes nothing
where no name in camel case is left: then it has run before.
"""

import os
import re
import sys

HERE = os.path.dirname(os.path.abspath(__file__))
# the fields of records that had a dash
FIELDS = {"pdrs-up", "endpoints-up", "csids-up"}
WORD = re.compile(r"(?<![\w'·-])[A-Za-z][\w']*(?:-[\w']+)*")
CAMEL = re.compile("[a-z0-9][A-Z]")
STRING = re.compile(r'"(?:[^"\\\n]|\\.)*"')


def table():
    with open(os.path.join(HERE, "respell.tsv"), encoding="utf-8") as rows:
        return dict(row.rstrip("\n").split("\t") for row in rows if row.strip())


NAMES = table()


def word(text, code=False):
    """The text with its words turned; in code, where a lemma's name is a function's, only those in camel case."""

    def turn(m):
        old = m[0]
        if old not in NAMES or (code and not CAMEL.search(old)):
            return old
        before = text[max(0, m.start() - 60) : m.start()]
        if not CAMEL.search(old) and old not in FIELDS:
            # a lemma, and no step of a function or path of its proof
            if before.endswith("::") or (before.endswith(".") and not re.search(r"\b[A-Z][\w']*\.$", before)):
                return old
        return NAMES[old]

    return WORD.sub(turn, text)


def outside_strings(text):
    out, at = [], 0
    for m in STRING.finditer(text):
        out += [word(text[at : m.start()], True), m[0]]
        at = m.end()
    return "".join(out) + word(text[at:], True)


def write(path, text, new):
    if new != text:
        with open(path, "w", encoding="utf-8", newline="") as f:
            f.write(new)
        return 1
    return 0


def has_run(texts):
    """Whether no old name in camel case is left: those are never new names."""
    camel = {old for old in NAMES if CAMEL.search(old)}
    return not any(camel.intersection(WORD.findall(text)) for text in texts)


def sources(root):
    turned, texts = [], []
    for folder, dirs, files in os.walk(os.path.join(root, "crates")):
        dirs[:] = sorted(d for d in dirs if d not in ("out", "target", "data"))
        for name in sorted(files):
            if name.endswith((".antt", ".rt", ".edit")):
                path = os.path.join(folder, name)
                with open(path, encoding="utf-8", newline="") as f:
                    text = f.read()
                turned.append((path, text, outside_strings(text) if name.endswith(".rt") else word(text)))
                if name.endswith(".antt"):
                    texts.append(text)
    return 0 if has_run(texts) else sum(write(*it) for it in turned)


def pages(paths):
    n = 0
    for path in paths:
        with open(path, encoding="utf-8", newline="") as f:
            text = f.read()
        n += write(path, text, re.sub(r"`[^`\n]*`", lambda m: word(m[0]), text))
    return n


def main(argv):
    if argv[:1] in (["-h"], ["--help"]):
        print(__doc__)
        return 0
    if argv[:1] == ["--pages"]:
        print(f"{pages(argv[1:])} pages written")
        return 0
    root = argv[0] if argv else os.path.dirname(HERE)
    if not os.path.isdir(os.path.join(root, "crates")):
        print(f"respell: {root} has no crates/", file=sys.stderr)
        return 2
    print(f"{sources(root)} files written")
    return 0


if __name__ == "__main__":
    sys.exit(main(sys.argv[1:]))
