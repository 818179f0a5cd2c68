#!/usr/bin/env python3
"""Brings this repository's own names to today's spelling, once, after port.py: tools/respell.py [FOLDER].

Definitions, fields, constructors and lemmas go by the rows of respell.tsv (old, new, and where a row is not for all: the beginning of a path): words in snake case, a dash only between two names,
and `_lem` where a lemma would have a definition's name. A word turns only as a whole, in the code of .antt and .rt files, in the lines 'old:' and
'new:' of must-fail edits, and in comments where it is spelled in camel case or stands in backquotes. model's specs/Contracts.antt becomes
specs/Promises.antt, since Rattle makes a module `contracts` beside it, and each root file gets its line #![tactic(auto)].
"""
import os
import re
import sys

HERE = os.path.dirname(os.path.realpath(__file__))
WORD = re.compile(r'[^\s(){}.;,@"«»\[\]`]+')
COMMENT = {".antt": re.compile(r'(?:^|(?<=\s))--.*$', re.M), ".rt": re.compile(r'//.*$', re.M)}


def table():
    with open(os.path.join(HERE, "respell.tsv"), encoding="utf-8") as f:
        return [line.rstrip("\n").split("\t") for line in f]


def rows_of(path, rows):
    """The rows for a file: those with a third column are for paths below crates/ that begin with it, the later ones over the earlier."""
    return {row[0]: row[1] for row in rows if len(row) == 2 or path.startswith(row[2])}


def turned(text, rows):
    def one(m):
        bare = m[0].rstrip("'")
        return rows[bare] + m[0][len(bare):] if bare in rows else m[0]

    return WORD.sub(one, text).replace("specs.Contracts", "specs.Promises")


def comment(text, rows):
    camel = {a: b for a, b in rows.items() if "-" not in a}
    return re.sub(r"`[^`]*`", lambda m: turned(m[0], rows), turned(text, camel))


def source(text, ending, rows):
    parts, at = [], 0
    for m in COMMENT[ending].finditer(text):
        parts += [turned(text[at:m.start()], rows), comment(m[0], rows)]
        at = m.end()
    return "".join(parts) + turned(text[at:], rows)


def edit(text, rows):
    def line(l):
        if l.startswith(("old:", "new:")):
            return l[:4] + turned(l[4:], rows)
        return l.replace("specs/Contracts.antt", "specs/Promises.antt") if l.startswith("file:") else l

    return "\n".join(line(l) for l in text.split("\n"))


def with_auto(text):
    if "#![tactic(auto)]" in text:
        return text
    lines = text.split("\n")
    at = next((i for i, l in enumerate(lines) if not l.startswith("//")), 0)
    return "\n".join(lines[:at] + ["#![tactic(auto)]"] + lines[at:])


def main(root):
    all_rows = table()
    old = os.path.join(root, "crates/model/specs/Contracts.antt")
    if os.path.exists(old):
        os.rename(old, os.path.join(root, "crates/model/specs/Promises.antt"))
    for folder, dirs, files in os.walk(os.path.join(root, "crates")):
        dirs[:] = sorted(d for d in dirs if d != "out")
        for name in sorted(files):
            path, ending = os.path.join(folder, name), os.path.splitext(name)[1]
            if ending not in (".antt", ".rt", ".edit"):
                continue
            with open(path, encoding="utf-8") as f:
                text = f.read()
            rows = rows_of(os.path.relpath(path, os.path.join(root, "crates")), all_rows)
            new = edit(text, rows) if ending == ".edit" else source(text, ending, rows)
            if name == "Lib.antt":
                new = new.replace("mod Contracts", "mod Promises")
            if name in ("lib.rt", "main.rt"):
                new = with_auto(new)
            if new != text:
                with open(path, "w", encoding="utf-8") as f:
                    f.write(new)


if __name__ == "__main__":
    main(sys.argv[1] if len(sys.argv) > 1 else os.path.dirname(HERE))
