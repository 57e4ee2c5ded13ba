#!/usr/bin/env python3
"""Gives the repository's own definitions and lemmas the spelling of today's Rattle, by the table port-names.tsv beside this script.

usage: python3 tools/port_names.py        at the top of the repository, once, right after the kit's port.py

A row is an old name, a tab, its new one, a tab, and where it stands:
  name   of a definition or a lemma. It turns wherever it is a whole word that no dot stands before
  field  of a record. It turns behind a dot too
  old    a name that port.py had turned in crates/ already. It turns in pages and in edits, where port.py turns nothing
Turned are .antt files but for their texts, the clauses and ghost items of .rt files, edits, and the code spans of pages and comments.
Rattle code, strings and the names that Rattle makes (tie.Need-x, c.step) stay as they are.
"""

import os
import re

HERE = os.path.dirname(os.path.realpath(__file__))
WORD = re.compile(r"[^\s(){}.;,@\"«»\x60]+")
TEXT = re.compile(r'"(?:\\.|[^"\\\n])*"')
SPAN = re.compile(r"\x60[^\x60\n]+\x60")
CAMEL = re.compile(r"[a-z][a-z0-9]*[A-Z][A-Za-z0-9]*$")
CLAUSE = re.compile(r"\b(?:requires|ensures)\b\s*\*?\s*(?:\w+\s*)?\{|\bghost\s+(?!use\b)\w+\s*:?\s*\{")
GHOST_USE = re.compile(r"\bghost\s+use\b[^;]*;")


def table():
    inside, behind, pages = {}, {}, {}
    with open(os.path.join(HERE, "port-names.tsv"), encoding="utf-8") as f:
        for line in f:
            old, new, where = line.rstrip("\n").split("\t")
            pages[old] = new
            if where != "old":
                inside[old] = new
            if where == "field":
                behind[old] = new
    return inside, behind, pages


INSIDE, BEHIND, PAGES = table()


def words(text, names=None):
    """Each whole word of the text that has a row, turned; behind a dot only a field's."""

    def turn(m):
        dotted = m.start() and text[m.start() - 1] == "."
        rows = BEHIND if dotted else (names or INSIDE)
        return rows.get(m.group(0), m.group(0))

    return WORD.sub(turn, text)


def prose(text):
    """A comment: its code spans, and the bare words that can only be names."""
    text = SPAN.sub(lambda m: words(m.group(0)), text)
    return WORD.sub(lambda m: INSIDE.get(m.group(0), m.group(0)) if CAMEL.match(m.group(0)) else m.group(0), text)


def antt(text):
    out = []
    for line in text.split("\n"):
        at = re.search(r"(?:^|(?<=[\s(]))--(?=\s|$)", line)
        code, comment = (line[: at.start()], line[at.start() :]) if at else (line, "")
        parts, last = [], 0
        for m in TEXT.finditer(code):
            parts += [words(code[last : m.start()]), m.group(0)]
            last = m.end()
        out.append("".join(parts) + words(code[last:]) + prose(comment))
    return "\n".join(out)


def block(text, start):
    """Where the brace that opens before start closes."""
    depth = 1
    for i in range(start, len(text)):
        depth += {"{": 1, "}": -1}.get(text[i], 0)
        if not depth:
            return i
    return len(text)


def rattle(text):
    text = re.sub(r"//[^\n]*", lambda m: prose(m.group(0)), text)
    text = GHOST_USE.sub(lambda m: words(m.group(0)), text)
    out, last = [], 0
    for m in CLAUSE.finditer(text):
        if m.start() < last:
            continue
        end = block(text, m.end())
        out += [text[last : m.end()], words(text[m.end() : end])]
        last = end
    return "".join(out) + text[last:]


def edit(text):
    """Of an edit the texts alone, and of Rattle code only what stands in a clause."""
    specs = not re.search(r"(?m)^file:\s*src/", text)

    def turn(m):
        body = m.group(2)
        if specs or re.search(r"\b(?:requires|ensures|ghost)\b", body):
            body = words(body, PAGES)
        return m.group(1) + body

    return re.sub(r"(?m)^((?:old|new):)(.*)$", turn, text)


def page(text):
    return SPAN.sub(lambda m: words(m.group(0), PAGES), text)


def main():
    turned = 0
    for folder, dirs, files in os.walk("."):
        dirs[:] = sorted(d for d in dirs if d not in ("out", ".git", "target"))
        for f in sorted(files):
            path = os.path.join(folder, f)
            if os.path.islink(path):
                continue
            by = {".antt": antt, ".rt": rattle, ".edit": edit, ".md": page}.get(os.path.splitext(f)[1])
            if not by or (by is not page and not path.startswith("./crates/")):
                continue
            with open(path, encoding="utf-8") as it:
                text = it.read()
            new = by(text)
            if new != text:
                with open(path, "w", encoding="utf-8") as it:
                    it.write(new)
                turned += 1
    print(f"port_names: {turned} files turned")


if __name__ == "__main__":
    main()
