#!/usr/bin/env python3
"""Says where docs/MANUAL.md, the definitions and what shows them do not agree; exits 1 if anywhere.

Every entry M1, M2, .. ends in a paragraph 'Definition: .. Shown by: ..'. Each `name` in FILE there has to be defined in that file; each example,
theorem, must-fail edit, planted fault and digest line has to exist; one of the files with its definitions has to cite the entry, as in (M1). A
comment in specs/ cites no other entries than there are."""
import os
import re
import sys
from glob import glob

os.chdir(os.path.join(os.path.dirname(os.path.abspath(__file__)), ".."))
wrong = []
# where an edit is: the gate's, and those of tools/edits.sh
EDITS = ("crates/%s/must-fail/%s.edit", "crates/%s/more-edits/%s.edit")
# what shows an entry: how its names are told from the words about them, where they are, and how a name is found there
KINDS = {
    "fault": (r"`(\w+)`", "oracle/src/faults.rs", r'^    %s: "'),
    "digest": (r"\b([0-9A-F]{2})\b", "crates/digest/stdout", r"^%s "),
    "example": (r"\b([a-m])\b", "crates/chip/proofs/Examples.antt", r"^    -- (?:[a-m], )*%s[,:]"),
}

def read(path):
    return open(path, encoding="utf-8").read() if os.path.isfile(path) else ""

def files(entry, text):
    """The files of text's '`name` in FILE', each name being defined there."""
    found = re.findall(r"((?:`[^`]+`(?:, | and )?)+) in (crates/\S+?\.antt)", text)
    for path, name in [(path, name) for names, path in found for name in re.findall(r"`([^`]+)`", names)]:
        if not re.search(r"^ *(?:(?:abbrev|unfoldable|pub|record|data) )*" + re.escape(name) + " :", read(path), re.M):
            wrong.append(f"{entry}: {path} has no {name}")
    return [path for _, path in found]

def shown(entry, part):
    """One part of 'Shown by': all that it names exists."""
    kind, names, absent = part.split(" ")[0].rstrip("s"), [], []
    if kind == "theorem":
        names = files(entry, part)
    elif kind == "must-fail":
        names = re.findall(r"`([^`]+/[^`]+)`", part)
        absent = [n for n in names if not any(os.path.isfile(p % tuple(n.split("/"))) for p in EDITS)]
    elif kind in KINDS:
        names = re.findall(KINDS[kind][0], part)
        absent = [n for n in names if not re.search(KINDS[kind][2] % n, read(KINDS[kind][1]), re.M)]
    wrong.extend([f"{entry}: there is no {kind} {n}" for n in absent] or ([] if names else [f"{entry}: nothing is named in '{part}'"]))

cites = {p: set(re.findall(r"\bM\d+\b", "".join(re.findall(r"^ *--.*", read(p), re.M)))) for p in sorted(glob("crates/*/specs/*.antt"))}
parts = {p.split(".")[0]: p for p in re.split(r"^##+ ", read("docs/MANUAL.md"), flags=re.M) if re.match(r"M\d+\. ", p)}
for entry, text in parts.items():
    line = " ".join("".join(re.findall(r"^Definition: (?:.+\n)+", text, re.M)).split())
    definition, _, showing = line.rstrip(".").partition(". Shown by: ")
    paths = files(entry, definition)
    if not showing or not (paths or definition.startswith("Definition: none")):
        wrong.append(f"{entry}: no definition, or nothing that shows it")
    elif paths and not any(entry in cites.get(p, ()) for p in paths):
        wrong.append(f"{entry}: not cited in {', '.join(paths)}")
    for part in filter(None, showing.split("; ")):
        shown(entry, part)
wrong += [f"{path}: cites {m}, which is no entry" for path in cites for m in sorted(cites[path] - set(parts))]
print("\n".join(wrong) or f"{len(parts)} entries agree with their definitions and with what shows them")
sys.exit(bool(wrong))
