#!/usr/bin/env python3
"""dispatch_proofs.py [--check]

Writes what follows from the tables of operations: the arms of dispatch::operate, from chip's decode, perform and glossary; and the proofs of
the functions that are one `match` from a number to a call, from their arms: each family's by place, and operate. Run it after a change of one
of these. With --check it writes nothing, names the files that are not what it would write, and exits 1 if there are any."""
import pathlib
import re
import sys

CRATES = pathlib.Path(__file__).resolve().parent.parent / "crates"
FAMILIES = [("shifts", "shift"), ("arithmetic", "decimal"), ("multiply", "multiply"), ("divide", "divide"), ("fields", "field"), ("chip", "basic")]

FAMILY = """\
-- Each arm's call gives the entry of `{table}` at its number, and the default's the last entry. Written by tools/dispatch_proofs.py.
use mathlib.Core.Path.{{refl}}
use Rattle.std.proofs.Common.{{arith}}
use Rattle.bits.proofs.Rest.{{last_entry_past}}
{uses}"""

OPERATE = """\
-- Each arm's call gives the page of its number, and no number below 128 is left to the default. Written by tools/dispatch_proofs.py.
use Rattle.std.proofs.Common.{arith}
use Rattle.chip.proofs.Pages.{at, past_glossary}
"""

PROOF = """\
{head}use Rattle.{crate}.proofs.{function}.Goals as goal

{answers}
"""

ANSWER = """\
pub returns-{arm} : goal.returns-{arm}
returns-{arm} c = {term}
"""


def read(path):
    return (CRATES / path).read_text(encoding="utf-8") if (CRATES / path).exists() else ""


def calls(code):
    """The functions that a line of code calls, in order: those in a call's arguments before it."""
    done, begun = [], []
    for name, end in re.findall(r"([\w:.]*)\(|(\))", code):
        if end:
            done.append(begun.pop())
        else:
            begun.append(re.split("::|[.]", name)[-1])
    return done


def proof(crate, function, source):
    before, match = re.search(r"pub fn %s\(.*?\n}\n" % function, source, re.S).group().split("    match ")
    arms = re.findall(r"^        (\w+) => (.*),(?: //.*)?$", match, re.M)
    family = re.search(r"get_or (\S+) k (\S+) x", before)
    answers, called = [], set()
    for number, (key, code) in enumerate(arms):
        arm = "in_default" if key == "_" else "in-%d" % int(key, 0)
        made = calls(code)
        # a step has its callee's name, and behind it the arm's where an earlier arm calls the same
        step = made[-1] + ("-" + arm if made[-1] in called else "")
        called.update(made)
        ensures = "c.%s.ensures" % step if len(made) == 1 else "(cc)"
        if not family:
            term = "%s %s" % ("past_glossary c.args.opcode c.args.x (omega arith)" if key == "_" else "at _ c.%s.is" % arm, ensures)
        elif key == "_":
            term = "rw (last_entry_past %s %s %d c.args.k refl (omega arith)) %s" % (*family.groups(), number, ensures)
        else:
            term = "rw c.%s.is %s" % (arm, ensures)
        answers.append(ANSWER.format(arm=arm, term=term))
    head = OPERATE
    if family:
        imports = [(module, [name for name in family.groups() if name in names.split(", ")]) for module, names in re.findall(r"^ghost use (\S+)\.{(.*)};", source, re.M)]
        head = FAMILY.format(table=family.group(1), uses="".join("use %s.{%s}\n" % (module, ", ".join(names)) for module, names in imports if names))
    return PROOF.format(head=head, crate=crate, function=function, answers="\n".join(answers).rstrip("\n"))


def operate(source):
    """The dispatch's source, with an arm for each number: its family, asked for its place there."""
    chip = read("chip/src/lib.rt")
    ranges = re.findall(r"0x(..)\.\.=0x(..) => Ok\(Operation::(\w+)\(n(?: - 0x(..))?\)\)", chip)
    functions = {family: function if "::" in function else "chip::" + function for family, function in re.findall(r"Operation::(\w+)\(k\) => ([\w:]+)\(k, x\)", chip)}
    glossary = re.findall(r"page ([A-Z]\S*) ∷|no_page ∷", read("chip/specs/Glossary.antt"))
    arms = ["        0x%02x => unchanged(x),\n" % n for n in range(128)]
    for first, last, family, start in ranges:
        for n in range(int(first, 16), int(last, 16) + 1):
            arms[n] = "        0x%02x => %s(0x%02x, x), // %s\n" % (n, functions[family], n - int(start or "0", 16), glossary[n])
    return re.sub(r"(    match opcode {\n).*?(        _ =>)", lambda m: m.group(1) + "".join(arms) + m.group(2), source, flags=re.S)


def main():
    texts = {"dispatch/src/lib.rt": operate(read("dispatch/src/lib.rt"))}
    for crate, function in FAMILIES + [("dispatch", "operate")]:
        path = crate + "/src/lib.rt"
        texts["%s/proofs/%s/Answers.antt" % (crate, function)] = proof(crate, function, texts.get(path) or read(path))
    stale = [path for path, text in texts.items() if read(path) != text]
    for path in stale:
        print("crates/" + path)
        if "--check" not in sys.argv:
            (CRATES / path).parent.mkdir(parents=True, exist_ok=True)
            (CRATES / path).write_text(texts[path], encoding="utf-8")
    sys.exit(1 if stale and "--check" in sys.argv else 0)


main()
