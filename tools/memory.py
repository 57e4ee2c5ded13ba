#!/usr/bin/env python3
"""Tells what memory the built library needs. Works from any directory, after tools/build.sh am29332:

    tools/memory.py [--symbols] [--archive FILE] [FUNCTION ..]

First its read-only data, by section and symbol, and what each piece is for; then, for each function that a caller can name, or for the FUNCTIONs
that are given, the code, the read-only data and the stack that come with it, and the same for all of them together. That is what a linker takes of
the archive, told to leave out what is not called (--gc-sections), but for bytes between functions; equal constants that it merges count once.

What a piece is for is read off the archive, not taken from a list. A jump table is a piece in which every four bytes are the distance to an
instruction of one function. Mnemonics are a piece that stands in the table of crates/mnemonics. A text is the bytes of a string in the source of a
crate. Any other piece, a stored mask say, is told as not known, and so is data that can be written; the exit status is then 1. With --symbols there
is a line for each symbol and its bytes."""
import argparse
import ast
import collections
import functools
import glob
import os
import re
import shutil
import struct
import subprocess
import sys

ROOT = os.path.dirname(os.path.dirname(os.path.abspath(__file__)))
ARCHIVE = os.path.join(ROOT, "crates/am29332/out/libam29332.a")
MNEMONICS = "crates/mnemonics/src/lib.rt"
DISASSEMBLERS = ("llvm-objdump", "x86_64-linux-gnu-objdump", "objdump")

# From the ELF format: kinds of sections, their flags, the kind of symbol that is a function.
SYMBOLS, RELOCATIONS = 2, 4
WRITE, LOADED, CODE, MERGED = 1, 2, 4, 16
FUNCTION = 2

Section = collections.namedtuple("Section", "name kind flags size link info bytes")
Symbol = collections.namedtuple("Symbol", "name kind section value")
Reference = collections.namedtuple("Reference", "at symbol added")
Piece = collections.namedtuple("Piece", "section symbol size bytes users what linked")


def member(path):
    """The one object file of an archive."""
    with open(path, "rb") as file:
        data = file.read()
    at, objects = 8, []
    while data[:8] == b"!<arch>\n" and at < len(data):
        name, size = data[at:at + 16].strip(), int(data[at + 48:at + 58])
        if name not in (b"/", b"//"):
            objects.append(data[at + 60:at + 60 + size])
        at += 60 + size + size % 2
    if len(objects) != 1 or objects[0][:6] != b"\x7fELF\x02\x01":
        sys.exit(f"memory: {path} is no archive of one ELF object of 64 bits")
    return objects[0]


def text_at(table, at):
    return table[at:table.index(b"\0", at)].decode()


class Library:
    """Sections, symbols and references of an object file in which each function has a section of its own."""

    def __init__(self, data):
        start, = struct.unpack_from("<Q", data, 0x28)
        count, names = struct.unpack_from("<HH", data, 0x3C)
        rows = [struct.unpack_from("<IIQQQQII", data, start + 64 * i) for i in range(count)]
        table = data[rows[names][4]:][:rows[names][5]]
        self.sections = [Section(text_at(table, r[0]), r[1], r[2], r[5], r[6], r[7], data[r[4]:r[4] + r[5]]) for r in rows]
        self.symbols = []
        for section in self.sections:
            if section.kind == SYMBOLS:
                strings = self.sections[section.link].bytes
                for name, info, _, where, value, _ in struct.iter_unpack("<IBBHQQ", section.bytes):
                    self.symbols.append(Symbol(text_at(strings, name), info % 16, where, value))
        self.references = collections.defaultdict(list)
        for section in self.sections:
            if section.kind == RELOCATIONS:
                for at, info, added in struct.iter_unpack("<QQq", section.bytes):
                    self.references[section.info].append(Reference(at, self.symbols[info >> 32], added))
        self.functions = {s.section: s.name for s in self.symbols if s.kind == FUNCTION}

    def loaded(self, flags):
        """The sections in memory whose flags are these."""
        return [i for i, s in enumerate(self.sections) if s.size and s.flags & (WRITE | LOADED | CODE) == LOADED | flags]

    def entries(self):
        return [s.name for s in self.symbols if s.kind == FUNCTION and s.name.startswith("am29332_")]

    def section_of(self, function):
        return next(i for i, name in self.functions.items() if name == function)

    def calls(self, function):
        return {self.functions[r.symbol.section] for r in self.references[self.section_of(function)] if r.symbol.section in self.functions}

    def reached(self, functions):
        """The functions, and those that they call."""
        seen, left = set(), list(functions)
        while left:
            function = left.pop()
            if function not in seen:
                seen.add(function)
                left += self.calls(function)
        return seen

    def pieces(self, section):
        """A read-only section from symbol to symbol, or, where it has none, from one place that code refers to to the next."""
        used = collections.defaultdict(set)
        for code, function in self.functions.items():
            for r in self.references[code]:
                if r.symbol.section == section:
                    # the four bytes of a reference are the last of their instruction, and count from its end
                    used[r.symbol.value + r.added + 4].add(function)
        names = {s.value: s.name for s in self.symbols if s.section == section and s.name and s.name != self.sections[section].name}
        starts = sorted(used.keys() | names.keys() | {0})
        for at, end in zip(starts, starts[1:] + [self.sections[section].size]):
            data = self.sections[section].bytes[at:end]
            what = "jump table" if self.is_jump_table(section, at, end) else "mnemonics" if data in mnemonics() else "text" if data in texts() else "not known"
            # where a linker may merge, pieces with the same bytes are one
            linked = (section, data if self.sections[section].flags & MERGED else at)
            yield Piece(self.sections[section].name, names.get(at, f"+ {at:03x}"), end - at, data, frozenset(used[at]), what, linked)

    def is_jump_table(self, section, at, end):
        inside = [r for r in self.references[section] if at <= r.at < end]
        return [r.at for r in inside] == list(range(at, end, 4)) and len({self.functions.get(r.symbol.section) for r in inside} - {None}) == 1


@functools.lru_cache(None)
def mnemonics():
    """The table of mnemonics as one text, column after column."""
    with open(os.path.join(ROOT, MNEMONICS), encoding="utf-8") as file:
        return "".join(re.findall(r'\*b"([^"]*)"', file.read())).encode()


@functools.lru_cache(None)
def texts():
    """The bytes of each string in the sources."""
    found = set()
    for path in glob.glob(os.path.join(ROOT, "crates/*/src/*.rt")):
        with open(path, encoding="utf-8") as file:
            code = re.sub(r"//[^\n]*", "", file.read())
        found |= {ast.literal_eval(f'b"{text}"') for text in re.findall(r'\bb"((?:[^"\\]|\\.)*)"', code)}
    return found


# ---- the stack


def disassembled(path):
    """The instructions of each function, or None where nothing here can read x86-64 code."""
    for tool in filter(shutil.which, DISASSEMBLERS):
        said = subprocess.run([tool, "-d", "--no-show-raw-insn", path], stdout=subprocess.PIPE, stderr=subprocess.DEVNULL, text=True, check=False).stdout
        functions, lines = {}, None
        for line in said.splitlines():
            start = re.match(r"[0-9a-f]+ <(.*)>:$", line)
            if start:
                lines = functions.setdefault(start[1], [])
            elif re.match(r"\s*[0-9a-f]+:\s", line):
                lines.append(line.split(":", 1)[1].split("#")[0].strip())
        if functions:
            return functions
    return None


def frame(function, lines):
    """The bytes of stack that a function takes: where its caller goes on, what it saves and sets aside, and what it uses below that."""
    taken, below = 8, 0
    for line in lines:
        if re.match(r"callq?\s", line) and line.endswith(f"<{function}>"):
            sys.exit(f"memory: {function} calls itself")
        moved = re.match(r"(add|sub)q?\s+\$(-?\w+), ?%rsp$", line)
        if moved:
            # 128 bytes are set aside by adding -128, which one disassembler prints as 2 to the 64 less 128
            by = (int(moved[2], 0) + 2**63) % 2**64 - 2**63
            taken += max(by if moved[1] == "sub" else -by, 0)
        elif re.match(r"pushq?\s", line):
            taken += 8
        elif (re.search(r", ?%rsp$", line) and not re.match(r"(cmp|test)q?\s", line)) or re.match(r"callq?\s+\*", line):
            sys.exit(f"memory: the stack of {function} is not known: {line}")
        for under in re.findall(r"-(\w+)\(%rsp", line):
            below = max(below, int(under, 0))
    return taken + below


def deepest(library, frames, function, above=()):
    """The stack of a call, with all that it calls."""
    if function in above:
        sys.exit(f"memory: {function} calls itself")
    return frames[function] + max((deepest(library, frames, called, above + (function,)) for called in library.calls(function)), default=0)


# ---- what is printed


def row(name, *columns):
    print(f"{name:<34}" + "".join(f"{column:>10}" for column in columns))


def shown(piece):
    """The bytes of a piece: as text where they are one."""
    return repr(piece.bytes.decode()) if piece.what in ("mnemonics", "text") else f"{piece.size // 4} entries" if piece.what == "jump table" else piece.bytes.hex()


def tell_read_only(pieces, each):
    """A line for each piece, or one for those that follow one another and are for one thing."""
    groups = []
    for piece in pieces:
        last = groups[-1][-1] if groups else None
        alike = last and (last.section, last.users, last.what) == (piece.section, piece.users, piece.what)
        joined = alike and piece.what == "mnemonics" and not each
        if joined:
            groups[-1].append(piece)
        else:
            groups.append([piece])
    row("read-only data", "bytes")
    section = None
    for group in groups:
        first, last = group[0], group[-1]
        if first.section != section:
            section = first.section
            row(section, sum(p.size for p in pieces if p.section == section))
        name = first.symbol if len(group) == 1 else f"{first.symbol} to {last.symbol}"
        table = first.what == "mnemonics" and first.bytes == mnemonics() and not each
        what = "the whole table" if table else shown(first) if len(group) == 1 else f"{len(group)} symbols"
        print(f"  {name:<32}{sum(p.size for p in group):>10}  {first.what}: {what}, of {', '.join(sorted(first.users)) or 'nothing'}")
    sums = collections.Counter()
    for piece in pieces:
        sums[piece.what] += piece.size
    row("all", sum(sums.values()))
    print(f"  jump tables {sums['jump table']}, mnemonics {sums['mnemonics']}, texts {sums['text']}, anything else {sums['not known']}")


def tell_calls(library, pieces, frames, entries):
    def line(name, functions):
        reached = library.reached(functions)
        code = sum(library.sections[library.section_of(f)].size for f in reached)
        data = sum({p.linked: p.size for p in pieces if p.users & reached}.values())
        stack = max(deepest(library, frames, f) for f in functions) if frames else "-"
        row(name, code, data, stack)

    print()
    row("a caller of", "code", "read-only", "stack")
    for entry in entries:
        line(entry, [entry])
    if len(entries) > 1:
        line("all of these", entries)


def main():
    words = argparse.ArgumentParser(description=__doc__, formatter_class=argparse.RawDescriptionHelpFormatter)
    words.add_argument("--symbols", action="store_true", help="a line for each symbol")
    words.add_argument("--archive", metavar="FILE", default=ARCHIVE, help="another archive than crates/am29332/out/libam29332.a")
    words.add_argument("functions", metavar="FUNCTION", nargs="*", help="a function of include/am29332.h; none: each of them")
    asked = words.parse_args()
    if not os.path.exists(asked.archive):
        sys.exit(f"memory: there is no {os.path.relpath(asked.archive)}; first: tools/build.sh am29332")
    library = Library(member(asked.archive))
    for name in asked.functions:
        if name not in library.entries():
            sys.exit(f"memory: {name} is no function that a caller can name")
    pieces = [piece for section in library.loaded(0) for piece in library.pieces(section)]
    tell_read_only(pieces, asked.symbols)
    written = [library.sections[i] for i in library.loaded(WRITE)]
    print("data that can be written: " + (", ".join(f"{s.name} {s.size}" for s in written) or "none"))
    code = disassembled(asked.archive)
    frames = code and {name: frame(name, code[name]) for name in library.functions.values()}
    tell_calls(library, pieces, frames, asked.functions or library.entries())
    if not code:
        print("the stack is not told: no llvm-objdump, and no objdump that reads x86-64 code")
    if any(piece.what == "not known" for piece in pieces):
        print("memory: is what is not known of x86-64-v2, for which rt builds by itself? tools/build.sh builds for every processor", file=sys.stderr)
        return 1
    return 1 if written else 0


if __name__ == "__main__":
    sys.exit(main())
