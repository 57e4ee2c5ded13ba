#!/usr/bin/env python3
"""Tells where include/am29332.h and the library part. Works from any directory: tools/header_check.py.

Read on the library's side: crates/am29332/src/lib.rt, the structs of the crates that it names, the numbers of crates/reasons, the status
and pin weights of crates/machine, the glossary of crates/chip, the longest listing of crates/listing, the version in crates/am29332/specs; and the symbols of
crates/am29332/out/libam29332.a, where that has been built. Each difference is a line, and the exit status is then 1. Signatures, sizes and offsets,
worked out from the .rt files, are also handed to the C compiler (CC, or cc) with the header.

The lister's mnemonics, in the code and in the definitions of crates/mnemonics, are held to the glossary as well, place by place."""
import glob
import itertools
import os
import re
import shutil
import subprocess
import sys
import tempfile

ROOT = os.path.dirname(os.path.dirname(os.path.abspath(__file__)))
HEADER = "include/am29332.h"
ARCHIVE = "crates/am29332/out/libam29332.a"
PREFIX = "am29332_"

# Rattle's numbers in C, and their sizes; a struct is its name in small letters after the prefix, but for one.
NUMBERS = {"u8": ("uint8_t", 1), "u16": ("uint16_t", 2), "u32": ("uint32_t", 4), "u64": ("uint64_t", 8)}
OTHER_NAMES = {"SingleWord": "inputs"}

told = []


def tell(line):
    told.append(line)
    print("header_check: " + line)


def read(path):
    with open(os.path.join(ROOT, path), encoding="utf-8") as file:
        return file.read()


def compare(what, library, header):
    """Two dicts of the same things: what is missing on a side, and what differs."""
    for name in sorted(library.keys() - header.keys()):
        tell(f"{what} {name} is in the library and not in the header")
    for name in sorted(header.keys() - library.keys()):
        tell(f"{what} {name} is in the header and not in the library")
    for name in sorted(library.keys() & header.keys()):
        if library[name] != header[name]:
            tell(f"{what} {name}: {library[name]} in the library, {header[name]} in the header")


# ---- the library's side


def code(path):
    """A .rt file without comments and without its promises."""
    text = re.sub(r"//[^\n]*", "", read(path))
    kept, at = [], 0
    for clause in re.finditer(r"\n\s*(?:ensures|requires)\b[^{}\n]*\{", text):
        if clause.start() >= at:
            kept.append(text[at:clause.start()])
            at = behind_brace(text, clause.end())
    return "".join(kept) + text[at:]


def behind_brace(text, at):
    """The place behind the brace that closes what is open at a place."""
    depth = 1
    while depth:
        depth += {"{": 1, "}": -1}.get(text[at], 0)
        at += 1
    return at


def c_name(struct):
    return PREFIX + OTHER_NAMES.get(struct, struct.lower())


def c_type(name):
    return NUMBERS[name][0] if name in NUMBERS else c_name(name)


def pairs(text):
    """The `name: type` of a list that commas part."""
    return [tuple(part.strip() for part in item.split(":", 1)) for item in text.split(",") if item.strip()]


def library_structs():
    """The #[repr(C)] structs that the interface's crate has or uses: a dict of lists of (type, field)."""
    interface = code("crates/am29332/src/lib.rt")
    used = {("am29332", name) for name in re.findall(r"pub struct (\w+)", interface)}
    for crate, one, several in re.findall(r"^use (\w+)::(?:(\w+)|\{(.*?)\});", interface, re.M | re.S):
        enums = re.findall(r"pub enum (\w+)", code(f"crates/{crate}/src/lib.rt"))
        used |= {(crate, name) for name in re.findall(r"\w+", one or several) if name not in enums}
    found = {}
    for path in sorted(glob.glob(os.path.join(ROOT, "crates/*/src/lib.rt"))):
        crate = path.split(os.sep)[-3]
        for name, body in re.findall(r"#\[repr\(C\)\]\s*(?:#\[[^\]]*\]\s*)*pub struct (\w+) \{(.*?)\}", code(path), re.S):
            if (crate, name) in used:
                found[name] = [(kind, field) for field, kind in pairs(body.replace("pub ", ""))]
    for crate, name in sorted(used):
        if name not in found:
            tell(f"struct {name} of {crate} has no fixed layout: #[repr(C)] is missing")
    return found


def library_functions():
    """The exports: a dict of (result, parameters), each parameter a list of C types with the name that the .rt file has."""
    found = {}
    pattern = r'#\[unsafe\(no_mangle\)\]\s*pub extern "C" fn (\w+)(?:<[^>]*>)?\((.*?)\)\s*->\s*(\w+)'
    for name, parameters, result in re.findall(pattern, code("crates/am29332/src/lib.rt"), re.S):
        taken = []
        for parameter, kind in pairs(parameters):
            lent = re.fullmatch(r"&(?:'\w+ )?(mut )?\[(\w+)\]", kind)
            if lent:
                taken.append(([("" if lent.group(1) else "const ") + c_type(lent.group(2)) + " *", "size_t"], parameter))
            else:
                taken.append(([c_type(kind)], parameter))
        found[name] = (c_type(result), taken)
    return found


def layout(structs, name):
    """Size, alignment and the fields' offsets of a struct, as #[repr(C)] lays it out."""
    at, widest, offsets = 0, 1, []
    for kind, field in structs[name]:
        size, alignment = (NUMBERS[kind][1],) * 2 if kind in NUMBERS else layout(structs, kind)[:2]
        at = -(-at // alignment) * alignment
        offsets.append((field, at))
        at, widest = at + size, max(widest, alignment)
    return -(-at // widest) * widest, widest, offsets


def glossary():
    """The mnemonics in the order of their opcode numbers, empty where there is no page."""
    entries = read("crates/chip/specs/Glossary.antt").split("glossary =\n")[1].split("[]")[0]
    pages = re.findall(r"no_page|page (\S+)", entries)
    if len(pages) != 128:
        tell(f"the glossary has {len(pages)} entries, not 128")
    return pages


# ---- the header's side


def header_text():
    text = re.sub(r"/\*.*?\*/", " ", read(HEADER), flags=re.S)
    return re.sub(r"\\\n", " ", text)


def header_structs(text):
    """A dict of the fields as C writes them, parted by semicolons."""
    found = {}
    for body, name in re.findall(r"typedef struct \w+ \{(.*?)\} (\w+);", text, re.S):
        found[name] = "; ".join(" ".join(field.split()) for field in body.split(";") if field.strip())
    return found


def header_functions(text):
    """A dict of (result, parameters), each parameter a C type and a name."""
    found = {}
    for result, name, parameters in re.findall(r"^(\w+) (am29332_\w+)\(([^()]*)\);", text, re.M):
        taken = []
        for parameter in parameters.split(","):
            kind, star, called = re.fullmatch(r"\s*((?:const )?\w+) ?(\*?)(\w*)\s*", parameter).groups()
            if kind != "void":
                taken.append((kind + (" *" if star else ""), called))
        found[name] = (result, taken)
    return found


def enumerators(text, name, prefix):
    body = re.search(r"enum %s \{(.*?)\};" % name, text, re.S)
    if not body:
        tell(f"enum {name} is not in the header")
        return {}
    return {key: int(value, 0) for key, value in re.findall(prefix + r"(\w+) = (\w+)", body.group(1))}


def macros(text, prefix):
    found = re.findall(r"^#define %s(\w+) (?:UINT32_C\()?(\w+)\)?\s*$" % prefix, text, re.M)
    return {name: int(value, 0) for name, value in found}


# ---- one against the other


def check_structs(structs, text):
    library = {c_name(name): "; ".join(f"{c_type(kind)} {field}" for kind, field in fields) for name, fields in structs.items()}
    compare("struct", library, header_structs(text))


def check_functions(functions, declared):
    for name in sorted(functions.keys() - declared.keys()):
        tell(f"function {name} is exported and not in the header")
    for name in sorted(declared.keys() - functions.keys()):
        tell(f"function {name} is in the header and not exported")
    for name in sorted(functions.keys() & declared.keys()):
        result, taken = functions[name]
        kinds = [kind for types, _ in taken for kind in types]
        if (result, kinds) != (declared[name][0], [kind for kind, _ in declared[name][1]]):
            tell(f"function {name}: {result} ({', '.join(kinds)}) in the library, "
                 f"{declared[name][0]} ({', '.join(kind for kind, _ in declared[name][1])}) in the header")
            continue
        # Two numbers that change places have the same types: the names must agree. That of a slice goes to its pointer, and may be longer there.
        names = iter(called for _, called in declared[name][1])
        for types, parameter in taken:
            called = next(names)
            if len(types) == 2:
                next(names)
            if called != parameter and not (len(types) == 2 and called.startswith(parameter + "_")):
                tell(f"function {name}: parameter {parameter} of the library is {called} in the header")


def check_reasons(text):
    # their numbers are their places
    variants = re.search(r"pub enum Reason \{(.*?)\}", code("crates/reasons/src/lib.rt"), re.S).group(1)
    reasons = {name: value for value, name in enumerate(re.findall(r"\w+", variants))}
    compare("reason", {name.upper(): value for name, value in reasons.items()},
            enumerators(text, "am29332_reason", "AM29332_REASON_"))
    given = dict(re.findall(r'case AM29332_REASON_(\w+): return "(\w+)"', text))
    compare("name of reason", {name.upper(): "done" if value == 0 else name for name, value in reasons.items()}, given)
    return len(reasons)


def check_numbers(text):
    opcodes = {name.replace("-", "_"): number for number, name in enumerate(glossary()) if name}
    compare("opcode", opcodes, enumerators(text, "am29332_opcode", "AM29332_OP_"))
    weights = re.findall(r"pub const (\w+): u32 = (\w+);", code("crates/machine/src/lib.rt"))
    header = macros(text, "AM29332_STATUS_")
    compare("status weight", {name: int(value, 0) for name, value in weights},
            {name: value for name, value in header.items() if name not in ("POSITION", "SIGNED_LT", "SIGNED_LE")})
    pins = re.search(r"^pins_of s = (.*)$", read("crates/machine/specs/Pins.antt"), re.M).group(1)
    compare("pin weight", {flag.upper(): int(weight or 1) for flag, weight in re.findall(r"s\.(\w)(?: \* (\d+))?", pins)},
            macros(text, "AM29332_PIN_"))
    version = dict(re.findall(r"^(major|minor|patch) = (\d+)$", read("crates/am29332/specs/Version.antt"), re.M))
    compare("version", {name.upper(): int(value) for name, value in version.items()}, macros(text, "AM29332_LIBRARY_VERSION_"))
    return len(opcodes)


def number_in(path, pattern):
    """The number in a definition."""
    found = re.search(pattern, read(path))
    if not found:
        tell(f"{path} has no longer the form {pattern!r}, from which a limit is read")
    return int(found.group(1)) if found else 0


def check_limits(text):
    """The largest counts, and the bytes of a header and a word, against the definitions."""
    sheet, schedule = "crates/sheet/specs/Sheet.antt", "crates/handler/specs/Schedule.antt"
    library = {
        "MAX_WORDS": number_in(sheet, r"count_of h = h / 2 \^ 16 % (\d+)") - 1,
        "MAX_REGISTERS": number_in(sheet, r"ltb (\d+) \(registers_of h\)"),
        "MAX_ENTRIES": number_in(schedule, r"leb (\d+) j gives Schedule"),
        "HEADER_BYTES": number_in(sheet, r"part_of s k = take \d+ \(drop \((\d+) \+"),
        "WORD_BYTES": number_in(sheet, r"part_of s k = take (\d+)"),
        "LISTING_MOST": number_in("crates/listing/src/lib.rt", r"pub const MOST: usize = (\d+);"),
    }
    library["SHEET_MOST"] = library["HEADER_BYTES"] + library["WORD_BYTES"] * library["MAX_WORDS"]
    header = macros(text, "AM29332_").items()
    compare("limit", library, {name: value for name, value in header if re.fullmatch(r"MAX_\w+|\w+_BYTES|\w+_MOST", name)})


def check_mnemonics():
    """The mnemonics of the listing against the glossary's names. The code has them in columns of one width."""
    source, definitions = "crates/mnemonics/src/lib.rt", "crates/mnemonics/specs/Mnemonics.antt"
    width = number_in(source, r"pub const COLUMN: usize = (\d+);")
    columns = re.findall(r'\*b"([^"]*)"', code(source).split("static MNEMONICS")[1].split("\n];")[0])
    named = re.findall(r'"([^"]*)"', read(definitions).split("mnemonics =\n")[1].split("[]")[0])
    names = glossary()
    for path, found, wanted in ((source, columns, [name.ljust(width) for name in names]), (definitions, named, names)):
        for number, (there, here) in enumerate(itertools.zip_longest(found, wanted)):
            if there != here:
                tell(f"mnemonic {number:02X}: {there!r} in {path}, {here!r} by the glossary")


def check_symbols(declared):
    """The symbols of the archive, where there is one."""
    nm = shutil.which("nm") or shutil.which("llvm-nm")
    if not os.path.exists(os.path.join(ROOT, ARCHIVE)) or not nm:
        return "no symbols (%s)" % ("there is no nm" if not nm else "tools/build.sh am29332 has not been run")
    listed = subprocess.run([nm, "-g", "--defined-only", os.path.join(ROOT, ARCHIVE)], stdout=subprocess.PIPE, text=True, check=True).stdout
    symbols = set(re.findall(r"^\w+ [A-Z] (\S+)$", listed, re.M))
    for name in sorted(symbols - declared.keys()):
        tell(f"symbol {name} is in {ARCHIVE} and not in the header")
    for name in sorted(declared.keys() - symbols):
        tell(f"function {name} is in the header and not in {ARCHIVE}")
    listed = subprocess.run([nm, "-u", os.path.join(ROOT, ARCHIVE)], stdout=subprocess.PIPE, text=True, check=True).stdout
    for name in sorted(set(re.findall(r"^ +U (\S+)$", listed, re.M))):
        tell(f"{ARCHIVE} calls {name}, of which the header does not speak")
    return f"{len(symbols)} symbols"


def assertions(structs, functions):
    """A C file that compiles where the header has the library's sizes, offsets and signatures."""
    lines = ['#include "am29332.h"', "#define HOLDS(condition) _Static_assert(condition, #condition)"]
    for name in structs:
        size, alignment, offsets = layout(structs, name)
        lines.append(f"HOLDS(sizeof({c_name(name)}) == {size});")
        lines.append(f"HOLDS(_Alignof({c_name(name)}) == {alignment});")
        lines += [f"HOLDS(offsetof({c_name(name)}, {field}) == {at});" for field, at in offsets]
    for name, (result, taken) in functions.items():
        kinds = ", ".join(kind for types, _ in taken for kind in types) or "void"
        lines.append(f"{result} (*const of_{name})({kinds}) = {name};")
    return "\n".join(lines) + "\n"


def check_compiled(structs, functions):
    compiler = os.environ.get("CC") or shutil.which("cc") or shutil.which("gcc") or shutil.which("clang") or ""
    if not shutil.which(compiler.split(" ")[0]):
        return "not compiled (there is no C compiler)"
    with tempfile.TemporaryDirectory() as work:
        path = os.path.join(work, "layout.c")
        with open(path, "w", encoding="utf-8") as file:
            file.write(assertions(structs, functions))
        answer = subprocess.run(
            [*compiler.split(), "-std=c11", "-Wall", "-Wextra", "-Wpedantic", "-Werror", "-fsyntax-only", "-I", os.path.join(ROOT, "include"), path],
            stderr=subprocess.PIPE, text=True, check=False)
    for line in re.findall(r"error: (.*)", answer.stderr):
        tell("the C compiler: " + line)
    if answer.returncode and "error: " not in answer.stderr:
        tell("the C compiler: " + answer.stderr.strip())
    return "compiled"


def main():
    text = header_text()
    structs, functions, declared = library_structs(), library_functions(), header_functions(text)
    check_structs(structs, text)
    check_functions(functions, declared)
    reasons, opcodes = check_reasons(text), check_numbers(text)
    check_limits(text)
    check_mnemonics()
    symbols = check_symbols(declared)
    compiled = "not compiled" if told else check_compiled(structs, functions)
    if told:
        sys.exit(1)
    print(f"the header is the library's: {len(structs)} structs, {len(functions)} functions, {reasons} reasons, {opcodes} opcodes, "
          f"{symbols}; {compiled}")


if __name__ == "__main__":
    main()
