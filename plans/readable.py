#!/usr/bin/env python3
"""A readable spelling of plans, and back: JSON with names as text, numbers in hex, and symbols, sections and types by their names.

    plans/readable.py < plan.json > plan.txt         shows a plan
    plans/readable.py --plan < plan.txt > plan.json  makes it again; `link` and `explain` read that

`plans/smallest.json` begins so:

    {
     "machine": "x86_64",
     "kind": "static",
     "options": {"relax": true, "strip_all": true},
     "page_size": "0x1000",
     "parts": [
      {"role": "file_header", "size": "0x40", "address": "0x400000", "align": 8},
      {"role": "program_headers", "offset": "0x40", "address": "0x400040", "size": "0x38", "align": 8},
      {"role": "raw", "section": ".text", "offset": "0x80", "address": "0x400080", "size": 7, "align": "0x10"},

and its relocation is {"offset": 1, "number": "R_X86_64_PC32", "symbol": "f", "addend": -4}.

- A name is its text, or {"hex": ".."} if it is no text. `bytes` of input sections stay in hex.
- A number of 16 or more is "0x..". A number is read wherever it is written as one, in hex or not.
- A symbol is its name if no other symbol has that name and it is not empty; otherwise it is its number. So is the output section of a part, of
  a group's member and of an input section with a `singleton`.
- Types of sections and segments, and relocation types of the plan's machine, are their names in the standards.
- A line that begins with # is left out.
"""
import json
import re
import sys

NAMES = {"name", "lib_name", "soname", "rpath", "auxiliary"}
SYMBOLS = {"symbol", "definition", "copies", "first_symbol"}
# gABI, "Section Types" and "Segment Types", with those of GNU
SECTION_KINDS = {0: "NULL", 1: "PROGBITS", 3: "STRTAB", 2: "SYMTAB", 4: "RELA", 5: "HASH", 6: "DYNAMIC", 7: "NOTE", 8: "NOBITS", 11: "DYNSYM",
                 14: "INIT_ARRAY", 15: "FINI_ARRAY", 16: "PREINIT_ARRAY", 17: "GROUP", 18: "SYMTAB_SHNDX", 19: "RELR", 0x6FFFFFF6: "GNU_HASH",
                 0x6FFFFFFD: "GNU_VERDEF", 0x6FFFFFFE: "GNU_VERNEED", 0x6FFFFFFF: "GNU_VERSYM", 0x70000001: "X86_64_UNWIND"}
SEGMENT_KINDS = {1: "LOAD", 2: "DYNAMIC", 3: "INTERP", 4: "NOTE", 6: "PHDR", 7: "TLS", 0x6474E550: "GNU_EH_FRAME", 0x6474E551: "GNU_STACK",
                 0x6474E552: "GNU_RELRO", 0x6474E553: "GNU_PROPERTY"}
# x86-64 psABI, "Relocation Types": the names from 0 on, and later ones
X86_64_TYPES = dict(enumerate("""NONE 64 PC32 GOT32 PLT32 COPY GLOB_DAT JUMP_SLOT RELATIVE GOTPCREL 32 32S 16 PC16 8 PC8 DTPMOD64 DTPOFF64 TPOFF64 TLSGD TLSLD
    DTPOFF32 GOTTPOFF TPOFF32 PC64 GOTOFF64 GOTPC32 GOT64 GOTPCREL64 GOTPC64 GOTPLT64 PLTOFF64 SIZE32 SIZE64 GOTPC32_TLSDESC TLSDESC_CALL
    TLSDESC IRELATIVE RELATIVE64""".split())) | {41: "GOTPCRELX", 42: "REX_GOTPCRELX", 43: "CODE_4_GOTPCRELX", 44: "CODE_4_GOTTPOFF",
                                                 45: "CODE_4_GOTPC32_TLSDESC"}
# ELF for the Arm 64-bit Architecture, "Relocation codes": runs of names by the number of the first
AARCH64_RUNS = {
    0: "NONE",
    257: "ABS64 ABS32 ABS16 PREL64 PREL32 PREL16 MOVW_UABS_G0 MOVW_UABS_G0_NC MOVW_UABS_G1 MOVW_UABS_G1_NC MOVW_UABS_G2 MOVW_UABS_G2_NC MOVW_UABS_G3",
    273: "LD_PREL_LO19 ADR_PREL_LO21 ADR_PREL_PG_HI21 ADR_PREL_PG_HI21_NC ADD_ABS_LO12_NC LDST8_ABS_LO12_NC TSTBR14 CONDBR19",
    282: "JUMP26 CALL26 LDST16_ABS_LO12_NC LDST32_ABS_LO12_NC LDST64_ABS_LO12_NC",
    299: "LDST128_ABS_LO12_NC",
    311: "ADR_GOT_PAGE LD64_GOT_LO12_NC LD64_GOTPAGE_LO15 PLT32",
    513: "TLSGD_ADR_PAGE21 TLSGD_ADD_LO12_NC",
    541: "TLSIE_ADR_GOTTPREL_PAGE21 TLSIE_LD64_GOTTPREL_LO12_NC",
    544: "TLSLE_MOVW_TPREL_G2 TLSLE_MOVW_TPREL_G1 TLSLE_MOVW_TPREL_G1_NC",
    548: """TLSLE_MOVW_TPREL_G0_NC TLSLE_ADD_TPREL_HI12 TLSLE_ADD_TPREL_LO12 TLSLE_ADD_TPREL_LO12_NC TLSLE_LDST8_TPREL_LO12
         TLSLE_LDST8_TPREL_LO12_NC TLSLE_LDST16_TPREL_LO12 TLSLE_LDST16_TPREL_LO12_NC TLSLE_LDST32_TPREL_LO12 TLSLE_LDST32_TPREL_LO12_NC
         TLSLE_LDST64_TPREL_LO12 TLSLE_LDST64_TPREL_LO12_NC""",
    562: "TLSDESC_ADR_PAGE21 TLSDESC_LD64_LO12 TLSDESC_ADD_LO12",
    569: "TLSDESC_CALL",
    1024: "COPY GLOB_DAT JUMP_SLOT RELATIVE TLS_DTPMOD TLS_DTPREL TLS_TPREL TLSDESC IRELATIVE",
}
AARCH64_TYPES = {first + place: name for first, names in AARCH64_RUNS.items() for place, name in enumerate(names.split())}
# the names of types by the member `machine`
TYPES = {"x86_64": {number: f"R_X86_64_{name}" for number, name in X86_64_TYPES.items()},
         "aarch64": {number: f"R_AARCH64_{name}" for number, name in AARCH64_TYPES.items()}}


def text_of(name):
    """A name, given in hex, as text, where it is some."""
    try:
        text = bytes.fromhex(name).decode()
    except ValueError:
        return {"hex": name}
    return text if text.isprintable() and text.encode().hex() == name else {"hex": name}


def by_name(items):
    """The place of each item that alone has its name."""
    names = [text_of(item.get("name", "")) for item in items]
    known = [name for name in names if isinstance(name, str) and name and not name.startswith("0x")]
    return {name: place for place, name in enumerate(names) if known.count(name) == 1} if len(known) < 5000 else {}


class Spelling:
    """How the members of a plan are spelled: `show` makes it readable, `plan` makes the plan again."""

    def __init__(self, symbols, sections, machine):
        self.symbols, self.sections, self.types = symbols, sections, TYPES.get(machine, {})

    def table(self, path):
        """The names that stand for numbers at a path of member names, by the number."""
        *outer, member = [""] + path
        if member in SYMBOLS:
            return {place: name for name, place in self.symbols.items()}
        if member in ("singleton", "members") or member == "section" and "parts" in outer:
            return {place: name for name, place in self.sections.items()}
        if member == "kind" and outer[-1:] in (["sections"], ["segments"]):
            return SECTION_KINDS if outer[-1] == "sections" else SEGMENT_KINDS
        return self.types if member == "number" and outer[-1:] == ["relocations"] else {}

    def show(self, value, path):
        if isinstance(value, dict):
            return {member: self.show(inner, path + [member]) for member, inner in value.items()}
        if isinstance(value, list):
            return [self.show(inner, path) for inner in value]
        if path and path[-1] in NAMES and isinstance(value, str):
            return text_of(value)
        if isinstance(value, int) and not isinstance(value, bool):
            return self.table(path).get(value, hex(value) if value > 15 else value)
        return value

    def plan(self, value, path):
        if path and path[-1] in NAMES and not isinstance(value, (list, type(None))):
            return value["hex"] if isinstance(value, dict) else value.encode().hex()
        if isinstance(value, dict):
            return {member: self.plan(inner, path + [member]) for member, inner in value.items()}
        if isinstance(value, list):
            return [self.plan(inner, path) for inner in value]
        if isinstance(value, str):
            numbers = {name: number for number, name in self.table(path).items()}
            if value in numbers:
                return numbers[value]
            if re.fullmatch(r"0x[0-9a-f]+", value) and path[-1:] != ["bytes"]:
                return int(value, 16)
        return value


def lines(value, depth):
    """JSON with an item of a long list, and a member that has one, on each line."""
    short = json.dumps(value, ensure_ascii=False)
    if not isinstance(value, (dict, list)) or depth and len(short) < 180 and '": [{' not in short:
        return short
    pad = " " * (depth + 1)
    if isinstance(value, dict):
        inner = [f"{json.dumps(member)}: {lines(item, depth + 1)}" for member, item in value.items()]
        return "{\n" + pad + (",\n" + pad).join(inner) + "\n" + " " * depth + "}"
    if not any(isinstance(item, (dict, list)) for item in value):
        return short
    return "[\n" + pad + (",\n" + pad).join(lines(item, depth + 1) for item in value) + "\n" + " " * depth + "]"


def shown(text):
    """A plan's text, readable."""
    plan = json.loads(text)
    return lines(Spelling(by_name(plan.get("symbols", [])), by_name(plan.get("sections", [])), plan.get("machine", "x86_64")).show(plan, []), 0) + "\n"


def planned(text):
    """The plan of a readable text, as a value."""
    value = json.loads("\n".join(line for line in text.splitlines() if not line.lstrip().startswith("#")))
    machine = value.get("machine", "x86_64")
    first = Spelling({}, {}, machine)
    symbols, sections = (by_name([{"name": first.plan(item.get("name", ""), ["name"])} for item in value.get(list_, [])]) for list_ in ("symbols", "sections"))
    return Spelling(symbols, sections, machine).plan(value, [])


if __name__ == "__main__":
    if sys.argv[1:] not in ([], ["--plan"]):
        sys.exit(__doc__)
    given = sys.stdin.read()
    sys.stdout.write(json.dumps(planned(given), separators=(",", ":")) + "\n" if sys.argv[1:] else shown(given))
