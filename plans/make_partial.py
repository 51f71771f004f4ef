#!/usr/bin/env python3
"""Writes partial.json: has the system's compiler make objects of partial.cpp and partial_other.cpp, and lays them out as one relocatable
object, which a linker makes into a program. Run it as

    plans/make_partial.py > plans/partial.json
    plans/make_partial.py SOURCE.cpp OTHER.cpp > plan.json

As a linker does, it puts sections of one name behind each other, keeps the first of the groups of one name with a section of its own for each
member, and leaves out the others. Each kept section that has relocations has a table of them. It decides which symbol defines which,
and what the tables' headers tell: the section that a table is of, the table of symbols, the symbol that names a group.
"""
import struct
import sys

from make_hello import ALLOC, PROGBITS, source_of, spelled, up
from make_pie import RELA, STRTAB, compiled

FLAGS = "-c -O1 -fno-pie -ffreestanding -fno-builtin -fno-stack-protector -fno-exceptions -fcf-protection=none -fno-asynchronous-unwind-tables"
SYMTAB, NOBITS, GROUP = 2, 8, 17
INFO_LINK, IN_GROUP = 0x40, 0x200  # SHF_INFO_LINK, SHF_GROUP
SECTION_SYMBOL, ABSOLUTE = 3, 0xFFF1  # STT_SECTION, SHN_ABS


class Laid:
    """The object: its output sections with their parts, and the input sections of each file."""

    def __init__(self, sources):
        self.sources = sources
        self.sections, self.parts = [{}], [{"role": "file_header", "size": 64, "align": 8}]
        self.numbers, self.places = {}, {}  # header indexes by name or by input section, places of input sections in their files
        self.files = [[] for _ in sources]
        self.groups, self.left_out = {}, set()

    def section(self, name, kind, flags, align, **more):
        """A new output section, with a part of its own."""
        self.sections.append({"name": name.hex(), "kind": kind, "flags": flags, "align": align, "size": 0, **more})
        self.parts.append({"role": "raw", "section": len(self.sections) - 1, "size": 0, "align": align})
        return len(self.sections) - 1

    def add(self, file, number, key, **item):
        """An input section behind those that its output section has."""
        part, section = self.parts[number], self.sections[number]
        part["align"] = section["align"] = max(part["align"], item.pop("align"))
        item["address"] = up(part["size"], section["align"])
        item["part"] = number
        part["size"] = section["size"] = item["address"] + item["size"]
        self.places[file, key] = len(self.files[file])
        self.files[file].append(item)

    def find_groups(self):
        """Of the groups of one name the first is kept."""
        for file, source in enumerate(self.sources):
            symbols = list(source.symbols())
            for i, header in enumerate(source.headers):
                if header[1] != GROUP:
                    continue
                members = [n for n, in struct.iter_unpack("<I", source.bytes(i)[4:])]
                if self.groups.setdefault(symbols[header[7]][0], (file, i, members))[:2] != (file, i):
                    self.left_out |= {(file, n) for n in [i, *members]}

    def kept(self, test):
        for file, source in enumerate(self.sources):
            for i, header in enumerate(source.headers):
                if test(header) and (file, i) not in self.left_out:
                    yield file, source, i, header

    def add_groups(self):
        # a group's header stands in front of its members' (gABI, "Section Groups")
        for file, i, members in self.groups.values():
            self.numbers[file, i] = self.section(b".group", GROUP, 0, 4, entsize=4)

    def add_contents(self):
        for file, source, i, header in self.kept(lambda h: h[1] in (PROGBITS, NOBITS) and h[2] & ALLOC and h[5]):
            alone = header[2] & IN_GROUP
            key = (file, i) if alone else source.names[i]
            if key not in self.numbers:
                self.numbers[key] = self.section(source.names[i], *header[1:3], 1, entsize=header[9], section_symbol=not alone)
            self.numbers[file, i] = self.numbers[key]
            own = {"nobits": True} if header[1] == NOBITS else {"bytes": source.bytes(i).hex()}
            if alone:
                own["singleton"] = self.numbers[key]
            relocations = [{"offset": o, "number": n, "symbol": (file, s), "addend": a} for o, n, s, a in source.relocations(i)]
            self.add(file, self.numbers[key], i, slot="loaded", name=source.names[i].hex(), size=header[5], flags=header[2], align=header[8], relocations=relocations, **own)

    def add_tables(self):
        for file, source, i, header in self.kept(lambda h: h[1] == RELA):
            target = header[7]
            if (file, target) not in self.places:
                continue
            number = self.numbers[file, target]
            if ("table", number) not in self.numbers:
                flags = INFO_LINK | header[2] & IN_GROUP
                self.numbers["table", number] = self.section(source.names[i], RELA, flags, 8, info=number, entsize=24)
            self.numbers[file, i] = self.numbers["table", number]
            self.add(file, self.numbers[file, i], i, slot="rela", target=self.places[file, target], size=header[5], align=8)

    def fill_groups(self):
        for file, i, members in self.groups.values():
            kept = [self.numbers[file, n] for n in members if (file, n) in self.numbers]
            flags = self.sources[file].bytes(i)[:4].hex()
            self.add(file, self.numbers[file, i], i, slot="group", size=4 + 4 * len(kept), align=4, bytes=flags + 4 * len(kept) * "00", members=kept)

    def symbols(self):
        """All symbols but the first of each file; one that the file leaves undefined is defined by another's."""
        given, defined = [], {}
        for file, source in enumerate(self.sources):
            for i, (name, info, other, section, value, size) in enumerate(list(source.symbols())[1:], 1):
                given.append(((file, i), {"name": name.hex(), "info": info, "other": other, "size": size, "value": value, "place": "undefined"}))
                if section == ABSOLUTE:
                    given[-1][1]["place"] = "absolute"
                elif (file, section) in self.places:
                    given[-1][1]["place"] = {"section": self.places[file, section]}
                    if info >> 4:
                        defined.setdefault(name, len(given) - 1)
        for at, ((file, i), symbol) in enumerate(given):
            other = defined.get(bytes.fromhex(symbol["name"]), at) if symbol["info"] >> 4 else at
            if other != at:
                symbol["definition"] = other
            symbol["emit"] = other == at and symbol["info"] % 16 != SECTION_SYMBOL
        return given


def local(symbol):
    return symbol["info"] >> 4 == 0


def plan(sources):
    laid = Laid(sources)
    laid.find_groups()
    laid.add_groups()
    laid.add_contents()
    laid.add_tables()
    laid.fill_groups()
    given = laid.symbols()
    symbols = [symbol for _, symbol in given]
    index = {key: at for at, (key, _) in enumerate(given)}
    for file in laid.files:
        for item in file:
            for relocation in item.get("relocations", ()):
                relocation["symbol"] = index[relocation["symbol"]]

    # symbols of sections, then the local ones, then the others; of a file's those that it leaves undefined come last
    counts = [sum(file == own for (file, _), _ in given) for own in range(len(sources))]
    own_sections = sum(bool(s.get("section_symbol")) for s in laid.sections) + sum("singleton" in item for file in laid.files for item in file)
    ordered = sorted((key[0], symbol["place"] == "undefined", at) for at, (key, symbol) in enumerate(given) if symbol["emit"])
    emitted = [symbols[at] for *_, at in ordered]
    locals_, others = [s for s in emitted if local(s)], [s for s in emitted if not local(s)]
    local_count = 1 + own_sections + len(locals_)

    number_of_table = len(laid.sections) + 1
    for name, (file, i, _) in laid.groups.items():
        group = laid.sections[laid.numbers[file, i]]
        group.update(link=number_of_table, info=local_count + [s["name"] for s in others].index(name.hex()))
    for section in laid.sections:
        if section.get("kind") == RELA:
            section["link"] = number_of_table

    laid.section(b".note.GNU-stack", PROGBITS, 0, 1)
    tables = [
        (b".symtab", SYMTAB, "symtab_local", 24 * local_count, 8),
        (None, SYMTAB, "symtab_global", 24 * len(others), 8),
        (b".strtab", STRTAB, "strtab", 1 + sum(len(s["name"]) // 2 + 1 for s in emitted), 1),
        (b".shstrtab", STRTAB, "shstrtab", 0, 1),
    ]
    for name, kind, role, size, align in tables:
        if name:
            more = {"link": number_of_table + 1, "entsize": 24} if kind == SYMTAB else {}
            laid.section(name, kind, 0, align, **more)
        else:
            laid.parts.append({"section": number_of_table, "align": align})
        laid.parts[-1].update(role=role, size=size)
    laid.parts[-1]["size"] = sum(len(s.get("name", "")) // 2 + 1 for s in laid.sections)
    laid.parts.append({"role": "section_headers", "size": 64 * len(laid.sections), "align": 8})

    at = 0
    for part in laid.parts:
        part["offset"] = at = up(at, part["align"])
        section = laid.sections[part.get("section", 0)]
        if "section" in part:
            section.setdefault("offset", at)
            section["size"] = at + part["size"] - section["offset"]
        at += part["size"] if section.get("kind") != NOBITS else 0
    return {
        "machine": "x86_64",
        "kind": "partial",
        "page_size": 4096,
        "parts": laid.parts,
        "sections": laid.sections,
        "symbols": symbols,
        "groups": [{
            "files": [
                {"role": "prelude"},
                *({"role": "object", "first_symbol": sum(counts[:file]), "symbol_count": counts[file], "sections": items} for file, items in enumerate(laid.files)),
                {"role": "epilogue"},
            ],
            "part_sizes": [part["size"] for part in laid.parts],
        }],
    }


if __name__ == "__main__":
    named = sys.argv[1:] or [source_of("partial.cpp"), source_of("partial_other.cpp")]
    print(spelled(plan([compiled(source, FLAGS) for source in named])))
