#!/usr/bin/env python3
"""Writes pie.json: has the system's compiler make an object of pie.c, and lays it out as a static position-independent
executable, which finds its own relocations by its dynamic section. Run it as

    plans/make_pie.py > plans/pie.json
    plans/make_pie.py SOURCE.c > plan.json

The file has what a loader reads, the strings, the code, and the data with the dynamic section; each of the last two
stands a page further on in memory than the one before it. As a linker does, it defines `_DYNAMIC` and `__ehdr_start`,
and decides which addresses are packed as words (an even place) and which are entries.
"""
import os
import subprocess
import tempfile

from make_hello import ALLOC, CODE, PAGE, PROGBITS, Object, placed, source_of, spelled, up

WRITE, STRTAB, RELA, DYNAMIC, DYNSYM, RELR = 1, 3, 4, 6, 11, 19
LOAD, DYNAMIC_SEGMENT, STACK = 1, 2, 0x6474E551
ABSOLUTE_ADDRESS = 1  # R_X86_64_64
ENTRIES = 15  # of the dynamic section: four on strings and symbols, four on entries, three on words, and four more
FLAGS = "-c -O1 -fPIE -ffreestanding -fno-builtin -fno-strict-aliasing -fno-stack-protector -fno-asynchronous-unwind-tables -fcf-protection=none"


def compiled(source, flags=FLAGS, compiler="gcc"):
    """The object of a source, made in a folder of its own, which the flags call ROOM."""
    with tempfile.TemporaryDirectory() as room:
        words = [compiler, *flags.replace("ROOM", room).split(), "-o", f"{room}/object", os.path.abspath(source)]
        subprocess.run(words, check=True, cwd=room)
        with open(f"{room}/object", "rb") as it:
            return Object(it.read())


def packed(places):
    """The words of even places: an address, and behind it bitmaps of 63 places (gABI, "Relative Relocation Table")."""
    words, at = [], 0
    while at < len(places):
        words.append(places[at])
        start, at = places[at] + 8, at + 1
        while bits := [p for p in places[at:] if p in range(start, start + 504, 8)]:
            words.append(1 | sum(2 << (p - start) // 8 for p in bits))
            start, at = start + 504, at + len(bits)
    return words


def addresses(inputs):
    """The places of addresses, section by section."""
    for section in inputs.values():
        yield [section["address"] + r["offset"] for r in section["relocations"] if r["number"] == ABSOLUTE_ADDRESS]


def tables(inputs):
    """How many entries and words the addresses take; words of each section are its own."""
    listed = sum(place % 2 for places in addresses(inputs) for place in places)
    return listed, sum(len(packed([p for p in places if p % 2 == 0])) for places in addresses(inputs))


def symbols_of(source, order, inputs, defined):
    """The object's symbols but the first: each stands in an input section, or is one that the linker defines."""
    for name, info, other, section, value, size in list(source.symbols())[1:]:
        symbol = {"name": name.hex(), "info": info, "other": other, "size": size, "value": value, "flags": ["NON_INTERPOSABLE"]}
        if section in inputs:
            symbol["place"] = {"section": order.index(section)}
            symbol["resolution"] = {"raw_value": inputs[section]["address"] + value}
        elif name.decode() in defined:
            symbol["resolution"] = {"raw_value": defined[name.decode()]}
        yield symbol


def plan(source):
    loaded = [i for i, h in enumerate(source.headers) if h[1] == PROGBITS and h[2] & ALLOC and h[5]]
    code = [i for i in loaded if source.headers[i][2] & CODE]
    data = [i for i in loaded if source.headers[i][2] & WRITE]
    strings = [i for i in loaded if i not in code + data]
    order = strings + code + data

    # tables come before the data, so their sizes are asked of the data as if it began at 0
    listed, words = tables(placed(source, data, 0, 0)[0])
    symbols_at = 64 + 5 * 56
    names_at = symbols_at + 24
    listed_at = up(names_at + 1, 8)
    words_at = listed_at + 24 * listed
    strings_at = words_at + 8 * words
    held, strings_end = placed(source, strings, 6, strings_at)
    text_at = up(strings_end, 16)
    text, text_end = placed(source, code, 7, PAGE + text_at)
    text_end -= PAGE
    data_at = up(text_end, 32)
    inputs, data_end = placed(source, data, 8, 2 * PAGE + data_at)
    dynamic_at = up(data_end - 2 * PAGE, 8)
    inputs.update(held)
    inputs.update(text)
    file_end = dynamic_at + 16 * ENTRIES

    names = [".dynsym", ".dynstr", ".rela.dyn", ".relr.dyn", ".rodata", ".text", ".data", ".dynamic", ".shstrtab"]
    names_size = 1 + sum(len(name) + 1 for name in names)
    headers_at = up(file_end + names_size, 8)

    def part(role, section, offset, size, align, pages=0):
        return {"role": role, "section": section, "offset": offset, "address": pages * PAGE + offset, "size": size, "align": align}

    parts = [
        part("file_header", 0, 0, 64, 8),
        part("program_headers", 0, 64, 5 * 56, 8),
        part("dynsym", 1, symbols_at, 24, 8),
        part("dynstr", 2, names_at, 1, 1),
        part("rela_dyn_relative", 3, listed_at, 24 * listed, 8),
        part("relr_dyn", 4, words_at, 8 * words, 8),
        part("raw", 5, strings_at, strings_end - strings_at, 1),
        part("raw", 6, text_at, text_end - text_at, 16, 1),
        part("raw", 7, data_at, data_end - 2 * PAGE - data_at, 32, 2),
        part("dynamic", 8, dynamic_at, 16 * ENTRIES, 8, 2),
        {"role": "shstrtab", "section": 9, "offset": file_end, "size": names_size},
        {"role": "section_headers", "offset": headers_at, "size": 64 * (len(names) + 1), "align": 8},
    ]
    # type, flags, sh_link, sh_info, size of an entry (gABI, "Sections"); the dynamic symbol table has one local symbol
    kinds = [
        (DYNSYM, ALLOC, 2, 1, 24),
        (STRTAB, ALLOC, 0, 0, 0),
        (RELA, ALLOC, 1, 0, 24),
        (RELR, ALLOC, 0, 0, 8),
        (PROGBITS, ALLOC, 0, 0, 0),
        (PROGBITS, ALLOC | CODE, 0, 0, 0),
        (PROGBITS, ALLOC | WRITE, 0, 0, 0),
        (DYNAMIC, ALLOC | WRITE, 2, 0, 16),
        (STRTAB, 0, 0, 0, 0),
    ]
    sections = [{}] + [
        {"name": name.encode().hex(), "kind": kind, "flags": flags, "address": p.get("address", 0), "offset": p["offset"], "size": p["size"], "link": link, "info": info, "align": p.get("align", 1), "entsize": size}
        for name, (kind, flags, link, info, size), p in zip(names, kinds, parts[2:11])
    ]

    def segment(kind, flags, offset, end, pages, align):
        address, size = pages * PAGE + offset, end - offset
        return {"kind": kind, "flags": flags, "offset": offset, "address": address, "physical": address, "file_size": size, "mem_size": size, "align": align}

    segments = [
        segment(LOAD, 4, 0, strings_end, 0, PAGE),
        segment(LOAD, 5, text_at, text_end, 1, PAGE),
        segment(LOAD, 6, data_at, file_end, 2, PAGE),
        segment(DYNAMIC_SEGMENT, 6, dynamic_at, file_end, 2, 8),
        {"kind": STACK, "flags": 6},
    ]
    symbols = list(symbols_of(source, order, inputs, {"_DYNAMIC": 2 * PAGE + dynamic_at, "__ehdr_start": 0}))
    start = next(s for s in symbols if bytes.fromhex(s["name"]) == b"_start")
    return {
        "machine": "x86_64",
        "kind": "static_pie",
        "options": {"relr": True, "strip_all": True},
        "page_size": PAGE,
        "parts": parts,
        "sections": sections,
        "segments": segments,
        "symbols": symbols,
        "groups": [{
            "files": [
                {"role": "prelude"},
                {"role": "object", "symbol_count": len(symbols), "sections": [inputs[i] for i in order]},
                {"role": "epilogue"},
            ],
            "part_sizes": [p["size"] for p in parts],
        }],
        "entry": {"address": start["resolution"]["raw_value"]},
    }


if __name__ == "__main__":
    print(spelled(plan(compiled(source_of("pie.c")))))
