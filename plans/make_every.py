#!/usr/bin/env python3
"""Writes every.json: a shared object with a part of each role, of each slot of input sections that such an output has, and with each table a
symbol in it. Run it as

    plans/make_every.py > plans/every.json

It is there to be written, as where each allocation is refused in turn (plans/refuse_growth.py); nothing is asked of its code. No compiler is asked.
"""
from make_hello import ALLOC, CODE, PAGE, PROGBITS, spelled, up
from make_pie import DYNAMIC, DYNAMIC_SEGMENT, DYNSYM, LOAD, RELA, RELR, STRTAB, WRITE
from make_shared import DEFINITIONS, GNU_HASH, HASH, INIT_ARRAY, INTERPRETER_SEGMENT, NEEDS, SYMBOLS, TLS, UNWIND_SEGMENT, VERSIONS, Table, segment
from make_slots import TLS_SEGMENT

NOTE, LONG_INDEXES = 7, 18
LIBRARY, VERSION, SONAME = "libasked.so", "ASKED", "libevery.so"
OWN = "NON_INTERPOSABLE"


def texts(*names):
    """The bytes of strings, each with a zero behind it."""
    return sum(len(name) + 1 for name in names)


def plan():
    t, inputs = Table(), {}
    t.part("file_header", 64, section=False)
    t.part("program_headers", 56 * 7, section=False)
    starts = {}

    def table(name, kind, flags, align, roles, link=0, entry=0):
        """A section of parts with roles, and where they begin."""
        index = t.section(name, kind, flags, align, link=link, entry=entry)
        for role, size in roles:
            starts[role] = t.part(role, size, align)
        t.end()
        return index

    def raw(name, kind, flags, size, align=8):
        """A section of a raw part; the number of the part, and where it begins."""
        t.section(name, kind, flags, align)
        begin = t.part("raw", size, align)
        t.end()
        return len(t.parts) - 1, begin

    # ---- what a loader reads
    table(".interp", PROGBITS, ALLOC, 1, [("interp", 2)])
    dynsym = table(".dynsym", DYNSYM, ALLOC, 8, [("dynsym", 24 * 3)], link=3, entry=24)
    strings = texts("", LIBRARY, "asked", LIBRARY, VERSION, "/", SONAME, "libmore.so", "shown", "SHOWN")
    table(".dynstr", STRTAB, ALLOC, 1, [("dynstr", strings)])
    table(".hash", HASH, ALLOC, 8, [("sysv_hash", 8 + 4 * (1 + 3))], dynsym, 4)
    table(".gnu.hash", GNU_HASH, ALLOC, 8, [("gnu_hash", 16 + 8 + 4 * (1 + 1))], dynsym)
    table(".gnu.version", VERSIONS, ALLOC, 2, [("gnu_version", 2 * 3)], dynsym, 2)
    table(".gnu.version_d", DEFINITIONS, ALLOC, 8, [("gnu_version_d", 28 + 28)], dynsym + 1)
    table(".gnu.version_r", NEEDS, ALLOC, 8, [("gnu_version_r", 16 + 16)], dynsym + 1)
    # an odd place; the pair of the module, three words of slots and a word of data
    table(".rela.dyn", RELA, ALLOC, 8, [("rela_dyn_relative", 24), ("rela_dyn_general", 24 * 5)], dynsym, 24)
    table(".rela.plt", RELA, ALLOC, 8, [("rela_plt", 24)], dynsym, 24)
    # a place of the data, one of the sorted section, and the block of slots
    table(".relr.dyn", RELR, ALLOC, 8, [("relr_dyn", 8 * 3)], entry=8)
    merged, merged_at = raw(".rodata.str", PROGBITS, ALLOC, texts("one", "two"), 1)
    identity, _ = raw(".comment", PROGBITS, ALLOC, texts("every"), 1)
    table(".eh_frame_hdr", PROGBITS, ALLOC, 4, [("eh_frame_hdr", 12 + 8)])
    frames = len(t.parts)
    table(".eh_frame", PROGBITS, ALLOC, 8, [("eh_frame", 16 + 16 + 4)])
    table(".note.gnu.build-id", NOTE, ALLOC, 4, [("build_id", 16 + 4)])
    table(".note.gnu.property", NOTE, ALLOC, 8, [("property", 16 + 16)])
    read_end = t.at

    # ---- code, a page further on in memory
    t.at, t.pages = up(t.at, 16), 1
    code_at = t.at
    table(".plt.got", PROGBITS, ALLOC | CODE, 16, [("plt_got", 16)], entry=16)
    code, function = raw(".text", PROGBITS, ALLOC | CODE, 32, 16)
    code_end = t.at

    # ---- data, one more
    t.at, t.pages = up(t.at, 32), 2
    data_at = t.at
    thread, held = raw(".tdata", PROGBITS, ALLOC | WRITE | TLS, 8)
    thread_end = t.at
    first, first_at = raw(".init_array", INIT_ARRAY, ALLOC | WRITE, 8)
    # a library, three strings, 26 other entries and the end
    table(".dynamic", DYNAMIC, ALLOC | WRITE, 8, [("dynamic", 16 * 31)], dynsym + 1, 16)
    dynamic_offset, dynamic_end = t.parts[-1]["offset"], t.at
    table(".got", PROGBITS, ALLOC | WRITE, 8, [("got", 8 * (2 + 1 + 1 + 2 + 1)), ("got_relr", 8)], entry=8)
    data, data_place = raw(".data", PROGBITS, ALLOC | WRITE, 32)
    data_end = t.at

    # ---- what is not loaded
    t.pages = 0
    told, _ = raw(".debug_info", PROGBITS, 0, 16, 1)
    names = ["first$got", "first", "chosen$got", "chosen$plt", "asked$got"]
    count, others = 1 + len(names), 2
    symtab = table(".symtab", SYMBOLS, 0, 8, [("symtab_local", 24 * count), ("symtab_global", 24 * others)], len(t.sections) + 2, 24)
    table(".symtab_shndx", LONG_INDEXES, 0, 4, [("symtab_shndx_local", 4 * count), ("symtab_shndx_global", 4 * others)], symtab, 4)
    table(".strtab", STRTAB, 0, 1, [("strtab", texts("", *names, "chosen", "shown"))])
    table(".shstrtab", STRTAB, 0, 1, [("shstrtab", texts(*(bytes.fromhex(s.get("name", "")).decode() for s in t.sections), ".shstrtab"))])
    t.part("section_headers", 64 * len(t.sections), section=False)
    for part in t.parts[2:]:
        if not t.sections[part["section"]].get("flags", 0) & ALLOC:
            part.pop("address", None)

    # ---- symbols, with the slots of each behind those ahead
    got = starts["got"]
    symbols = [
        {"name": b"first".hex(), "info": 2, "place": {"section": 0}, "flags": [OWN, "GOT"], "emit": True, "resolution": {"raw_value": function, "got": starts["got_relr"]}},
        {"name": b"chosen".hex(), "info": 26, "place": {"section": 0}, "value": 16, "flags": [OWN, "IFUNC", "GOT", "PLT"], "emit": True,
         "resolution": {"raw_value": function + 16, "got": got + 16, "plt": starts["plt_got"]}},
        {"name": b"held".hex(), "info": 6, "place": {"section": 1}, "size": 8, "flags": [OWN, "GOT_TLS_OFFSET", "GOT_TLS_MODULE"], "resolution": {"raw_value": held, "got": got + 24}},
        {"name": b"shown".hex(), "info": 17, "place": {"section": 3}, "size": 8, "flags": ["EXPORT_DYNAMIC"], "emit": True, "resolution": {"raw_value": data_place, "dynsym": 2}},
        {"info": 3, "place": {"section": 5}, "flags": [OWN]},
        {"name": b"asked".hex(), "info": 18, "version": 3, "flags": ["DYNAMIC", "GOT"], "resolution": {"dynsym": 1, "got": got + 48}},
    ]
    call = {"offset": 2, "number": 41, "symbol": 5, "addend": -4}
    string = {"offset": 9, "number": 2, "symbol": 4}
    word = {"slot": "loaded", "flags": ALLOC | WRITE}
    sections = [
        {"slot": "loaded", "part": code, "address": function, "size": 32, "flags": ALLOC | CODE, "bytes": "ff1500000000488d0500000000" + "90" * 18 + "c3", "relocations": [call, string]},
        {"slot": "loaded", "part": thread, "address": held, "size": 8, "flags": ALLOC | WRITE | TLS, "bytes": "00" * 8},
        {"slot": "sorted", "part": first, "address": first_at, "size": 8, "flags": ALLOC | WRITE, "bytes": "00" * 8, "reversed": True, "relocations": [{"offset": 0, "number": 1, "symbol": 0}]},
        {**word, "part": data, "address": data_place, "size": 32, "bytes": "00" * 32, "relocations": [
            {"offset": 0, "number": 1, "symbol": 0}, {"offset": 9, "number": 1, "symbol": 0}, {"offset": 24, "number": 1, "symbol": 3}]},
        {"slot": "frame", "part": frames, "size": 32, "flags": ALLOC, "bytes": "0c00000000000000" + "00" * 8 + "0c00000014000000" + "00" * 8, "relocations": [{"offset": 24, "number": 2, "symbol": 0}]},
        {"slot": "merge", "part": merged, "flags": ALLOC, "strings": [{"offset": 0, "address": merged_at}, {"offset": 4, "address": merged_at + 4}]},
        {"slot": "debug", "name": b".debug_info".hex(), "part": told, "size": 16, "bytes": "00" * 16, "relocations": [{"offset": 0, "number": 1, "symbol": 0}]},
        {"slot": "discard"},
    ]
    at = {part["role"]: part for part in t.parts}

    def mapped(kind, flags, offset, end, pages, align):
        return segment(kind, flags, offset, end, pages * PAGE + offset, align)

    segments = [
        mapped(LOAD, 4, 0, read_end, 0, PAGE),
        mapped(LOAD, 5, code_at, code_end, 1, PAGE),
        mapped(LOAD, 6, data_at, data_end, 2, PAGE),
        mapped(INTERPRETER_SEGMENT, 4, at["interp"]["offset"], at["interp"]["offset"] + 2, 0, 1),
        mapped(DYNAMIC_SEGMENT, 6, dynamic_offset, dynamic_end, 2, 8),
        mapped(TLS_SEGMENT, 4, data_at, thread_end, 2, 8),
        mapped(UNWIND_SEGMENT, 4, at["eh_frame_hdr"]["offset"], at["eh_frame_hdr"]["offset"] + 20, 0, 4),
    ]
    return {
        "machine": "x86_64",
        "kind": "shared",
        "options": {"relr": True, "versions": True, "got_plt_syms": True, "eh_frame_hdr": True, "terminator": True, "rpath": b"/".hex(), "soname": SONAME.encode().hex(), "auxiliary": [b"libmore.so".hex()]},
        "page_size": PAGE,
        "parts": t.parts,
        "sections": t.sections,
        "segments": segments,
        "tls": {"start": held, "end": held + 8, "align": 8},
        "got_base": got,
        "tlsld": got,
        "symbols": symbols,
        "groups": [{"files": [
            {"role": "prelude"},
            {"symbol_count": 5, "sections": sections},
            {"role": "dynamic", "first_symbol": 5, "symbol_count": 1, "lib_name": LIBRARY.encode().hex(), "verneed": {"last": True, "versions": [{"name": VERSION.encode().hex(), "index": 3}]}},
            {"role": "epilogue"},
        ], "part_sizes": [part["size"] for part in t.parts]}],
        "dynsyms": [{"symbol": 3, "name": b"shown".hex(), "version": 2}],
        "sysv_hash": {"buckets": 1},
        "gnu_hash": {"buckets": 1, "bloom_count": 1, "bloom_shift": 6, "base": 2},
        "verdefs": [{"name": SONAME.encode().hex()}, {"name": b"SHOWN".hex()}],
        "sorted": [{"file": 1, "section": 2}],
        "merged": [{"part": merged, "strings": ["6f6e6500", "74776f00"]}],
        "identity": {"part": identity, "bytes": b"every\0".hex()},
        "interp": "6100",
        "properties": [{"ptype": 0xC0000002, "value": 3}],
        "build_id": "01020304",
    }


if __name__ == "__main__":
    print(spelled(plan()))
