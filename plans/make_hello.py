#!/usr/bin/env python3
"""Writes hello.json: has the system's assembler make an object of hello.s, and lays it out as a static executable.

A linker would make such a plan. What it decides is here in its simplest form: read-only data behind the headers, code
on the pages behind them, each section of the object as one input section in its place. Run it as

    plans/make_hello.py > plans/hello.json
    plans/make_hello.py SOURCE.s > plan.json
"""
import json
import os
import struct
import subprocess
import sys
import tempfile

BASE, PAGE = 0x400000, 0x1000
PROGBITS, SYMTAB, RELA = 1, 2, 4
ALLOC, CODE = 2, 4
PC32, PLT32 = 2, 4


class Object:
    """The sections, symbols and relocations of a relocatable file (gABI, "Object Files")."""

    def __init__(self, data):
        self.data = data
        (at,), (size, count, names) = struct.unpack_from("<Q", data, 40), struct.unpack_from("<HHH", data, 58)
        self.headers = [struct.unpack_from("<IIQQQQIIQQ", data, at + size * i) for i in range(count)]
        self.names = [self.text(names, header[0]) for header in self.headers]

    def bytes(self, section):
        offset, size = self.headers[section][4:6]
        return self.data[offset : offset + size]

    def text(self, section, at):
        table = self.bytes(section)
        return table[at : table.index(b"\0", at)]

    def records(self, kind, form, info=None):
        for i, header in enumerate(self.headers):
            if header[1] == kind and info in (None, header[7]):
                for record in struct.iter_unpack(form, self.bytes(i)):
                    yield i, record

    def symbols(self):
        for table, (name, info, other, section, value, size) in self.records(SYMTAB, "<IBBHQQ"):
            yield self.text(self.headers[table][6], name), info, other, section, value, size

    def relocations(self, section):
        for _, (offset, info, addend) in self.records(RELA, "<QQq", section):
            yield offset, info & 0xFFFFFFFF, info >> 32, addend


def assemble(source, assembler="as"):
    with tempfile.TemporaryDirectory() as room:
        subprocess.run([assembler, "-o", f"{room}/object", source], check=True)
        with open(f"{room}/object", "rb") as it:
            return Object(it.read())


def up(n, align):
    return (n + align - 1) // align * align


def relocation(offset, number, symbol, addend):
    # a static executable's call needs no stub: the symbol is defined here (psABI, "Relocation Types")
    number = PC32 if number == PLT32 else number
    return {"offset": offset, "number": number, "symbol": symbol - 1, "addend": addend}


def placed(source, sections, part, start):
    """The input sections of a part that begins at an address, one behind the other, and the part's end."""
    inputs = {}
    for i in sections:
        header = source.headers[i]
        start = up(start, max(header[8], 1))
        inputs[i] = {
            "slot": "loaded",
            "name": source.names[i].hex(),
            "part": part,
            "address": start,
            "size": header[5],
            "flags": header[2],
            "bytes": source.bytes(i).hex(),
            "relocations": [relocation(*each) for each in source.relocations(i)],
        }
        start += header[5]
    return inputs, start


def symbols_of(source, order, inputs):
    """The object's symbols but the first, which is null; each stands in one of its input sections."""
    for name, info, other, section, value, size in list(source.symbols())[1:]:
        yield {
            "name": name.hex(),
            "info": info,
            "other": other,
            "size": size,
            "value": value,
            "place": {"section": order.index(section)},
            "flags": ["NON_INTERPOSABLE"],
            "resolution": {"raw_value": inputs[section]["address"] + value},
        }


def plan(source):
    loaded = [i for i, h in enumerate(source.headers) if h[1] == PROGBITS and h[2] & ALLOC and h[5]]
    code = [i for i in loaded if source.headers[i][2] & CODE]
    read_only = [i for i in loaded if i not in code]

    # the file: headers, read-only data, code, names, section headers; code stands a page further on in memory
    data_at = 64 + 3 * 56
    data, data_end = placed(source, read_only, 2, BASE + data_at)
    text_at = up(data_end - BASE, 16)
    text, text_end = placed(source, code, 3, BASE + PAGE + text_at)
    end = text_end - BASE - PAGE
    names = [b"", b".rodata", b".text", b".shstrtab"]
    names_size = sum(len(name) + 1 for name in names)
    headers_at = up(end + names_size, 8)

    parts = [
        {"role": "file_header", "offset": 0, "address": BASE, "size": 64, "align": 8},
        {"role": "program_headers", "offset": 64, "address": BASE + 64, "size": 3 * 56, "align": 8},
        {"role": "raw", "section": 1, "offset": data_at, "address": BASE + data_at, "size": data_end - BASE - data_at},
        {"role": "raw", "section": 2, "offset": text_at, "address": BASE + PAGE + text_at, "size": end - text_at, "align": 16},
        {"role": "shstrtab", "section": 3, "offset": end, "size": names_size},
        {"role": "section_headers", "offset": headers_at, "size": 64 * len(names), "align": 8},
    ]
    kinds = [(PROGBITS, ALLOC), (PROGBITS, ALLOC | CODE), (3, 0)]
    sections = [{}] + [
        {"name": name.hex(), "kind": kind, "flags": flags, "address": p.get("address", 0), "offset": p["offset"], "size": p["size"], "align": p.get("align", 1)}
        for name, (kind, flags), p in zip(names[1:], kinds, parts[2:5])
    ]
    segments = [
        {"kind": 1, "flags": 4, "offset": 0, "address": BASE, "physical": BASE, "file_size": data_end - BASE, "mem_size": data_end - BASE, "align": PAGE},
        {"kind": 1, "flags": 5, "offset": text_at, "address": BASE + PAGE + text_at, "physical": BASE + PAGE + text_at, "file_size": end - text_at, "mem_size": end - text_at, "align": PAGE},
        {"kind": 0x6474E551, "flags": 6},
    ]
    inputs = {**data, **text}
    order = read_only + code
    symbols = list(symbols_of(source, order, inputs))
    start = next(s for s in symbols if bytes.fromhex(s["name"]) == b"_start")
    return {
        "machine": "x86_64",
        "kind": "static",
        "options": {"relax": True, "strip_all": True},
        "page_size": PAGE,
        "parts": parts,
        "sections": sections,
        "segments": segments,
        "symbols": symbols,
        "groups": [{
            "files": [
                {"role": "prelude"},
                {"role": "object", "symbol_count": len(symbols), "sections": [inputs[i] for i in order]},
                {"role": "epilogue"},
            ],
            "part_sizes": [part["size"] for part in parts],
        }],
        "entry": {"address": start["resolution"]["raw_value"]},
    }


def spelled(value, margin="", width=140):
    """JSON whose values stand on one line where they fit."""
    line = json.dumps(value)
    if len(margin) + len(line) <= width or not isinstance(value, (dict, list)):
        return line
    inner = margin + "  "
    if isinstance(value, dict):
        items, ends = [f"{json.dumps(name)}: {spelled(each, inner, width)}" for name, each in value.items()], "{}"
    else:
        items, ends = [spelled(each, inner, width) for each in value], "[]"
    return f"{ends[0]}\n" + ",\n".join(inner + item for item in items) + f"\n{margin}{ends[1]}"


def source_of(name, words=sys.argv[1:]):
    """The source that is given, or the one beside this file."""
    return words[0] if words else os.path.join(os.path.dirname(os.path.abspath(__file__)), name)


if __name__ == "__main__":
    print(spelled(plan(assemble(source_of("hello.s")))))
