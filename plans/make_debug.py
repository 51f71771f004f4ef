#!/usr/bin/env python3
"""Writes debug.json: the system's compiler makes an object of debug.c with debug sections, and this program places it as a static
executable. Run it as

    plans/make_debug.py > plans/debug.json
    plans/make_debug.py SOURCE.c > plan.json
    plans/make_debug.py --only-keep-debug > plans/debug_file.json

It is made for debug.c. Another source is taken if it is like it: it has `_start`, a function `left_out` that nobody calls, and constants, but
no writable or zeroed data.

As a linker does, it leaves out the function `left_out`, and merges the strings of the debug sections: each is written once, in the order of
their bytes. The file has the headers, the constants, the code a page further on in memory, and after them the debug sections, which nothing
loads. Paths of sources are relative to the folder above this one.

With `--only-keep-debug` it is the file that a debugger reads besides the stripped program: headers and debug sections.
"""
import os
import sys

from make_hello import ALLOC, BASE, CODE, PAGE, PROGBITS, placed, relocation, source_of, spelled, up
from make_pie import LOAD, STACK, STRTAB, compiled

HERE = os.path.dirname(os.path.abspath(__file__))
FLAGS = ("-c -Og -g -fno-pie -ffreestanding -fno-builtin -fno-stack-protector -fcf-protection=none -ffunction-sections -fno-asynchronous-unwind-tables"
         f" -fdebug-prefix-map=ROOM=. -fdebug-prefix-map={HERE}=plans")
STRINGS = 0x30  # SHF_MERGE and SHF_STRINGS
ABSOLUTE = 0xFFF1  # SHN_ABS
LEFT_OUT = b".text.left_out"


def texts(data):
    """The strings of a section, each with its zero and where it begins."""
    at = 0
    while at < len(data):
        end = data.index(b"\0", at) + 1
        yield at, data[at:end]
        at = end


def merged(source, section, part):
    """The input section of strings, and the strings of its part: each once, one behind the other."""
    found = list(texts(source.bytes(section)))
    strings = sorted({text for _, text in found})
    starts = [sum(map(len, strings[:i])) for i in range(len(strings))]
    places = [{"offset": at, "address": starts[strings.index(text)]} for at, text in found]
    return {"slot": "merge", "name": source.names[section].hex(), "part": part, "size": source.headers[section][5], "strings": places}, strings


def told(source, section, part):
    """The input section of what debuggers read: nothing loads it, so its address counts from the start of its section."""
    return {
        "slot": "debug",
        "name": source.names[section].hex(),
        "part": part,
        "size": source.headers[section][5],
        "bytes": source.bytes(section).hex(),
        "relocations": [relocation(*each) for each in source.relocations(section)],
    }


def symbols_of(source, order, inputs):
    """The object's symbols but the first; those of code that was left out have no address."""
    for name, info, other, section, value, size in list(source.symbols())[1:]:
        symbol = {"name": name.hex(), "info": info, "other": other, "size": size, "value": value, "flags": ["NON_INTERPOSABLE"]}
        if section in order:
            symbol["place"] = {"section": order.index(section)}
        if section == ABSOLUTE:
            symbol["place"] = "absolute"
        if section in inputs:
            symbol["resolution"] = {"raw_value": inputs[section]["address"] + value}
        yield symbol


def plan(source):
    kept = [i for i, h in enumerate(source.headers) if h[1] == PROGBITS and h[5] and source.names[i] != LEFT_OUT]
    loaded = [i for i in kept if source.headers[i][2] & ALLOC]
    code = [i for i in loaded if source.headers[i][2] & CODE]
    constants = [i for i in loaded if i not in code]
    debug = [i for i in kept if source.names[i].startswith(b".debug_")]
    left_out = source.names.index(LEFT_OUT)
    order = constants + code + [left_out] + debug

    constants_at = 64 + 3 * 56
    inputs, constants_end = placed(source, constants, 2, BASE + constants_at)
    text_at = up(constants_end - BASE, 16)
    text, end = placed(source, code, 3, BASE + PAGE + text_at)
    text_end = end = end - BASE - PAGE
    inputs.update(text)

    def part(role, section, offset, end, align, base=BASE):
        return {"role": role, "section": section, "offset": offset, "address": base + offset, "size": end - offset, "align": align}

    parts = [
        part("file_header", 0, 0, 64, 8),
        part("program_headers", 0, 64, constants_at, 8),
        part("raw", 1, constants_at, constants_end - BASE, 8),
        part("raw", 2, text_at, text_end, 16, BASE + PAGE),
    ]
    names = [b"", b".rodata", b".text"]
    kinds = [(PROGBITS, ALLOC, 0), (PROGBITS, ALLOC | CODE, 0)]
    strings = []
    for i in debug:
        header, own = source.headers[i], len(parts)
        if header[2] & STRINGS:
            inputs[i], held = merged(source, i, own)
            strings.append({"part": own, "strings": [text.hex() for text in held]})
            size = sum(map(len, held))
        else:
            inputs[i], size = told(source, i, own), header[5]
        offset = up(end, header[8])
        parts.append({"role": "raw", "section": len(names), "offset": offset, "size": size, "align": header[8]})
        names.append(source.names[i])
        kinds.append((PROGBITS, header[2] & STRINGS, header[9]))
        end = offset + size
    inputs[left_out] = {"slot": "discard", "name": LEFT_OUT.hex()}
    names.append(b".shstrtab")
    kinds.append((STRTAB, 0, 0))
    names_size = sum(len(name) + 1 for name in names)
    headers_at = up(end + names_size, 8)
    parts += [
        {"role": "shstrtab", "section": len(names) - 1, "offset": end, "size": names_size},
        {"role": "section_headers", "offset": headers_at, "size": 64 * len(names), "align": 8},
    ]
    sections = [{}] + [
        {"name": name.hex(), "kind": kind, "flags": flags, "address": p.get("address", 0), "offset": p["offset"], "size": p["size"], "align": p.get("align", 1), "entsize": size}
        for name, (kind, flags, size), p in zip(names[1:], kinds, parts[2:])
    ]

    def segment(flags, offset, end, base):
        return {"kind": LOAD, "flags": flags, "offset": offset, "address": base + offset, "physical": base + offset, "file_size": end - offset, "mem_size": end - offset, "align": PAGE}

    symbols = list(symbols_of(source, order, {i: inputs[i] for i in loaded}))
    start = next(s for s in symbols if bytes.fromhex(s["name"]) == b"_start")
    return {
        "machine": "x86_64",
        "kind": "static",
        "options": {"strip_all": True},
        "page_size": PAGE,
        "parts": parts,
        "sections": sections,
        "segments": [segment(4, 0, constants_end - BASE, BASE), segment(5, text_at, text_end, BASE + PAGE), {"kind": STACK, "flags": 6}],
        "symbols": symbols,
        "groups": [{
            "files": [
                {"role": "prelude"},
                {"role": "object", "symbol_count": len(symbols), "sections": [inputs[i] for i in order]},
                {"role": "epilogue"},
            ],
            "part_sizes": [p["size"] for p in parts],
        }],
        "merged": strings,
        "entry": {"address": start["resolution"]["raw_value"]},
    }


def only_debug(whole):
    """The plan of the debug file of that program: its headers, and close behind them what nothing loads."""
    whole["options"]["only_keep_debug"] = True
    headers, rest = whole["parts"][:2], whole["parts"][2:]
    end = headers_end = headers[-1]["offset"] + headers[-1]["size"]
    for part in rest:
        section = whole["sections"][part.get("section", 0)]
        if not section.get("flags", 0) & ALLOC:
            part["offset"] = up(end, part.get("align", 1))
            end = part["offset"] + part["size"]
            if section:
                section["offset"] = part["offset"]
    for segment in whole["segments"]:
        if segment["kind"] == LOAD:
            segment["file_size"] = max(headers_end - segment["offset"], 0)
    return whole


if __name__ == "__main__":
    words = [word for word in sys.argv[1:] if word != "--only-keep-debug"]
    made = plan(compiled(source_of("debug.c", words), FLAGS))
    print(spelled(only_debug(made) if words != sys.argv[1:] else made))
