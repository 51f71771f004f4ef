#!/usr/bin/env python3
"""Writes own_frames.json: the system's compiler makes an object of own_frames.c, and this program places it as a static executable
with frames and their search table. Run it as

    plans/make_own_frames.py > plans/own_frames.json
    plans/make_own_frames.py SOURCE.c > plan.json

It is made for own_frames.c. Another source is taken if it is like it: it has `_start` and a function `left_out` that nobody calls, but no
writable or zeroed data.

As a linker does, it leaves out the function `left_out`, counts the kept frames, and defines the symbol of the search table. The file has
the headers, the strings, the table, the frames, and the code a page further on in memory.
"""
import struct

from make_hello import ALLOC, BASE, CODE, PAGE, PROGBITS, placed, relocation, source_of, spelled, up
from make_pie import LOAD, STACK, STRTAB, compiled

FLAGS = "-c -O1 -fno-pie -ffreestanding -fno-builtin -fno-stack-protector -fcf-protection=none -ffunction-sections -fasynchronous-unwind-tables"
FRAMES, TABLE = b".eh_frame", "__GNU_EH_FRAME_HDR"
FRAMES_SEGMENT = 0x6474E550  # PT_GNU_EH_FRAME
UNWIND = 0x70000001  # SHT_X86_64_UNWIND
LEFT_OUT = b".text.left_out"


def entries(data):
    """The places, sizes and ids of the entries of a section of frames."""
    at = 0
    while at + 8 <= len(data) and (length := struct.unpack_from("<I", data, at)[0]):
        yield at, 4 + length, struct.unpack_from("<I", data, at + 4)[0]
        at += 4 + length


def kept(source, frames, inputs):
    """How many bytes of the frames are kept, and how many FDEs: those of code that is there."""
    symbols = list(source.symbols())
    code = {offset: symbols[symbol][3] for offset, _, symbol, _ in source.relocations(frames)}
    sizes = [size for at, size, identity in entries(source.bytes(frames)) if identity == 0 or code.get(at + 8) in inputs]
    return sum(sizes), len(sizes) - sum(identity == 0 for *_, identity in entries(source.bytes(frames)))


def symbols_of(source, order, inputs, table):
    """The object's symbols but the first; those of code that was left out have no address."""
    for name, info, other, section, value, size in list(source.symbols())[1:]:
        symbol = {"name": name.hex(), "info": info, "other": other, "size": size, "value": value, "flags": ["NON_INTERPOSABLE"]}
        if section in order:
            symbol["place"] = {"section": order.index(section)}
        if section in inputs:
            symbol["resolution"] = {"raw_value": inputs[section]["address"] + value}
        elif name.decode() == TABLE:
            symbol["resolution"] = {"raw_value": table}
        yield symbol


def plan(source):
    loaded = [i for i, h in enumerate(source.headers) if h[1] == PROGBITS and h[2] & ALLOC and h[5] and source.names[i] != LEFT_OUT]
    frames = source.names.index(FRAMES)
    left_out = source.names.index(LEFT_OUT)
    code = [i for i in loaded if source.headers[i][2] & CODE]
    strings = [i for i in loaded if i not in code + [frames]]
    order = strings + code + [left_out, frames]

    strings_at = 64 + 4 * 56
    inputs, strings_end = placed(source, strings, 2, BASE + strings_at)
    table_at = up(strings_end - BASE, 4)
    size, count = kept(source, frames, strings + code)
    frames_at = up(table_at + 12 + 8 * count, 8)
    frames_end = frames_at + size + 4
    text_at = up(frames_end, 16)
    text, text_end = placed(source, code, 5, BASE + PAGE + text_at)
    text_end -= BASE + PAGE
    inputs.update(text)
    names = [".rodata", ".eh_frame_hdr", ".eh_frame", ".text", ".shstrtab"]
    names_size = 1 + sum(len(name) + 1 for name in names)
    headers_at = up(text_end + names_size, 8)

    def part(role, section, offset, end, align, base=BASE):
        return {"role": role, "section": section, "offset": offset, "address": base + offset, "size": end - offset, "align": align}

    parts = [
        part("file_header", 0, 0, 64, 8),
        part("program_headers", 0, 64, strings_at, 8),
        part("raw", 1, strings_at, strings_end - BASE, 1),
        part("eh_frame_hdr", 2, table_at, table_at + 12 + 8 * count, 4),
        part("eh_frame", 3, frames_at, frames_end, 8),
        part("raw", 4, text_at, text_end, 16, BASE + PAGE),
        {"role": "shstrtab", "section": 5, "offset": text_end, "size": names_size},
        {"role": "section_headers", "offset": headers_at, "size": 64 * (len(names) + 1), "align": 8},
    ]
    kinds = [(PROGBITS, ALLOC), (PROGBITS, ALLOC), (UNWIND, ALLOC), (PROGBITS, ALLOC | CODE), (STRTAB, 0)]
    sections = [{}] + [
        {"name": name.encode().hex(), "kind": kind, "flags": flags, "address": p.get("address", 0), "offset": p["offset"], "size": p["size"], "align": p.get("align", 1)}
        for name, (kind, flags), p in zip(names, kinds, parts[2:])
    ]

    def segment(kind, flags, offset, end, base, align):
        return {"kind": kind, "flags": flags, "offset": offset, "address": base + offset, "physical": base + offset, "file_size": end - offset, "mem_size": end - offset, "align": align}

    segments = [
        segment(LOAD, 4, 0, frames_end, BASE, PAGE),
        segment(LOAD, 5, text_at, text_end, BASE + PAGE, PAGE),
        segment(FRAMES_SEGMENT, 4, table_at, table_at + 12 + 8 * count, BASE, 4),
        {"kind": STACK, "flags": 6},
    ]
    inputs[left_out] = {"slot": "discard"}
    inputs[frames] = {
        "slot": "frame",
        "name": FRAMES.hex(),
        "part": 4,
        "size": source.headers[frames][5],
        "flags": source.headers[frames][2],
        "bytes": source.bytes(frames).hex(),
        "relocations": [relocation(*each) for each in source.relocations(frames)],
    }
    symbols = list(symbols_of(source, order, {i: each for i, each in inputs.items() if "address" in each}, BASE + table_at))
    start = next(s for s in symbols if bytes.fromhex(s["name"]) == b"_start")
    return {
        "machine": "x86_64",
        "kind": "static",
        "options": {"strip_all": True, "eh_frame_hdr": True, "terminator": True},
        "page_size": PAGE,
        "parts": parts,
        "sections": sections,
        "segments": segments,
        "symbols": symbols,
        "groups": [{
            "files": [
                {"role": "prelude"},
                {"role": "object", "symbol_count": len(symbols), "sections": [inputs[i] for i in order]},
                {"role": "epilogue"},
            ],
            "part_sizes": [p["size"] for p in parts],
        }],
        "entry": {"address": start["resolution"]["raw_value"]},
    }


if __name__ == "__main__":
    print(spelled(plan(compiled(source_of("own_frames.c"), FLAGS))))
