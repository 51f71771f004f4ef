#!/usr/bin/env python3
"""Writes aarch64.json: an assembler makes an object of aarch64.s, and this program places it as a static executable for AArch64. Run it as

    plans/make_aarch64.py > plans/aarch64.json
    plans/make_aarch64.py SOURCE.s > plan.json

It is made for aarch64.s. Another source is taken if it is like it: it has `_start` and thread-local data with bytes (`.tdata`), but no other
writable or zeroed data.

As a linker does, it defines `__tdata_start`. The code of `.text.far` is 128 MiB away, further than a branch reaches. The other code has a
thunk for each function there that it calls, after its sections. The assembler is that of the binutils for aarch64-linux-gnu (as in Debian's
package binutils-aarch64-linux-gnu).
"""
from make_hello import ALLOC, BASE, CODE, PAGE, PROGBITS, assemble, placed, source_of, spelled, up
from make_pie import LOAD, STACK, STRTAB, WRITE, symbols_of
from make_slots import TLS, TLS_SEGMENT

ASSEMBLER = "aarch64-linux-gnu-as"
CALL = 283  # R_AARCH64_CALL26
FAR, THUNK_SIZE, SEGMENTS = 1 << 27, 12, 6


def called(source, sections, targets):
    """The symbols of some sections that code of others calls, ascending."""
    symbols = list(source.symbols())
    calls = {symbol for i in sections for _, number, symbol, _ in source.relocations(i) if number == CALL}
    return sorted(symbol for symbol in calls if symbols[symbol][3] in targets)


def with_names_alone(symbols, users):
    """The symbols but those of sections and of runs of code ("ELF for the Arm 64-bit Architecture", "Mapping symbols"), which nothing
    names; the users number them as they stand then."""
    kept = [i for i, symbol in enumerate(symbols) if symbol["info"] >> 4]
    for user in users:
        user["symbol"] = kept.index(user["symbol"])
    return [symbols[i] for i in kept]


def plan(source):
    loaded = [i for i, h in enumerate(source.headers) if h[1] == PROGBITS and h[2] & ALLOC and h[5]]
    far = [i for i in loaded if source.names[i] == b".text.far"]
    near = [i for i in loaded if source.headers[i][2] & CODE and i not in far]
    thread = [i for i in loaded if source.headers[i][2] & TLS]
    strings = [i for i in loaded if i not in far + near + thread]
    order = strings + near + thread + far

    # each of the four begins in the file where the one before it ends, and in memory a page further on; the last one far behind them
    bases = [BASE, BASE + PAGE, BASE + 2 * PAGE, BASE + 3 * PAGE + FAR]
    strings_at = 64 + SEGMENTS * 56
    string_inputs, end = placed(source, strings, 2, bases[0] + strings_at)
    strings_end = end - bases[0]
    text_at = up(strings_end, 16)
    text_inputs, thunks_at = placed(source, near, 3, bases[1] + text_at)
    thunks = [
        {"symbol": symbol - 1, "address": up(thunks_at, 4) + THUNK_SIZE * i} for i, symbol in enumerate(called(source, near, far))
    ]
    text_end = (thunks[-1]["address"] + THUNK_SIZE if thunks else thunks_at) - bases[1]
    thread_align = max(source.headers[i][8] for i in thread)
    thread_at = up(text_end, thread_align)
    thread_inputs, end = placed(source, thread, 4, bases[2] + thread_at)
    thread_end = end - bases[2]
    far_at = up(thread_end, 16)
    far_inputs, end = placed(source, far, 5, bases[3] + far_at)
    far_end = end - bases[3]
    inputs = {**string_inputs, **text_inputs, **thread_inputs, **far_inputs}
    names = [".rodata", ".text", ".tdata", ".text.far", ".shstrtab"]
    names_size = 1 + sum(len(name) + 1 for name in names)
    headers_at = up(far_end + names_size, 8)

    def part(role, section, offset, end, base, align):
        return {"role": role, "section": section, "offset": offset, "address": base + offset, "size": end - offset, "align": align}

    parts = [
        part("file_header", 0, 0, 64, BASE, 8),
        part("program_headers", 0, 64, strings_at, BASE, 8),
        part("raw", 1, strings_at, strings_end, bases[0], 1),
        part("raw", 2, text_at, text_end, bases[1], 16),
        part("raw", 3, thread_at, thread_end, bases[2], thread_align),
        part("raw", 4, far_at, far_end, bases[3], 16),
        {"role": "shstrtab", "section": 5, "offset": far_end, "size": names_size},
        {"role": "section_headers", "offset": headers_at, "size": 64 * (len(names) + 1), "align": 8},
    ]
    kinds = [
        (PROGBITS, ALLOC),
        (PROGBITS, ALLOC | CODE),
        (PROGBITS, ALLOC | WRITE | TLS),
        (PROGBITS, ALLOC | CODE),
        (STRTAB, 0),
    ]
    sections = [{}] + [
        {"name": name.encode().hex(), "kind": kind, "flags": flags, "address": p.get("address", 0), "offset": p["offset"], "size": p["size"], "align": p.get("align", 1)}
        for name, (kind, flags), p in zip(names, kinds, parts[2:7])
    ]

    def segment(kind, flags, offset, end, base, align):
        address, size = base + offset, end - offset
        return {"kind": kind, "flags": flags, "offset": offset, "address": address, "physical": address, "file_size": size, "mem_size": size, "align": align}

    segments = [
        segment(LOAD, 4, 0, strings_end, bases[0], PAGE),
        segment(LOAD, 5, text_at, text_end, bases[1], PAGE),
        segment(LOAD, 6, thread_at, thread_end, bases[2], PAGE),
        segment(LOAD, 5, far_at, far_end, bases[3], PAGE),
        segment(TLS_SEGMENT, 4, thread_at, thread_end, bases[2], thread_align),
        {"kind": STACK, "flags": 6},
    ]
    symbols = list(symbols_of(source, order, inputs, {"__tdata_start": bases[2] + thread_at}))
    symbols = with_names_alone(symbols, thunks + [relocation for i in order for relocation in inputs[i]["relocations"]])
    start = next(s for s in symbols if bytes.fromhex(s["name"]) == b"_start")
    return {
        "machine": "aarch64",
        "kind": "static",
        "options": {"strip_all": True},
        "page_size": PAGE,
        "parts": parts,
        "sections": sections,
        "segments": segments,
        "tls": {"start": bases[2] + thread_at, "end": bases[2] + thread_end, "align": thread_align},
        "primary_part": 3,
        "symbols": symbols,
        "groups": [{
            "files": [
                {"role": "prelude"},
                {"role": "object", "symbol_count": len(symbols), "sections": [inputs[i] for i in order], "owns_thunk_block": True},
                {"role": "epilogue"},
            ],
            "part_sizes": [p["size"] for p in parts],
        }],
        "thunk_blocks": [thunks],
        "entry": {"address": start["resolution"]["raw_value"]},
    }


if __name__ == "__main__":
    print(spelled(plan(assemble(source_of("aarch64.s"), ASSEMBLER))))
