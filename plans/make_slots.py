#!/usr/bin/env python3
"""Writes slots.json: has the system's compiler make an object of slots.c, and lays it out as a static position-independent
executable with slots, a stub and a resolver. Run it as

    plans/make_slots.py > plans/slots.json
    plans/make_slots.py SOURCE.c > plan.json

As a linker does, it goes by the relocations: which symbols need a slot for their address or for their offset from the
thread pointer, and by the type of a symbol: an indirect function has a stub and the slot that this jumps to. The slots
stand in the order of the symbols: those of addresses that move with the base in one block, the others ahead of it, and
ahead of all of them the pair of the program's own thread-local data. The assembler does not mark the references to
addresses as ones that may be rewritten, so that they keep their slots.
"""
from make_hello import ALLOC, CODE, PAGE, PLT32, PROGBITS, placed, source_of, spelled, up
from make_pie import DYNAMIC, DYNAMIC_SEGMENT, DYNSYM, FLAGS, LOAD, RELA, RELR, STACK, STRTAB, WRITE, compiled, packed, symbols_of

TLS, TLS_SEGMENT = 0x400, 7
ADDRESS_SLOT, OFFSET_SLOT, OWN_PAIR = {9, 41, 42}, 22, 20  # R_X86_64_GOTPCREL, GOTPCRELX, REX_GOTPCRELX; GOTTPOFF; TLSLD
INDIRECT_FUNCTION = 10  # STT_GNU_IFUNC
ENTRIES = 15  # of the dynamic section: four on strings and symbols, four on resolvers, three on words, and four more
SEGMENTS = 6
# any symbol may be another module's, so that the compiler goes through slots
ANY_MODULE = FLAGS.replace("-fPIE", "-fPIC")


def flags_by_symbol(source, sections, rewritten):
    """For each symbol but the first, the flags that tell its slots and stub."""
    numbers = {}
    for section in sections:
        for _, number, symbol, _ in source.relocations(section):
            numbers.setdefault(symbol, set()).add(number)
    for i, (_, info, *_) in enumerate(list(source.symbols())[1:], 1):
        used = numbers.get(i, set()) - rewritten
        flags = ["NON_INTERPOSABLE"]
        if info % 16 == INDIRECT_FUNCTION:
            flags += ["IFUNC", "GOT", "PLT"] + ["IFUNC_GOT_FOR_ADDRESS"] * bool(used & ADDRESS_SLOT)
        elif used & ADDRESS_SLOT:
            flags.append("GOT")
        elif OFFSET_SLOT in used:
            flags.append("GOT_TLS_OFFSET")
        yield flags


def slots(flags):
    """How many words a symbol has in the table, how many in the block of addresses that move, and how many stubs."""
    if "IFUNC" in flags:
        return 1 + ("IFUNC_GOT_FOR_ADDRESS" in flags), 0, 1
    return int("GOT_TLS_OFFSET" in flags), int("GOT" in flags), 0


def with_slots(symbols, flags, got, block, stub):
    """The symbols with their slots and stubs, each the next free one."""
    for symbol, own in zip(symbols, flags):
        words, moved, stubs = slots(own)
        symbol["flags"] = own
        if words or moved:
            symbol["resolution"]["got"] = block if moved else got
        if stubs:
            symbol["resolution"]["plt"] = stub
        got, block, stub = got + 8 * words, block + 8 * moved, stub + 16 * stubs
        yield symbol


def with_stub_calls(source, inputs, flags):
    """Calls of indirect functions keep the type that goes to a stub; others go to the function itself."""
    for i, section in inputs.items():
        for relocation, (_, number, symbol, _) in zip(section["relocations"], source.relocations(i)):
            if number == PLT32 and "PLT" in flags[symbol - 1]:
                relocation["number"] = PLT32


def plan(source, rewritten=frozenset()):
    """The plan, where no reference of the rewritten types keeps its slot."""
    loaded = [i for i, h in enumerate(source.headers) if h[1] == PROGBITS and h[2] & ALLOC and h[5]]
    code = [i for i in loaded if source.headers[i][2] & CODE]
    thread = [i for i in loaded if source.headers[i][2] & TLS]
    data = [i for i in loaded if source.headers[i][2] & WRITE and i not in thread]
    strings = [i for i in loaded if i not in code + thread + data]
    order = strings + code + thread + data
    flags = list(flags_by_symbol(source, order, rewritten))
    words, moved, stubs = (sum(each) for each in zip(*map(slots, flags)))
    pair = OWN_PAIR not in rewritten and any(number == OWN_PAIR for i in order for _, number, *_ in source.relocations(i))

    # the words that tell where the base is added: one for each address of a stub, and those of the block
    packed_words = sum("IFUNC_GOT_FOR_ADDRESS" in own for own in flags) + len(packed(range(0, 8 * moved, 8)))
    symbols_at = 64 + SEGMENTS * 56
    names_at = symbols_at + 24
    resolvers_at = up(names_at + 1, 8)
    words_at = resolvers_at + 24 * stubs
    strings_at = words_at + 8 * packed_words
    inputs, strings_end = placed(source, strings, 6, strings_at)
    stubs_at = up(strings_end, 16)
    text, text_end = placed(source, code, 8, PAGE + stubs_at + 16 * stubs)
    text_end -= PAGE
    thread_at = up(text_end, 32)
    thread_inputs, thread_end = placed(source, thread, 9, 2 * PAGE + thread_at)
    thread_end -= 2 * PAGE
    dynamic_at = up(thread_end, 8)
    got_at = dynamic_at + 16 * ENTRIES
    slots_at = got_at + 16 * pair
    block_at = slots_at + 8 * words
    data_at = block_at + 8 * moved
    data_inputs, data_end = placed(source, data, 13, 2 * PAGE + data_at)
    data_end -= 2 * PAGE
    for more in text, thread_inputs, data_inputs:
        inputs.update(more)
    with_stub_calls(source, inputs, flags)

    names = [".dynsym", ".dynstr", ".rela.plt", ".relr.dyn", ".rodata", ".plt.got", ".text", ".tdata", ".dynamic", ".got", ".data", ".shstrtab"]
    names_size = 1 + sum(len(name) + 1 for name in names)
    headers_at = up(data_end + names_size, 8)

    def part(role, section, offset, end, align, pages=0):
        return {"role": role, "section": section, "offset": offset, "address": pages * PAGE + offset, "size": end - offset, "align": align}

    parts = [
        part("file_header", 0, 0, 64, 8),
        part("program_headers", 0, 64, symbols_at, 8),
        part("dynsym", 1, symbols_at, names_at, 8),
        part("dynstr", 2, names_at, names_at + 1, 1),
        part("rela_plt", 3, resolvers_at, words_at, 8),
        part("relr_dyn", 4, words_at, strings_at, 8),
        part("raw", 5, strings_at, strings_end, 8),
        part("plt_got", 6, stubs_at, stubs_at + 16 * stubs, 16, 1),
        part("raw", 7, stubs_at + 16 * stubs, text_end, 16, 1),
        part("raw", 8, thread_at, thread_end, 32, 2),
        part("dynamic", 9, dynamic_at, got_at, 8, 2),
        part("got", 10, got_at, block_at, 8, 2),
        part("got_relr", 10, block_at, data_at, 8, 2),
        part("raw", 11, data_at, data_end, 8, 2),
        {"role": "shstrtab", "section": 12, "offset": data_end, "size": names_size},
        {"role": "section_headers", "offset": headers_at, "size": 64 * (len(names) + 1), "align": 8},
    ]
    # type, flags, sh_link, sh_info, size of an entry (gABI, "Sections"); the dynamic symbol table has one local symbol
    kinds = [
        (DYNSYM, ALLOC, 2, 1, 24),
        (STRTAB, ALLOC, 0, 0, 0),
        (RELA, ALLOC, 1, 10, 24),
        (RELR, ALLOC, 0, 0, 8),
        (PROGBITS, ALLOC, 0, 0, 0),
        (PROGBITS, ALLOC | CODE, 0, 0, 16),
        (PROGBITS, ALLOC | CODE, 0, 0, 0),
        (PROGBITS, ALLOC | WRITE | TLS, 0, 0, 0),
        (DYNAMIC, ALLOC | WRITE, 2, 0, 16),
        (PROGBITS, ALLOC | WRITE, 0, 0, 8),
        (PROGBITS, ALLOC | WRITE, 0, 0, 0),
        (STRTAB, 0, 0, 0, 0),
    ]
    sections = [{}]
    for number, (name, (kind, own, link, info, size)) in enumerate(zip(names, kinds), 1):
        held = [p for p in parts if p.get("section") == number]
        offset, end = held[0]["offset"], held[-1]["offset"] + held[-1]["size"]
        sections.append({"name": name.encode().hex(), "kind": kind, "flags": own, "address": held[0].get("address", 0), "offset": offset, "size": end - offset, "link": link, "info": info, "align": held[0].get("align", 1), "entsize": size})

    def segment(kind, own, offset, end, pages, align):
        address, size = pages * PAGE + offset, end - offset
        return {"kind": kind, "flags": own, "offset": offset, "address": address, "physical": address, "file_size": size, "mem_size": size, "align": align}

    thread_align = max([source.headers[i][8] for i in thread], default=1)
    segments = [
        segment(LOAD, 4, 0, strings_end, 0, PAGE),
        segment(LOAD, 5, stubs_at, text_end, 1, PAGE),
        segment(LOAD, 6, thread_at, data_end, 2, PAGE),
        segment(DYNAMIC_SEGMENT, 6, dynamic_at, got_at, 2, 8),
        segment(TLS_SEGMENT, 4, thread_at, thread_end, 2, thread_align),
        {"kind": STACK, "flags": 6},
    ]
    defined = {"_DYNAMIC": 2 * PAGE + dynamic_at, "_GLOBAL_OFFSET_TABLE_": 2 * PAGE + got_at, "__ehdr_start": 0}
    symbols = list(with_slots(symbols_of(source, order, inputs, defined), flags, 2 * PAGE + slots_at, 2 * PAGE + block_at, PAGE + stubs_at))
    start = next(s for s in symbols if bytes.fromhex(s["name"]) == b"_start")
    return {
        "machine": "x86_64",
        "kind": "static_pie",
        "options": {"relr": True, "strip_all": True},
        "page_size": PAGE,
        "parts": parts,
        "sections": sections,
        "segments": segments,
        "tls": {"start": 2 * PAGE + thread_at, "end": 2 * PAGE + thread_end, "align": thread_align},
        "got_base": 2 * PAGE + got_at,
        "tlsld": 2 * PAGE + got_at if pair else None,
        "symbols": symbols,
        "groups": [{
            "files": [
                {"role": "prelude"},
                {"role": "object", "symbol_count": len(symbols), "sections": [inputs[i] for i in order]},
                {"role": "epilogue"},
            ],
            "part_sizes": [p["size"] for p in parts],
        }],
        "entry": {"address": start["resolution"]["raw_value"]},
    }


if __name__ == "__main__":
    print(spelled(plan(compiled(source_of("slots.c"), f"{ANY_MODULE} -Wa,-mrelax-relocations=no"))))
