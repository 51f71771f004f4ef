#!/usr/bin/env python3
"""Writes shared.json, uses_shared.json, symbols.json or frames.json: has the system's compiler make an object of shared.c, uses_shared.c,
symbols.c or frames.cpp, and lays it out as a shared object or as a position-independent executable that a dynamic linker starts. Run it as

    plans/make_shared.py shared > plans/shared.json
    plans/make_shared.py uses_shared > plans/uses_shared.json
    plans/make_shared.py symbols > plans/symbols.json
    plans/make_shared.py frames > plans/frames.json
    plans/make_shared.py NAME SOURCE.c > plan.json
    plans/make_shared.py NAME [SOURCE.c] --machine aarch64 > plan.json

With a source, the output is of the sort that NAME is. For AArch64 the compiler is that of Debian's package gcc-aarch64-linux-gnu.

As a linker does, it goes by the relocations: a symbol of a library has a stub where it is called, a slot where code reads
its address there, and is copied where code has its address as one of the program. Each symbol of a library that is used
has an entry of the dynamic symbol table, and each of the object that other modules see has one behind those. References
to symbols of the object are bound to it, as with the option `-Bsymbolic` of linkers. An output with versions has both hash
tables, versions and a table of all symbols too; one with frames has their search table and the segment by which an unwinder
finds it.
"""
import argparse
from typing import NamedTuple

from make_hello import ALLOC, CODE, PAGE, PC32, PLT32, PROGBITS, placed, source_of, spelled, up
from make_pie import ABSOLUTE_ADDRESS, DYNAMIC, DYNAMIC_SEGMENT, DYNSYM, FLAGS, LOAD, RELA, RELR, STACK, STRTAB, WRITE, compiled, packed, symbols_of
from make_slots import ADDRESS_SLOT, INDIRECT_FUNCTION, OFFSET_SLOT, OWN_PAIR, TLS, TLS_SEGMENT

NOBITS, INIT_ARRAY, HEADERS_SEGMENT, INTERPRETER_SEGMENT = 8, 14, 6, 3
FUNCTION, OBJECT, GLOBAL = 2, 1, 1
HASH, GNU_HASH, VERSIONS, DEFINITIONS, NEEDS, SYMBOLS, FILE_NAME = 5, 0x6FFFFFF6, 0x6FFFFFFF, 0x6FFFFFFD, 0x6FFFFFFE, 2, 4
BUCKETS = 3


class Machine(NamedTuple):
    """What differs from one machine to the other. Relocation types are those of references to an address, by its distance, by a stub, by
    each sort of slots, and by the pair of the own module (x86-64 psABI, "Relocation Types"; aaelf64, "Relocation types")."""

    compiler: str
    flags: str
    options: dict
    address: int
    distance: set
    call: set
    slots: dict
    own_pair: set
    pairs: str  # the dialect in which code asks for thread-local data by pairs
    interpreter: str
    versions: tuple  # of the C library and of the dynamic linker


WORDS = {"GOT": 1, "GOT_TLS_OFFSET": 1, "GOT_TLS_MODULE": 2, "GOT_TLS_DESCRIPTOR": 2}
MACHINES = {
    "x86_64": Machine(
        "gcc", FLAGS, {}, ABSOLUTE_ADDRESS, {PC32}, {PLT32}, dict(zip(WORDS, (ADDRESS_SLOT, {OFFSET_SLOT}, {19}, {34}))), {OWN_PAIR}, "gnu",
        "/lib64/ld-linux-x86-64.so.2", ("GLIBC_2.2.5", "GLIBC_2.3"),
    ),
    # its branches to functions of the object go by a stub or are rewritten
    "aarch64": Machine(
        "aarch64-linux-gnu-gcc", FLAGS.replace("-fcf-protection=none", "-fno-unwind-tables -Wno-attributes"), {"relax": True}, 257,
        {275, 277, 278, 284, 285, 286, 299}, {282, 283}, dict(zip(WORDS, ({311, 312, 313}, {541, 542}, {513, 514}, {562, 563, 564}))), set(), "trad",
        "/lib/ld-linux-aarch64.so.1", ("GLIBC_2.17", "GLIBC_2.17"),
    ),
}
# what is known of the libraries: the symbols that are used of them, with type and size
UNWIND_SEGMENT = 0x6474E550
CPP_LIBRARY = ("libstdc++.so.6", {
    **{name: (FUNCTION, 0) for name in ("__cxa_allocate_exception", "__cxa_throw", "__cxa_rethrow", "__cxa_begin_catch", "__cxa_end_catch", "__gxx_personality_v0")},
    "_ZTIi": (OBJECT, 16), "_ZTIc": (OBJECT, 16),
})
UNWINDER = ("libgcc_s.so.1", {"_Unwind_Resume": (FUNCTION, 0)})
C_LIBRARY = ("libc.so.6", {"write": (FUNCTION, 0), "fsync": (FUNCTION, 0), "_exit": (FUNCTION, 0), "optind": (OBJECT, 4)})


def outputs(machine):
    """The outputs that have a name."""
    linker = machine.interpreter.split("/")[-1]
    libraries = [C_LIBRARY, (linker, {"__tls_get_addr": (FUNCTION, 0)})]
    return {
        # no hash table: nothing of it is looked up, as the symbol of a descriptor would be
        "shared": {"kind": "shared", "compiled": f"-fPIC -mtls-dialect={machine.pairs}", "libraries": libraries, "options": {"soname": b"libshared.so".hex()}},
        "uses_shared": {"kind": "dynamic_pie", "compiled": "-fPIE", "libraries": [C_LIBRARY], "interpreter": machine.interpreter.encode() + b"\0"},
        "symbols": {
            "kind": "shared", "compiled": "-fPIC", "libraries": libraries,
            "options": {"soname": b"libsymbols.so".hex(), "versions": True, "got_plt_syms": True, "strip_all": False},
            # the versions that it has, each with its parent, and which symbol has which; those that it needs of libraries
            "versions": [("libsymbols.so", None), ("FIRST", None), ("SECOND", 1)],
            "version_of": {"once": 2, "step": 2, "twice": 3, "status": 3, "thrice": 3, "say": 3},
            "needs": {"libc.so.6": [(machine.versions[0], 4), ("GLIBC_ABI_DT_RELR", 6)], linker: [(machine.versions[1], 5)]},
        },
        "frames": {
            "kind": "dynamic_pie", "compiled": "-fPIE -fexceptions -fasynchronous-unwind-tables -std=c++17", "source": "frames.cpp",
            "libraries": [CPP_LIBRARY, UNWINDER, C_LIBRARY], "interpreter": machine.interpreter.encode() + b"\0",
            "options": {"eh_frame_hdr": True, "terminator": True},
        },
    }


# shared objects that the program is started with, beside those whose symbols it uses
STARTED_WITH = {"uses_shared": ["libshared.so"]}


def uses(source):
    """The relocation types that name each symbol."""
    numbers = {}
    for section in range(len(source.headers)):
        for _, number, symbol, _ in source.relocations(section):
            numbers.setdefault(symbol, set()).add(number)
    return numbers


def own_flags(info, used, exported, machine):
    """The flags of a symbol of the object."""
    flags = ["NON_INTERPOSABLE"] + ["EXPORT_DYNAMIC"] * exported
    if info % 16 == INDIRECT_FUNCTION:
        return flags + ["IFUNC", "GOT", "PLT"]
    return flags + [flag for flag, types in machine.slots.items() if used & types]


def library_flags(used, machine):
    """The flags of a symbol of a library. A stub jumps to what its slot has, so it needs one."""
    if used & machine.distance:
        return ["DYNAMIC", "COPY_RELOCATION"]
    return ["DYNAMIC"] + ["GOT"] * bool(used & (machine.slots["GOT"] | machine.call)) + ["PLT"] * bool(used & machine.call)


def words_of(flags):
    """How many words a symbol has in the table, and whether a word moves with the base and stands in the block."""
    moved = "GOT" in flags and "DYNAMIC" not in flags and "IFUNC" not in flags
    return 0 if moved else sum(WORDS.get(flag, 0) for flag in flags), moved


def gnu_hash(name):
    """The hash of a name in GNU's table (GNU, "DT_GNU_HASH")."""
    h = 5381
    for byte in name.encode():
        h = (33 * h + byte) % 2**32
    return h


def fdes(source, frames):
    """How many entries of the frames are of functions: those whose second word is not 0 (LSB, "The .eh_frame section")."""
    count = 0
    for i in frames:
        data, at = source.bytes(i), 0
        while at < len(data):
            count += data[at + 4 : at + 8] != bytes(4)
            at += 4 + int.from_bytes(data[at : at + 4], "little")
    return count


def is_local(info):
    return info >> 4 == 0


class Table:
    """Parts and sections, one behind the other in the file."""

    def __init__(self):
        self.at, self.parts, self.sections, self.pages = 0, [], [{}], 0

    def part(self, role, size, align=8, section=True):
        self.at = up(self.at, align)
        memory = {"address": self.pages * PAGE + self.at} if section or role.endswith("header") or role.endswith("headers") else {}
        self.parts.append({"role": role, "section": len(self.sections) - 1 if section else 0, "offset": self.at, **memory, "size": size, "align": align})
        self.at += size
        return self.pages * PAGE + self.at - size

    def section(self, name, kind, flags, align=8, link=0, entry=0):
        self.at = up(self.at, align)
        self.sections.append({"name": name.encode().hex(), "kind": kind, "flags": flags, "address": self.pages * PAGE + self.at if flags & ALLOC else 0, "offset": self.at, "size": 0, "link": link, "align": align, "entsize": entry})
        return len(self.sections) - 1

    def end(self):
        """The section has all that stands up to here."""
        last = self.sections[-1]
        last["size"] = self.at - last["offset"]

    def inputs(self, source, chosen, name, kind, flags):
        align = max([source.headers[i][8] for i in chosen] + [8])
        self.section(name, kind, flags, align)
        inputs, end = placed(source, chosen, len(self.parts), self.pages * PAGE + self.at)
        self.part("raw", end - self.pages * PAGE - self.at, align)
        self.end()
        return inputs


def segment(kind, flags, offset, end, address, align, zeros=0):
    return {"kind": kind, "flags": flags, "offset": offset, "address": address, "physical": address, "file_size": end - offset, "mem_size": end - offset + zeros, "align": align}


def plan(source, output, started_with, sizes, machine):
    """The plan, where tables have these sizes, and the sizes that they need: they are asked of a first plan."""
    executable = output["kind"] != "shared"
    used = uses(source)
    frames = [i for i, name in enumerate(source.names) if name == b".eh_frame" and output.get("options", {}).get("eh_frame_hdr")]
    loaded = [i for i, h in enumerate(source.headers) if h[1] in (PROGBITS, INIT_ARRAY) and h[2] & ALLOC and h[5] and i not in frames]
    code = [i for i in loaded if source.headers[i][2] & CODE]
    thread = [i for i in loaded if source.headers[i][2] & TLS]
    first = [i for i in loaded if source.headers[i][1] == INIT_ARRAY]
    data = [i for i in loaded if source.headers[i][2] & WRITE and i not in thread + first]
    strings = [i for i in loaded if i not in code + thread + first + data]
    order = strings + code + thread + first + data + frames

    # ---- symbols: those of the object, and behind them those of each library
    own = list(source.symbols())[1:]
    exported = [i for i, (_, info, other, section, *_) in enumerate(own) if not executable and info >> 4 == GLOBAL and section and not other]
    known = {symbol for _, symbols in output["libraries"] for symbol in symbols}
    flags = [[] if name.decode() in known else own_flags(info, used.get(i, set()), i - 1 in exported, machine) for i, (name, info, *_) in enumerate(own, 1)]
    library_symbols = []
    for name, theirs in output["libraries"]:
        for i, (symbol, *_) in enumerate(own, 1):
            if symbol.decode() in theirs:
                library_symbols.append((name, i - 1, symbol.decode(), *theirs[symbol.decode()], library_flags(used[i], machine)))
    all_flags = flags + [each[-1] for each in library_symbols]
    pair = any(numbers & machine.own_pair for numbers in used.values())
    undefined = [i for i, each in enumerate(library_symbols) if "COPY_RELOCATION" not in each[-1]]
    copied = [i for i, each in enumerate(library_symbols) if "COPY_RELOCATION" in each[-1]]
    listed = [(i, own[i][0].decode()) for i in exported] + [(len(own) + i, library_symbols[i][2]) for i in copied]
    entries = [len(own) + i for i in undefined] + [i for i, _ in listed]
    needed = started_with + [name for name, _ in output["libraries"]]
    names = output.get("versions", [])
    if names:
        listed.sort(key=lambda each: gnu_hash(each[1]) % BUCKETS)
        entries = [len(own) + i for i in undefined] + [i for i, _ in listed]
    version_needs = output.get("needs", {})
    texts = [""] + needed + [library_symbols[i][2] for i in undefined] + [bytes.fromhex(output.get("options", {}).get("soname", "")).decode()] * (not executable) + [name for _, name in listed]
    texts += [text for name, versions in version_needs.items() for text in [name] + [version for version, _ in versions]] + [name for name, _ in names[1:]]
    # `.symtab` has the object's symbols with a name, and the names of slots and stubs
    emitted = [name != b"" and (section != 0 or info % 16 == FILE_NAME) for name, info, _, section, *_ in own] if names else []
    slots = [(name, flag) for name, flag in [(each[0].decode(), f) for each, f in zip(own, flags)] + [(each[2], each[-1]) for each in library_symbols] if "GOT" in flag]
    slot_texts = [name + "$got" for name, flag in slots] + [name + "$plt" for name, flag in slots if "PLT" in flag]
    locals_of = [1] + [1 for each, there in zip(own, emitted) if there and is_local(each[1])] + [1 for _ in slot_texts]
    others = [1 for each, there in zip(own, emitted) if there and not is_local(each[1])]
    table_texts = [""] + [each[0].decode() for each, there in zip(own, emitted) if there] + slot_texts

    # ---- the file: what a loader reads, code, data
    t = Table()
    t.part("file_header", 64, section=False)
    t.part("program_headers", 56 * sizes["segments"], section=False)
    interpreter = output.get("interpreter")
    if interpreter:
        t.section(".interp", PROGBITS, ALLOC, 1)
        interpreter_at = t.part("raw", len(interpreter), 1)
        t.end()
    symbols_section = t.section(".dynsym", DYNSYM, ALLOC, 8, entry=24)
    t.part("dynsym", 24 * (1 + len(entries)))
    t.end()
    t.sections[symbols_section]["link"] = t.section(".dynstr", STRTAB, ALLOC, 1)
    t.part("dynstr", sum(len(text) + 1 for text in texts), 1)
    t.end()
    if names:
        for name, kind, role, size, align, link in (
            (".hash", HASH, "sysv_hash", 8 + 4 * (BUCKETS + 1 + len(entries)), 8, symbols_section),
            (".gnu.hash", GNU_HASH, "gnu_hash", 16 + 8 + 4 * (BUCKETS + len(listed)), 8, symbols_section),
            (".gnu.version", VERSIONS, "gnu_version", 2 * (1 + len(entries)), 2, symbols_section),
            (".gnu.version_d", DEFINITIONS, "gnu_version_d", sum(36 if parent else 28 for _, parent in names), 8, symbols_section + 1),
            (".gnu.version_r", NEEDS, "gnu_version_r", sum(16 + 16 * len(versions) for versions in version_needs.values()), 8, symbols_section + 1),
        ):
            t.section(name, kind, ALLOC, align, link=link, entry=4 if kind == HASH else 2 if kind == VERSIONS else 0)
            t.part(role, size, align)
            t.end()
    for name, role in (".rela.dyn", "rela_dyn_general"), (".rela.plt", "rela_plt"):
        t.section(name, RELA, ALLOC, link=symbols_section, entry=24)
        t.part(role, 24 * sizes[role])
        t.end()
    t.section(".relr.dyn", RELR, ALLOC, entry=8)
    t.part("relr_dyn", 8 * sizes["words"])
    t.end()
    inputs = t.inputs(source, strings, ".rodata", PROGBITS, ALLOC)
    if frames:
        t.section(".eh_frame_hdr", PROGBITS, ALLOC, 4)
        table_at = t.part("eh_frame_hdr", 12 + 8 * fdes(source, frames), 4)
        table_end = t.at
        t.end()
        t.section(".eh_frame", PROGBITS, ALLOC, 8)
        kept = len(t.parts)
        t.part("eh_frame", sum(source.headers[i][5] for i in frames) + 4, 8)
        t.end()
        for i, section in placed(source, frames, kept, 0)[0].items():
            inputs[i] = {**section, "slot": "frame", "address": 0}
    read_end = t.at
    t.at, t.pages = up(t.at, 16), 1
    code_at = t.at
    t.section(".plt.got", PROGBITS, ALLOC | CODE, 16, entry=16)
    stubs_at = t.part("plt_got", 16 * sum("PLT" in each for each in all_flags), 16)
    t.end()
    inputs.update(t.inputs(source, code, ".text", PROGBITS, ALLOC | CODE))
    code_end = t.at
    t.at, t.pages = up(t.at, 32), 2
    data_at = t.at
    inputs.update(t.inputs(source, thread, ".tdata", PROGBITS, ALLOC | WRITE | TLS))
    thread_end = t.at
    if first:
        inputs.update(t.inputs(source, first, ".init_array", INIT_ARRAY, ALLOC | WRITE))
    t.section(".dynamic", DYNAMIC, ALLOC | WRITE, link=symbols_section + 1, entry=16)
    dynamic_at = t.part("dynamic", 16 * sizes["dynamic"])
    dynamic_offset, dynamic_end = t.parts[-1]["offset"], t.at
    t.end()
    t.section(".got", PROGBITS, ALLOC | WRITE, entry=8)
    got_at = t.part("got", 8 * (2 * pair + sum(words_of(each)[0] for each in all_flags)))
    block_at = t.part("got_relr", 8 * sum(words_of(each)[1] for each in all_flags))
    t.end()
    inputs.update(t.inputs(source, data, ".data", PROGBITS, ALLOC | WRITE))
    data_end = t.at
    zeros_at = 2 * PAGE + up(data_end, 8)
    zeros = sum(up(library_symbols[i][4], 8) for i in copied)
    if zeros:
        t.section(".bss", NOBITS, ALLOC | WRITE)
        t.parts.append({"role": "raw", "section": len(t.sections) - 1, "offset": t.at, "address": zeros_at, "size": zeros, "align": 8})
        t.sections[-1]["size"] = zeros
    t.pages = 0
    if names:
        t.section(".symtab", SYMBOLS, 0, 8, link=len(t.sections) + 1, entry=24)
        for role, symbols in ("symtab_local", locals_of), ("symtab_global", others):
            t.part(role, 24 * len(symbols))
            t.parts[-1].pop("address")
        t.end()
        t.section(".strtab", STRTAB, 0, 1)
        t.part("strtab", sum(len(text) + 1 for text in table_texts), 1)
        t.parts[-1].pop("address")
        t.end()
    t.section(".shstrtab", STRTAB, 0, 1)
    t.part("shstrtab", sum(len(s.get("name", "")) // 2 + 1 for s in t.sections), 1)
    t.parts[-1].pop("address")
    t.end()
    t.part("section_headers", 64 * len(t.sections), section=False)
    t.parts[-1].pop("address")

    # ---- symbols with their addresses, entries, slots and stubs, each the next free one
    symbols = list(symbols_of(source, order, inputs, {"_DYNAMIC": dynamic_at, "_GLOBAL_OFFSET_TABLE_": got_at}))
    for each, own_flag in zip(symbols, flags):
        each["flags"] = own_flag
    for each, there, (_, info, *_) in zip(symbols, emitted, own):
        if there:
            each["emit"] = True
        if there and info % 16 == FILE_NAME:
            each["place"] = "absolute"
    zero = zeros_at
    for name, i, symbol, kind, size, own_flag in library_symbols:
        symbols[i]["definition"] = len(symbols)
        each = {"name": symbol.encode().hex(), "info": GLOBAL << 4 | kind, "size": size, "place": "absolute", "flags": own_flag, "resolution": {"raw_value": 0}}
        if name in version_needs:
            each["version"] = version_needs[name][0][1]
        if "COPY_RELOCATION" in own_flag:
            each["resolution"]["raw_value"], zero = zero, zero + up(size, 8)
        symbols.append(each)
    for position, i in enumerate(entries, 1):
        symbols[i]["resolution"]["dynsym"] = position
    got, block, stub = got_at + 16 * pair, block_at, stubs_at
    for each in symbols:
        words, moved = words_of(each["flags"])
        if words or moved:
            each["resolution"]["got"] = block if moved else got
        if "PLT" in each["flags"]:
            each["resolution"]["plt"] = stub
            if "DYNAMIC" in each["flags"]:
                each["resolution"]["raw_value"] = stub
        got, block, stub = got + 8 * words, block + 8 * moved, stub + 16 * ("PLT" in each["flags"])

    # calls by a stub keep the type that goes to one; others go to the function itself
    for i, section in inputs.items():
        for relocation, (_, number, symbol, _) in zip(section["relocations"], source.relocations(i)):
            if number in machine.call and "PLT" in symbols[symbols[symbol - 1].get("definition", symbol - 1)]["flags"]:
                relocation["number"] = number

    # ---- what the tables need
    left, packs = 0, []
    for i in order:
        places = []
        for relocation in inputs[i]["relocations"]:
            if relocation["number"] == machine.address:
                if "definition" in symbols[relocation["symbol"]]:
                    left += 1
                else:
                    places.append(inputs[i]["address"] + relocation["offset"])
        packs += packed(places)
    blocks = packed([block_at + 8 * k for k in range(sum(words_of(each)[1] for each in all_flags))])
    filled = sum(("DYNAMIC" in f and "GOT" in f) + (not executable) * sum(flag.startswith("GOT_TLS") for flag in f) for f in all_flags)
    general = len(copied) + left + filled + (pair and not executable)
    resolvers = sum("IFUNC" in f for f in all_flags)
    segments = [
        segment(HEADERS_SEGMENT, 4, 64, 64 + 56 * sizes["segments"], 64, 8),
        *([segment(INTERPRETER_SEGMENT, 4, interpreter_at, interpreter_at + len(interpreter), interpreter_at, 1)] if interpreter else []),
        segment(LOAD, 4, 0, read_end, 0, PAGE),
        segment(LOAD, 5, code_at, code_end, PAGE + code_at, PAGE),
        segment(LOAD, 6, data_at, data_end, 2 * PAGE + data_at, PAGE, zeros_at + zeros - 2 * PAGE - data_end if zeros else 0),
        segment(DYNAMIC_SEGMENT, 6, dynamic_offset, dynamic_end, dynamic_at, 8),
        segment(TLS_SEGMENT, 4, data_at, thread_end, 2 * PAGE + data_at, 8),
        *([segment(UNWIND_SEGMENT, 4, table_at, table_end, table_at, 4)] if frames else []),
        {"kind": STACK, "flags": 6},
    ]
    # strings and symbols, entries, words, flags and the end; libraries and the own name; functions at the start; resolvers
    tags = 4 + 3 + 3 + 3 + executable + len(needed) + (not executable) + 2 * bool(first) + 4 * bool(resolvers) + 7 * bool(names)
    needs = {"segments": len(segments), "rela_dyn_general": general, "rela_plt": resolvers, "words": len(packs) + len(blocks), "dynamic": tags}
    if needs != sizes:
        return None, needs

    files = [{"role": "prelude"}, {"role": "object", "symbol_count": len(own), "sections": [inputs[i] for i in order]}]
    if interpreter:
        text = {"slot": "loaded", "part": 2, "address": interpreter_at, "size": len(interpreter), "flags": ALLOC, "bytes": interpreter.hex()}
        files.insert(1, {"sections": [text]})
    files += [{"role": "dynamic", "first_symbol": len(own), "lib_name": name.encode().hex()} for name in started_with]
    at = len(own)
    for name, _ in output["libraries"]:
        count = sum(each[0] == name for each in library_symbols)
        copies = [len(own) + i for i in copied if library_symbols[i][0] == name]
        files.append({"role": "dynamic", "first_symbol": at, "symbol_count": count, "lib_name": name.encode().hex(), **({"copies": copies} if copies else {})})
        if name in version_needs:
            last = name == list(version_needs)[-1]
            files[-1]["verneed"] = {"last": last, "versions": [{"name": version.encode().hex(), "index": i} for version, i in version_needs[name]]}
        at += count
    start = next((s for s in symbols if bytes.fromhex(s["name"]) == b"_start"), None)
    return {
        "machine": next(name for name, each in MACHINES.items() if each is machine),
        "kind": output["kind"],
        "options": {**machine.options, "relr": True, "strip_all": True, **output.get("options", {})},
        "page_size": PAGE,
        "parts": t.parts,
        "sections": t.sections,
        "segments": segments,
        "tls": {"start": 2 * PAGE + data_at, "end": 2 * PAGE + thread_end, "align": 8},
        "got_base": got_at,
        **({"tlsld": got_at} if pair else {}),
        "symbols": symbols,
        "groups": [{"files": files + [{"role": "epilogue"}], "part_sizes": [p["size"] for p in t.parts]}],
        "dynsyms": [{"symbol": i, "name": name.encode().hex(), **({"version": output["version_of"][name]} if names else {})} for i, name in listed],
        **({
            "sysv_hash": {"buckets": BUCKETS},
            "gnu_hash": {"buckets": BUCKETS, "bloom_count": 1, "bloom_shift": 6, "base": 1 + len(undefined)},
            "verdefs": [{"name": name.encode().hex(), **({"parent": parent} if parent else {})} for name, parent in names],
        } if names else {}),
        **({"entry": {"address": start["resolution"]["raw_value"]}} if start else {}),
    }, needs


def made(name, *given, machine=MACHINES["x86_64"]):
    output = outputs(machine)[name]
    file = output.get("source", f"{name}.c")
    compiler = machine.compiler.replace("gcc", "g++") if file.endswith(".cpp") else machine.compiler
    source = compiled(source_of(file, given), machine.flags.replace("-fPIE", output["compiled"]), compiler)
    sizes = {"segments": 0, "rela_dyn_general": 0, "rela_plt": 0, "words": 0, "dynamic": 0}
    while True:
        it, needs = plan(source, output, STARTED_WITH.get(name, []), sizes, machine)
        if it:
            return it
        sizes = needs


if __name__ == "__main__":
    words = argparse.ArgumentParser()
    words.add_argument("words", nargs="+")
    words.add_argument("--machine", choices=MACHINES, default="x86_64")
    words = words.parse_args()
    print(spelled(made(*words.words, machine=MACHINES[words.machine])))
