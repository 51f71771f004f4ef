#!/usr/bin/env python3
"""Writes a link plan as C: structs of wild.h with the plan's layout, and a function that gives it.

    c/plan_to_c.py < plans/hello.json > hello.c      # const wild_layout *planned_layout(void)

Members that a plan leaves out have their defaults. Plans that are no layouts are not recognized as such: `link` says what is wrong.
"""
import json
import sys

ROLES = """raw file_header program_headers section_headers shstrtab got got_relr plt_got rela_plt rela_dyn_relative rela_dyn_general
    relr_dyn dynsym dynstr gnu_version gnu_version_d gnu_version_r sysv_hash gnu_hash eh_frame eh_frame_hdr dynamic symtab_local
    symtab_global symtab_shndx_local symtab_shndx_global strtab interp build_id property""".split()
SLOTS = "discard loaded sorted debug frame merge rela group".split()
FILE_ROLES = "object prelude dynamic script synthetic epilogue not_loaded".split()
KINDS = "static static_pie dynamic dynamic_pie shared partial".split()
PLACES = {"undefined": "UNDEFINED", "absolute": "ABSOLUTE", "common": "COMMON", "section": "IN_SECTION", "output": "IN_OUTPUT"}
ENTRIES = {"address": "ENTRY_ADDRESS", "symbol": "ENTRY_SYMBOL"}
# words whose names in wild.h are others, since C has one list of names
FILE_ROLE_NAMES = {"dynamic": "LIBRARY"}
KIND_NAMES = {"dynamic": "DYNAMIC_EXECUTABLE"}
SLOT_NAMES = {"group": "GROUP_SLOT"}
MACHINES = {"x86_64": "WILD_X86_64", "aarch64": "WILD_AARCH64"}
OPTIONS = """relax relr strip_all eh_frame_hdr terminator bti versions got_plt_syms execstack new_dtags origin nodelete interpose
    textrel static_tls variant_pcs only_keep_debug new_tombstones""".split()
ABSENT = "WILD_ABSENT"


class Writer:
    """Definitions of arrays, in the order in which C needs them."""

    def __init__(self):
        self.lines = []

    def array(self, kind, items, join=",\n    "):
        """The list of the items, which are initializers of that type."""
        if not items:
            return f"WILD_EMPTY({kind})"
        name = f"list_{len(self.lines)}"
        self.lines.append(f"static const {kind} {name}[] = {{\n    " + join.join(items) + "\n};")
        return f"{{ {name}, {len(items)} }}"

    def bytes(self, text):
        return self.array("uint8_t", [str(byte) for byte in bytes.fromhex(text)], ", ")

    def numbers(self, values):
        return self.array("uint64_t", [number(value) for value in values])

    def texts(self, values):
        return self.array("wild_bytes", [self.bytes(value) for value in values])

    def each(self, kind, write, values):
        return self.array(kind, [write(value) for value in values])

    # ---- output

    def part(self, p):
        role = choice(p.get("role", "raw"), ROLES)
        return members(role=role, **numbers(p, "section offset address size"), align=number(p.get("align", 1)))

    def section(self, s):
        fill = s.get("fill")
        return members(
            name=self.bytes(s.get("name", "")),
            **numbers(s, "kind link info flags address offset size align entsize"),
            fill="{ " + ", ".join(str(byte) for byte in bytes.fromhex(fill or "00000000")) + " }",
            has_fill=flag(fill is not None),
            section_symbol=flag(s.get("section_symbol")),
        )

    def segment(self, s):
        return members(**numbers(s, "kind flags offset address physical file_size mem_size align"))

    # ---- symbols

    def symbol(self, s):
        place, index = s.get("place", "undefined"), 0
        if isinstance(place, dict):
            (place, index), = place.items()
        found = s.get("resolution")
        of = found or {}
        return members(
            name=self.bytes(s.get("name", "")),
            definition=optional(s.get("definition")),
            **numbers(s, "size value info other version"),
            place=f"WILD_{PLACES[place]}",
            place_index=number(index),
            flags=" | ".join(f"WILD_FLAG_{word}" for word in s.get("flags", [])) or "0",
            emit=flag(s.get("emit")),
            has_resolution=flag(found is not None),
            raw_value=number(of.get("raw_value", 0)),
            dynamic_symbol_index=optional(of.get("dynsym")),
            got_address=optional(of.get("got")),
            plt_address=optional(of.get("plt")),
        )

    # ---- input

    def relocation(self, r):
        return members(**numbers(r, "offset addend number"), symbol=optional(r.get("symbol")), malformed=flag(r.get("malformed")))

    def string(self, s):
        return members(**numbers(s, "offset address"))

    def input_section(self, s):
        return members(
            slot=choice(s.get("slot", "discard"), SLOTS, SLOT_NAMES),
            nobits=flag(s.get("nobits")),
            reversed=flag(s.get("reversed")),
            name=self.bytes(s.get("name", "")),
            **numbers(s, "part address size flags target"),
            singleton=optional(s.get("singleton")),
            members=self.numbers(s.get("members", [])),
            bytes=self.bytes(s.get("bytes", "")),
            strings=self.each("wild_merged_string", self.string, s.get("strings", [])),
            relocations=self.each("wild_relocation", self.relocation, s.get("relocations", [])),
        )

    def needed_version(self, v):
        return members(name=self.bytes(v.get("name", "")), **numbers(v, "index"))

    def file(self, f):
        needs = f.get("verneed")
        of = needs or {}
        return members(
            role=choice(f.get("role", "object"), FILE_ROLES, FILE_ROLE_NAMES),
            owns_thunk_block=flag(f.get("owns_thunk_block")),
            has_verneed=flag(needs is not None),
            verneed_last=flag(of.get("last")),
            **numbers(f, "first_symbol symbol_count thunk_block"),
            lib_name=self.bytes(f.get("lib_name", "")),
            sections=self.each("wild_input_section", self.input_section, f.get("sections", [])),
            copies=self.numbers(f.get("copies", [])),
            verneed=self.each("wild_needed_version", self.needed_version, of.get("versions", [])),
        )

    def group(self, g):
        return members(
            files=self.each("wild_file", self.file, g.get("files", [])),
            part_sizes=self.numbers(g.get("part_sizes", [])),
            **numbers(g, "dynstr_start strtab_start eh_frame_start symtab_local_start symtab_global_start"),
        )

    # ---- dynamic linking, thunks, and what an output has once

    def dynamic_symbol(self, s):
        return members(**numbers(s, "symbol version"), name=self.bytes(s.get("name", "")))

    def version_definition(self, v):
        return members(name=self.bytes(v.get("name", "")), parent=optional(v.get("parent")))

    def thunk(self, t):
        return members(**numbers(t, "symbol address"))

    def thunk_block(self, thunks):
        return self.each("wild_thunk", self.thunk, thunks)

    def sorted_section(self, s):
        return members(**numbers(s, "group file section"))

    def merged(self, m):
        return members(**numbers(m, "part"), strings=self.texts(m.get("strings", [])))

    def property(self, p):
        pointer = "platform" in p or "version" in p
        return members(
            **numbers(p, "ptype platform version"), word=number(p.get("value", 0)), is_pointer_authentication=flag(pointer)
        )

    # ---- the layout

    def options(self, o):
        return members(
            **{name: flag(o.get(name)) for name in OPTIONS},
            has_rpath=flag(o.get("rpath") is not None),
            has_soname=flag(o.get("soname") is not None),
            rpath=self.bytes(o.get("rpath") or ""),
            soname=self.bytes(o.get("soname") or ""),
            auxiliary=self.texts(o.get("auxiliary", [])),
        )

    def layout(self, l):
        tls, sysv, gnu = l.get("tls") or {}, l.get("sysv_hash"), l.get("gnu_hash")
        entry, identity = l.get("entry") or {}, l.get("identity") or {}
        return members(
            version="WILD_VERSION",
            machine=MACHINES[l.get("machine", "x86_64")],
            kind=choice(l.get("kind", "static"), KINDS, KIND_NAMES),
            entry_kind="".join(f"WILD_{ENTRIES[kind]}" for kind in entry) or "WILD_NO_ENTRY",
            entry=number(sum(entry.values())),
            options=self.options(l.get("options", {})),
            **numbers(l, "page_size got_base got_header primary_part"),
            parts=self.each("wild_part", self.part, l.get("parts", [])),
            sections=self.each("wild_section", self.section, l.get("sections", [])),
            segments=self.each("wild_segment", self.segment, l.get("segments", [])),
            tls_start=number(tls.get("start", 0)),
            tls_end=number(tls.get("end", 0)),
            tls_align=number(tls.get("align", 1)),
            tlsld=optional(l.get("tlsld")),
            symbols=self.each("wild_symbol", self.symbol, l.get("symbols", [])),
            groups=self.each("wild_group", self.group, l.get("groups", [])),
            dynsyms=self.each("wild_dynamic_symbol", self.dynamic_symbol, l.get("dynsyms", [])),
            has_sysv_hash=flag(sysv is not None),
            has_gnu_hash=flag(gnu is not None),
            has_build_id=flag(l.get("build_id") is not None),
            sysv_buckets=number((sysv or {}).get("buckets", 0)),
            **{f"gnu_{name}": number((gnu or {}).get(name, 0)) for name in ("buckets", "bloom_count", "bloom_shift", "base")},
            verdefs=self.each("wild_version_definition", self.version_definition, l.get("verdefs", [])),
            thunk_blocks=self.each("wild_thunk_block", self.thunk_block, l.get("thunk_blocks", [])),
            sorted=self.each("wild_sorted_section", self.sorted_section, l.get("sorted", [])),
            merged=self.each("wild_merged", self.merged, l.get("merged", [])),
            identity_part=number(identity.get("part", 0)),
            identity=self.bytes(identity.get("bytes", "")),
            interp=self.bytes(l.get("interp", "")),
            properties=self.each("wild_property", self.property, l.get("properties", [])),
            build_id=self.bytes(l.get("build_id") or ""),
        )


def number(value):
    if value == -(1 << 63):
        return "INT64_MIN"
    return f"{value}" if value < 0 else f"{value}u" if value < 1 << 32 else f"{value}ull"


def optional(value):
    return ABSENT if value is None else number(value)


def choice(word, words, names={}):
    """The name in wild.h of a word among some."""
    return f"WILD_{names.get(words[words.index(word)], word.upper())}"


def flag(value):
    return "1" if value else "0"


def numbers(value, names):
    return {name: number(value.get(name, 0)) for name in names.split()}


def members(**written):
    return "{ " + ", ".join(f".{name} = {value}" for name, value in written.items()) + " }"


def main():
    writer = Writer()
    layout = writer.layout(json.load(sys.stdin))
    print('#include "wild.h"\n')
    print("\n".join(writer.lines))
    print(f"static const wild_layout layout = {layout};\n")
    print("const wild_layout *planned_layout(void);\n\nconst wild_layout *planned_layout(void)\n{\n    return &layout;\n}")


if __name__ == "__main__":
    main()
