#!/usr/bin/env python3
"""Fills in the sizes, offsets and addresses that a plan leaves out.

    ./needs --fill < PLAN > FILLED

A member that is given is kept, right or wrong. An absent one is filled in:

- `part_sizes`, and `size` of a part: what `needs` counts. Of a raw part: the bytes from the group's first input section to the end of its last
  one, with merged strings and thunks.
- `offset` and `address` of a part: the next multiple of its `align` in the file, in memory at the same distance from the file as the rest of its
  loaded segment. A loaded segment begins on a page after the one before it. The first address is that of the first loaded segment or of the
  first part; if neither is given, 0x400000 in an output at fixed addresses, else 0.
- `offset`, `address` and `size` of a section: from its first part to the end of its last one.
- `offset`, `address`, `file_size` and `mem_size` of a segment: of kind 1 from its first part to the end of its last one; of kinds 2, 3, 6, 7,
  GNU_EH_FRAME and GNU_PROPERTY those of the part or the sections that they are for; of kind 4 those of all loaded notes, if one segment has it.
- `address` of an input section: the next multiple of its part's `align`, because a plan does not have the alignment of an input section. `size`:
  the length of `bytes`. `address` of a thunk: the only one that it may have.
- `got` and `plt` of a `resolution`, also null ones: the next free word and stub, as the flags say. `tlsld`, if it is given as 0, so too.
- `raw_value` of a `resolution`: the address of the input or output section that the symbol is placed in, and its `value`; the `value` of an
  absolute symbol; the stub of another module's function.
- `tls`: the sections with flag 0x400 (SHF_TLS). `got_base`: the part `got`. `dynstr_start` and the like: the shares of the groups before.

Parts, sections and segments stay in their order. The flags say which loaded segment has a section: a new one begins if the section may do what
the segment may not, or if the segment has its kind of sections already and the next one fits better.

Not filled in: alignments, flags, `page_size`, `physical`, indexes such as `dynsym`, the room for copies (the `size` of their part), the strings
of slot `merge`, segments of other kinds (GNU_RELRO), and plans with `only_keep_debug`. What stays without a value is listed on standard error.

Some sizes depend on addresses (RELR words) and on other sizes (entries of `dynamic`), so `needs` runs until its answer stays: 2 to 4 times.
"""
import copy
import json
import os
import re
import subprocess
import sys

TOP = os.path.dirname(os.path.dirname(os.path.abspath(__file__)))
# sh_flags and kinds of sections; p_flags and kinds of segments (gABI, "Sections", "Program Header")
WRITE, ALLOC, EXECUTE, TLS = 1, 2, 4, 0x400
NOTE_SECTION, NOBITS = 7, 8
LOAD, DYNAMIC, INTERP, NOTE, PHDR, TLS_SEGMENT = 1, 2, 3, 4, 6, 7
EH_FRAME, STACK, PROPERTY = 0x6474E550, 0x6474E551, 0x6474E553
ROLE_OF = {DYNAMIC: "dynamic", INTERP: "interp", PHDR: "program_headers", EH_FRAME: "eh_frame_hdr", PROPERTY: "property"}
# the words of a symbol's slots, by its flags
WORDS = {"GOT": 1, "GOT_TLS_OFFSET": 1, "GOT_TLS_MODULE": 2, "GOT_TLS_DESCRIPTOR": 2}
SECOND_WORDS = {"IFUNC_GOT_FOR_ADDRESS", "CANONICAL_PLT_GOT_FOR_ADDRESS"}
STARTS = {"dynstr_start": "dynstr", "strtab_start": "strtab", "eh_frame_start": "eh_frame", "symtab_local_start": "symtab_local", "symtab_global_start": "symtab_global"}
PASSES = 8


def up(n, align):
    return -(-n // max(align, 1)) * max(align, 1)


def item(items, index):
    """The item of a list, or an empty one where there is none: what `link` refuses is not refused here."""
    return items[index] if index < len(items) else {}


class Filling:
    """A plan that is being filled in, with the shares that its groups need of the parts that the writer makes."""

    def __init__(self, plan, shares):
        self.plan = plan = copy.deepcopy(plan)
        self.missing = []
        self.parts, self.sections, self.segments, self.groups, self.symbols = (plan.get(name, []) for name in ("parts", "sections", "segments", "groups", "symbols"))
        self.files = [file for group in self.groups for file in group.get("files", [])]
        self.kind, self.page = plan.get("kind", "static"), plan.get("page_size") or 4096
        self.given = [bool(group.get("part_sizes")) for group in self.groups]
        self.shares = [list(group["part_sizes"] if given else own) for group, given, own in zip(self.groups, self.given, shares)]
        # the loaded segments with their parts; the one that is being filled, and whether it has had a section with just its permissions
        self.loads = [(segment, []) for segment in self.segments if segment.get("kind") == LOAD]
        self.load, self.is_used = None, False
        # the end of what is placed in the file and in memory, and how far addresses are from offsets
        self.at, self.memory, self.distance = 0, 0, self.first_address()
        self.place_parts()
        self.fill_sections()
        self.fill_tls()
        self.fill_segments()
        self.fill_slots()
        self.fill_symbols()
        self.fill_groups()

    def part_of(self, role):
        return next((part for part in self.parts if part.get("role", "raw") == role), None)

    def section_of(self, part):
        return item(self.sections, part.get("section", 0))

    # Parts and input sections

    def first_address(self):
        """The address of the first byte of the file."""
        for first in [segment for segment, _ in self.loads[:1]] + self.parts[:1]:
            if "address" in first:
                return first["address"] - first.get("offset", 0)
        return 0x400000 if self.kind in ("static", "dynamic") else 0

    def is_loaded(self, part):
        """Whether a part is loaded; the headers are if the first loaded segment begins with the file."""
        if part.get("role") in ("file_header", "program_headers"):
            return self.kind != "partial" and not (self.loads and self.loads[0][0].get("offset"))
        return self.kind != "partial" and bool(self.section_of(part).get("flags", 0) & ALLOC)

    def wanted(self, section):
        """The flags that a segment with this section needs."""
        flags = section.get("flags", 0)
        return (flags & WRITE) * 2 | (flags & EXECUTE) // 4

    def go_to_segment(self, section, align):
        """Goes on to the loaded segment for a section, and begins it."""
        wanted = self.wanted(section)
        before, self.load = self.load, self.load or 0
        while self.load + 1 < len(self.loads):
            here, after = (segment.get("flags", 0) & 3 for segment, _ in self.loads[self.load : self.load + 2])
            if not wanted & ~here and not (self.is_used and here != wanted == after):
                break
            self.load, self.is_used = self.load + 1, False
        segment = self.loads[self.load][0]
        self.is_used |= wanted == segment.get("flags", 0) & 3
        if self.load == before:
            return
        step = max(self.page, segment.get("align", 1), align)
        self.at = segment.get("offset", up(self.at, align))
        if "address" in segment:
            self.at += 0 if "offset" in segment else (segment["address"] - self.at) % step
            self.distance = segment["address"] - self.at
        while "address" not in segment and (self.at + self.distance) // step * step < self.memory:
            self.distance += step

    def place_parts(self):
        starts = {}
        for index, part in enumerate(self.parts):
            section, number, loaded = self.section_of(part), part.get("section", 0), self.is_loaded(part)
            align = max(part.get("align", 1), 1 if number in starts else section.get("align", 1))
            if loaded and self.loads:
                # the headers have no section, and so the permissions of any segment
                self.go_to_segment(section, align)
                if self.wanted(section) & ~self.loads[self.load][0].get("flags", 0):
                    self.missing.append(f"/sections/{number} has permissions that its loaded segment does not have")
                self.loads[self.load][1].append(part)
            if section.get("kind") == NOBITS:
                part.setdefault("offset", up(self.at, align))
                if loaded:
                    part.setdefault("address", up(max(self.memory, self.at + self.distance), align))
            else:
                self.at = part.get("offset", up(self.at, align))
                if loaded and "address" in part:
                    self.at += 0 if "offset" in part else (part["address"] - self.at) % self.page
                    self.distance = part["address"] - self.at
                part.setdefault("offset", self.at)
                if loaded:
                    part.setdefault("address", self.at + self.distance)
            # in a section that is not loaded addresses count from its beginning
            first = starts.setdefault(number, part["offset"])
            if part.get("role", "raw") == "raw":
                self.place_inputs(index, part, part["address"] if loaded else part["offset"] - first)
            part.setdefault("size", sum(item(shares, index) or 0 for shares in self.shares))
            if section.get("kind") != NOBITS:
                self.at = part["offset"] + part["size"]
            if loaded and not (section.get("kind") == NOBITS and section["flags"] & TLS):
                self.memory = max(self.memory, part["address"] + part["size"])

    def place_inputs(self, index, part, at):
        """Places the input sections of a raw part from an address on, and counts the groups' shares."""
        align, counted = part.get("align", 1), 0
        for number, group in enumerate(self.groups):
            start = at
            if number == 0:
                at += sum(len(text) // 2 for merged in self.plan.get("merged", []) if merged.get("part", 0) == index for text in merged.get("strings", []))
                identity = self.plan.get("identity", {})
                at += len(identity.get("bytes", "")) // 2 if identity.get("part", 0) == index else 0
            for file in group.get("files", []):
                for section in file.get("sections", []):
                    if section.get("part", 0) == index and section.get("slot") in ("loaded", "debug", "rela", "group"):
                        at = self.place_input(section, at, align)
                if file.get("owns_thunk_block") and self.plan.get("primary_part", 0) == index:
                    for place, thunk in enumerate(item(self.plan.get("thunk_blocks", []), file.get("thunk_block", 0)) or []):
                        at = thunk.setdefault("address", up(at, 1 if place else 4)) + 12
            if number + 1 == len(self.groups):
                for place in self.plan.get("sorted", []):
                    file = item(item(self.groups, place.get("group", 0)).get("files", []), place.get("file", 0))
                    section = item(file.get("sections", []), place.get("section", 0))
                    if section.get("part", 0) == index:
                        at = self.place_input(section, at, align)
                # room that the plan gives the part, as for copies, is the last group's
                at = max(at, start + part.get("size", 0) - counted)
            if self.given[number]:
                at = start + (item(self.shares[number], index) or 0)
            else:
                self.shares[number][index] = at - start
            counted += at - start

    def place_input(self, section, at, align):
        if "bytes" in section:
            section.setdefault("size", len(section["bytes"]) // 2)
        section.setdefault("address", up(at, align))
        return section["address"] + section.get("size", 0)

    # Headers

    def range_of_parts(self, parts, has_tls_zeros):
        """The members of a segment from the first of these parts to the end of the last. Zeroed thread-local data takes no memory of a loaded one."""
        in_file = [part for part in parts if self.section_of(part).get("kind") != NOBITS]
        in_memory = [part for part in parts if has_tls_zeros or part in in_file or not self.section_of(part)["flags"] & TLS]
        offset, address = parts[0]["offset"], parts[0].get("address", 0)
        return {"offset": offset, "address": address, "file_size": max([part["offset"] + part["size"] - offset for part in in_file], default=0),
                "mem_size": max([part.get("address", 0) + part["size"] - address for part in in_memory], default=0)}

    def fill_sections(self):
        for number, section in enumerate(self.sections):
            parts = [part for part in self.parts if number and part.get("section", 0) == number]
            if parts:
                first, last = parts[0], parts[-1]
                section.setdefault("offset", first["offset"])
                if section.get("flags", 0) & ALLOC and "address" in first:
                    section.setdefault("address", first["address"])
                zeros = section.get("kind") == NOBITS and "address" in first
                section.setdefault("size", last["size"] + (last["address"] - first["address"] if zeros else last["offset"] - first["offset"]))

    def fill_tls(self):
        sections = [section for section in self.sections if section.get("flags", 0) & TLS]
        if sections:
            tls = self.plan.setdefault("tls", {})
            tls.setdefault("start", sections[0].get("address", 0))
            tls.setdefault("end", sections[-1].get("address", 0) + sections[-1].get("size", 0))
            aligns = [segment["align"] for segment in self.segments if segment.get("kind") == TLS_SEGMENT and "align" in segment]
            tls.setdefault("align", max(aligns or [section.get("align", 1) for section in sections]))

    def fill_segments(self):
        loads = iter(self.loads)
        notes = [part for part in self.parts if self.section_of(part).get("kind") == NOTE_SECTION and self.section_of(part).get("flags", 0) & ALLOC]
        for number, segment in enumerate(self.segments):
            kind = segment.get("kind", 0)
            if kind == LOAD:
                parts = next(loads)[1]
            elif kind == NOTE:
                parts = notes * (sum(other.get("kind") == NOTE for other in self.segments) == 1)
            elif kind == TLS_SEGMENT:
                parts = [part for part in self.parts if self.section_of(part).get("flags", 0) & TLS]
            else:
                parts = [part for part in self.parts if part.get("role") == ROLE_OF.get(kind, "") or kind == INTERP and self.section_of(part).get("name") == b".interp".hex()]
            if parts:
                for name, value in self.range_of_parts(parts, kind == TLS_SEGMENT).items():
                    segment.setdefault(name, value)
            elif kind != STACK and not {"offset", "address", "file_size", "mem_size"} & set(segment):
                self.missing.append(f"/segments/{number} is of no part or section that is known")

    # Symbols

    def in_got_relr(self, flags):
        """Whether the slot of an address moves with the base and no loader looks the symbol up (docs/SLOTS.md)."""
        looked_up = "DYNAMIC" in flags or "EXPORT_DYNAMIC" in flags and "NON_INTERPOSABLE" not in flags
        return self.kind in ("static_pie", "dynamic_pie", "shared") and self.plan.get("options", {}).get("relr") and "GOT" in flags and not looked_up and not flags & {"IFUNC", "CANONICAL_PLT", "ABSOLUTE"}

    def fill_slots(self):
        places = {role: (self.part_of(role) or {}).get("address", 0) for role in ("got", "got_relr", "plt_got")}
        if self.part_of("got"):
            self.plan.setdefault("got_base", places["got"])
        places["got"] += 8 * self.plan.get("got_header", 0)
        if self.plan.get("tlsld") == 0:
            self.plan["tlsld"] = places["got"]
        if self.plan.get("tlsld") is not None:
            places["got"] += 16
        for file in self.files:
            if file.get("role") in ("not_loaded", "epilogue"):
                continue
            for symbol in self.range_of(file):
                flags, resolution = set(symbol.get("flags", [])), symbol.get("resolution")
                words = sum(count for flag, count in WORDS.items() if flag in flags) + len(flags & SECOND_WORDS)
                if resolution is None:
                    continue
                for name, role, size in (("got", "got_relr" if self.in_got_relr(flags) else "got", 8 * words), ("plt", "plt_got", 16 * ("PLT" in flags))):
                    if size and resolution.get(name) is None:
                        resolution[name] = places[role]
                    if resolution.get(name) is not None:
                        places[role] = resolution[name] + size

    def range_of(self, file):
        first = file.get("first_symbol", 0)
        return self.symbols[first : first + file.get("symbol_count", 0)]

    def fill_symbols(self):
        file_of = {id(symbol): file for file in self.files for symbol in self.range_of(file)}
        for number, symbol in enumerate(self.symbols):
            flags, place, resolution = symbol.get("flags", []), symbol.get("place", "undefined"), symbol.get("resolution")
            if resolution is None or "raw_value" in resolution:
                continue
            section = {}
            if isinstance(place, dict):
                inputs = file_of.get(id(symbol), {}).get("sections", [])
                section = item(inputs, place["section"]) if "section" in place else item(self.sections, place.get("output", 0))
            if "address" in section:
                resolution["raw_value"] = section["address"] + symbol.get("value", 0)
            elif "DYNAMIC" in flags and "COPY_RELOCATION" not in flags:
                resolution["raw_value"] = resolution.get("plt") or 0
            elif place == "absolute" or "UNDEFINED_WEAK" in flags:
                resolution["raw_value"] = symbol.get("value", 0)
            else:
                self.missing.append(f"/symbols/{number}/resolution/raw_value stays without a value")

    def fill_groups(self):
        for number, group in enumerate(self.groups):
            if not self.given[number]:
                group["part_sizes"] = self.shares[number]
            for name, role in STARTS.items():
                before = sum(shares[self.parts.index(part)] for part in [self.part_of(role)] if part for shares in self.shares[:number])
                if before:
                    group.setdefault(name, before)
        for number, group in enumerate(self.groups):
            for place, file in enumerate(group.get("files", [])):
                for index, section in enumerate(file.get("sections", [])):
                    if any("address" not in text for text in section.get("strings", [])):
                        self.missing.append(f"/groups/{number}/files/{place}/sections/{index}/strings stay without an address")


class NotFilled(Exception):
    """The status and the text that say why a plan is not filled in."""


def ask_program(text):
    """The answer of `needs` for a plan's text."""
    ran = subprocess.run([f"{TOP}/needs"], input=text.encode(), stdout=subprocess.PIPE)
    if ran.returncode:
        raise NotFilled(ran.returncode, ran.stdout.decode())
    return ran.stdout.decode()


def filled(text, ask=ask_program):
    """The plan of a text, filled in, and the members that stay without a value."""
    answer = ask(text)
    plan = json.loads(text)
    if plan.get("options", {}).get("only_keep_debug"):
        raise NotFilled(2, "a plan with only_keep_debug is not filled in\n")
    made = [part.get("role", "raw") != "raw" for part in plan.get("parts", [])]

    def shares_of(answer):
        return [[size if counted else 0 for size, counted in zip(json.loads(sizes), made)] for sizes in re.findall(r"^/groups/\d+/part_sizes (\[.*\])", answer, re.M)]

    for _ in range(PASSES):
        shares = shares_of(answer)
        filling = Filling(plan, shares)
        answer = ask(json.dumps(filling.plan))
        if shares_of(answer) == shares:
            return filling.plan, filling.missing
    raise NotFilled(1, f"the sizes change with the addresses, also after {PASSES} runs\n")


if __name__ == "__main__":
    if sys.argv[1:]:
        print("usage: needs --fill < PLAN > FILLED", file=sys.stderr)
        sys.exit(2)
    try:
        plan, missing = filled(sys.stdin.read())
    except NotFilled as failed:
        status, told = failed.args
        sys.stderr.write(told and f"needs: {told}")
        sys.exit(status)
    for member in dict.fromkeys(missing):
        print(f"needs: {member}", file=sys.stderr)
    print(json.dumps(plan, separators=(",", ":")))
