#!/usr/bin/env python3
"""Writes a large plan: N input sections of 64 bytes in files of 16, each with 8 relocations and a symbol at its start.

    plans/make_large.py 65536 > /tmp/large.json
    plans/make_large.py 65536 --fault range > /tmp/broken.json
    plans/make_large.py 65536 --frames 4 > /tmp/frames.json
    plans/make_large.py 1 --debug 1048576 > /tmp/debug.json

Of four sections two are code (calls, R_X86_64_PC32), one is read-only data (PC32, 32 and 32S), one is data (PC32 and 64).
With `--frames K` each file has a section of frames, with a CIE and K FDEs of each of its sections, and the image their search table.
With `--debug R` a last file has one debug section with R relocations (R_X86_64_64), each in 8 bytes of its own.
A fault is put into the last section:

    number   its last relocation has type 99                                 UnsupportedRelocation
    address  its last relocation names a symbol that stands nowhere          MissingResolution
    range    its last relocation has an addend of 2^40                       OutOfRange
    overlap  its last relocation writes into the field of the one before it  OverlappingSites
    field    its last relocation writes past its end                         clause 10
    member   its last relocation has a negative offset                       no plan: the member's path
"""
import argparse
import json
import sys

BASE, PAGE, SIZE, COUNT, FILE = 0x400000, 0x1000, 64, 8, 16
TEXT, RODATA, DATA = 0, 1, 2
KINDS = [(".text", 6), (".rodata", 2), (".data", 3)]
CODE, ZEROS = "e800000000909090" * COUNT, "00" * SIZE
# a CIE and an FDE behind their lengths and ids, each of 24 bytes (LSB, "The .eh_frame section")
ENTRY, CIE, FDE = 24, "017a5200017810011b0c070890010000", "00000000400000000000000000000000"
NUMBERS = {TEXT: [2], RODATA: [2, 10, 11, 2], DATA: [2, 1]}
FAULTS = ["number", "address", "range", "overlap", "field", "member"]


def part_of(section):
    return [TEXT, TEXT, RODATA, DATA][section % 4]


def up(n, align):
    return (n + align - 1) // align * align


class Plan:
    def __init__(self, sections, groups, fault, frames=0, debug=0):
        self.count, self.groups, self.fault, self.frames, self.debug = sections, groups, fault, frames, debug
        self.kinds = list(KINDS)
        self.sizes = [SIZE * sum(part_of(i) == part for i in range(sections)) for part in range(3)]
        if frames:
            self.kinds += [(".eh_frame_hdr", 2), (".eh_frame", 2)]
            self.sizes += [12 + 8 * frames * sections, ENTRY * (up(sections, FILE) // FILE + frames * sections)]
        self.segments = [part for part, size in enumerate(self.sizes) if size]
        if debug:
            self.kinds += [(".debug_info", 0)]
            self.sizes += [8 * debug]
        headers = 64 + 56 * len(self.segments)
        self.offsets, self.addresses, end = [], [], headers
        for part in range(len(self.kinds)):
            end = up(end, SIZE)
            self.offsets.append(end)
            self.addresses.append(BASE + (part + 1) * PAGE + end if self.kinds[part][1] else 0)
            end += self.sizes[part]
        self.names = ["", *(name for name, _ in self.kinds), ".shstrtab"]
        self.names_at, self.names_size = end, sum(len(name) + 1 for name in self.names)
        self.headers_at = up(end + self.names_size, 8)
        self.next = list(self.addresses)

    def parts(self):
        yield {"role": "file_header", "offset": 0, "address": BASE, "size": 64, "align": 8}
        yield {"role": "program_headers", "offset": 64, "address": BASE + 64, "size": 56 * len(self.segments), "align": 8}
        for part, (name, _) in enumerate(self.kinds):
            role = {".eh_frame_hdr": "eh_frame_hdr", ".eh_frame": "eh_frame"}.get(name, "raw")
            yield {"role": role, "section": part + 1, "offset": self.offsets[part], "address": self.addresses[part], "size": self.sizes[part], "align": SIZE}
        yield {"role": "shstrtab", "section": len(self.kinds) + 1, "offset": self.names_at, "size": self.names_size}
        yield {"role": "section_headers", "offset": self.headers_at, "size": 64 * len(self.names), "align": 8}

    def sections(self):
        yield {}
        for part, (name, flags) in enumerate(self.kinds):
            yield {"name": name.encode().hex(), "kind": 1, "flags": flags, "address": self.addresses[part], "offset": self.offsets[part], "size": self.sizes[part], "align": SIZE}
        yield {"name": b".shstrtab".hex(), "kind": 3, "offset": self.names_at, "size": self.names_size, "align": 1}

    def loads(self):
        for part in self.segments:
            flags = {TEXT: 5, DATA: 6}.get(part, 4)
            where = {"offset": self.offsets[part], "address": self.addresses[part], "physical": self.addresses[part]}
            yield {"kind": 1, "flags": flags, **where, "file_size": self.sizes[part], "mem_size": self.sizes[part], "align": PAGE}

    def symbols(self):
        for i in range(self.count):
            yield {"info": 3, "place": {"section": i % FILE}, "flags": ["NON_INTERPOSABLE"]}
        if self.fault == "address":
            yield {"flags": ["NON_INTERPOSABLE"]}

    def relocation(self, i, j, part):
        numbers = NUMBERS[part]
        number = numbers[j % len(numbers)]
        addend = -4 if number == 2 else j
        found = {"offset": 8 * j + (part == TEXT), "number": number, "symbol": (5 * (COUNT * i + j) + 3) % self.count, "addend": addend}
        if i == self.count - 1 and j == COUNT - 1 and self.fault:
            found.update(self.broken(found))
        return found

    def broken(self, found):
        return {
            "number": {"number": 99},
            "address": {"symbol": self.count},
            "range": {"number": 2, "addend": 1 << 40},
            "overlap": {"number": 2, "offset": found["offset"] - 6},
            "field": {"offset": SIZE - 1},
            "member": {"offset": -1},
        }[self.fault]

    def input(self, i):
        part = part_of(i)
        address = self.next[part]
        self.next[part] += SIZE
        return {
            "slot": "loaded", "part": part + 2, "address": address, "size": SIZE, "flags": KINDS[part][1],
            "bytes": CODE if part == TEXT else ZEROS,
            "relocations": [self.relocation(i, j, part) for j in range(COUNT)],
        }

    def frame_section(self, first, count):
        """The frames of a file: an FDE's id is the distance back to the CIE, and its code begins where its first relocation says."""
        def entry(i, rest):
            return (ENTRY - 4).to_bytes(4, "little").hex() + (ENTRY * i + 4 if i else 0).to_bytes(4, "little").hex() + rest
        entries = [entry(0, CIE)] + [entry(i, FDE) for i in range(1, self.frames * count + 1)]
        relocations = [{"offset": ENTRY * i + 8, "number": 2, "symbol": first + (i - 1) // self.frames, "addend": 0} for i in range(1, len(entries))]
        return {"slot": "frame", "part": 6, "size": ENTRY * len(entries), "flags": 2, "bytes": "".join(entries), "relocations": relocations}

    def debug_section(self):
        relocations = [{"offset": 8 * i, "number": 1, "symbol": (5 * i + 3) % self.count, "addend": i % FILE} for i in range(self.debug)]
        self.next[len(self.kinds) - 1] += 8 * self.debug
        return {"slot": "debug", "name": b".debug_info".hex(), "part": len(self.kinds) + 1, "size": 8 * self.debug, "bytes": "00" * (8 * self.debug), "relocations": relocations}

    def file(self, first):
        count = min(FILE, self.count - first)
        sections = [self.input(i) for i in range(first, first + count)]
        if self.frames:
            sections.append(self.frame_section(first, count))
            self.next[4] += ENTRY * (1 + self.frames * count)
        return {"first_symbol": first, "symbol_count": count, "sections": sections}

    def group(self, number):
        files = up(self.count, FILE) // FILE
        firsts = range(files * number // self.groups * FILE, files * (number + 1) // self.groups * FILE, FILE)
        before = list(self.next)
        yield ('{"eh_frame_start":' + text(before[4] - self.addresses[4]) + ',"files":[') if self.frames else '{"files":['
        between = ""
        if number == 0:
            yield '{"role":"prelude"}'
            between = ","
        for first in firsts:
            yield between + text(self.file(first))
            between = ","
        if number == self.groups - 1:
            if self.debug:
                yield between + text({"first_symbol": self.count, "sections": [self.debug_section()]})
            yield between + '{"role":"epilogue"}'
        own = [self.next[part] - before[part] for part in range(len(self.kinds))]
        sizes = [part["size"] if number == 0 else 0 for part in self.parts()]
        if self.frames:
            own[3] = sizes[5]
        yield '],"part_sizes":' + text(sizes[:2] + own + sizes[2 + len(own) :]) + "}"

    def whole(self):
        yield '{"machine":"x86_64","kind":"static","options":' + text({"strip_all": True, **({"eh_frame_hdr": True} if self.frames else {})}) + ',"page_size":' + text(PAGE)
        for name, items in (("parts", self.parts()), ("sections", self.sections()), ("segments", self.loads()), ("symbols", self.symbols())):
            yield f',"{name}":['
            for i, item in enumerate(items):
                yield ("," if i else "") + text(item)
            yield "]"
        yield ',"groups":['
        for number in range(self.groups):
            if number:
                yield ","
            yield from self.group(number)
        yield '],"entry":' + text({"address": self.addresses[TEXT]}) + "}\n"


def text(value):
    return json.dumps(value, separators=(",", ":"))


def main():
    parser = argparse.ArgumentParser(description=__doc__, formatter_class=argparse.RawDescriptionHelpFormatter)
    parser.add_argument("sections", type=int, metavar="N")
    parser.add_argument("--groups", type=int, default=1, help="how many groups the files are dealt out to (default: 1)")
    parser.add_argument("--frames", type=int, default=0, metavar="K", help="how many FDEs each section has (default: none)")
    parser.add_argument("--debug", type=int, default=0, metavar="R", help="how many relocations a debug section has (default: none)")
    parser.add_argument("--fault", choices=FAULTS)
    chosen = parser.parse_args()
    if chosen.sections < 1 or chosen.groups < 1:
        parser.error("there is at least one section, and one group")
    for piece in Plan(chosen.sections, chosen.groups, chosen.fault, chosen.frames, chosen.debug).whole():
        sys.stdout.write(piece)


if __name__ == "__main__":
    main()
