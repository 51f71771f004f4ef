"""Output sections: which input section is in which, their order, and the addresses and offsets of all.

Four runs of the file have flags of their own: what is read, code, data that a loader writes to once (PT_GNU_RELRO), and data. Each begins on a page of its
own in memory, at the same distance from the page's start as in the file, so that the file has no gaps.
"""
import re

from elf import (
    ALLOC, CODE, COMPRESSED, EXCLUDE, FINI_ARRAY, GROUP, INIT_ARRAY, MERGE, NOBITS, NOTE, PREINIT_ARRAY, PROGBITS, RELA, SECTION, STRINGS, STRTAB, SYMTAB, SYMTAB_SHNDX, TLS, WRITE, up,
)

FAMILIES = [
    b".text", b".rodata", b".data.rel.ro", b".data", b".bss", b".tdata", b".tbss", b".init_array", b".fini_array", b".preinit_array", b".gcc_except_table",
    b".ldata", b".lrodata", b".lbss", b".ctors", b".dtors",
]
ARRAYS = {b".init_array": INIT_ARRAY, b".fini_array": FINI_ARRAY, b".preinit_array": PREINIT_ARRAY}
FINAL = {b".ctors": b".init_array", b".dtors": b".fini_array"}
LINKONCE = {b"t": b".text", b"r": b".rodata", b"d": b".data", b"b": b".bss", b"wi": b".debug_info", b"td": b".tdata", b"tb": b".tbss"}
READ, RUN, ONCE, DATA, OUTSIDE = range(5)
RELRO_NAMES = {b".tdata", b".tbss", b".preinit_array", b".init_array", b".fini_array", b".data.rel.ro", b".dynamic", b".got", b".bss.rel.ro"}
# the order within a run, others between
FIRST = [
    b".interp", b".note.gnu.property", b".note.gnu.build-id", b".hash", b".gnu.hash", b".dynsym", b".dynstr", b".gnu.version", b".gnu.version_d", b".gnu.version_r",
    b".rela.dyn", b".rela.plt", b".relr.dyn", b".init", b".plt.got", b".text", b".tdata", b".tbss", b".preinit_array", b".init_array", b".fini_array", b".data.rel.ro", b".dynamic", b".got", b".data",
]
LAST = [b".fini", b".rodata", b".gcc_except_table", b".eh_frame_hdr", b".eh_frame", b".bss", b".comment", b".symtab", b".symtab_shndx", b".strtab", b".shstrtab"]
LOAD, DYNAMIC, INTERP, NOTES, PHDR, THREAD, UNWIND, STACK, RELRO, PROPERTY = 1, 2, 3, 4, 6, 7, 0x6474E550, 0x6474E551, 0x6474E552, 0x6474E553


class Part:
    """A run of bytes of one role: of `raw` the input sections, of others what the writer makes."""

    def __init__(self, role, size=0, align=1):
        self.role, self.size, self.align = role, size, align
        self.inputs, self.index, self.address, self.offset, self.strings, self.is_kept, self.output = [], 0, 0, 0, None, False, None

    def add(self, section):
        self.align = max(self.align, section.align)
        section.position = up(self.size, section.align)
        section.part = self
        self.size = section.position + section.size
        self.inputs.append(section)


class Output:
    """An output section and its parts."""

    def __init__(self, name, kind, flags, entry=0, link=None):
        self.name, self.kind, self.flags, self.entry, self.link = name, kind, flags, entry, link
        self.parts, self.index, self.address, self.offset, self.size = [], 0, 0, 0, 0

    def part(self, role, size=0, align=1):
        part = Part(role, size, align)
        part.output = self
        self.parts.append(part)
        return part

    def place(self, offset, address):
        """Places its parts from an offset and an address on; where it ends in memory."""
        self.offset, self.address, end = offset, address, address
        for part in self.parts:
            part.address = end = up(end, part.align)
            part.offset = offset + end - address
            end += part.size
        self.size = end - address
        return end

    def align(self):
        return max([part.align for part in self.parts], default=1)

    def run(self):
        if not self.flags & ALLOC:
            return OUTSIDE
        if self.flags & CODE:
            return RUN
        if not self.flags & WRITE:
            return READ
        return ONCE if self.name in RELRO_NAMES else DATA


def family(name):
    """The name of the output section of an input section."""
    if name.startswith(b".gnu.linkonce."):
        kind = name.split(b".")[3]
        return LINKONCE.get(kind, name)
    for each in FAMILIES:
        if name == each or name.startswith(each + b"."):
            return FINAL.get(each, each)
    return name


def rank(output):
    name = output.name
    place = FIRST.index(name) if name in FIRST else len(FIRST) + (1 + LAST.index(name) if name in LAST else 0)
    return output.run(), output.kind == NOBITS and not output.flags & TLS, not (output.kind == NOTE and output.run() == READ) if name not in FIRST[:3] else False, place


def priority(section):
    """The order of functions at the start and the end: by the number in the section's name, those without one last."""
    number = re.fullmatch(rb"\.(init_array|fini_array|preinit_array|ctors|dtors)\.(\d+)", section.name)
    if not number:
        return 65536
    value = int(number[2])
    return 65535 - value if section.name[1:2] in (b"c", b"d") else value


class Layout:
    """Sections, parts and segments of one output."""

    def __init__(self, options, machine):
        self.options, self.machine = options, machine
        self.outputs, self.by_key, self.merges, self.sorted = [], {}, [], []
        self.frames = None
        self.file_header, self.program_headers, self.section_headers = Part("file_header", 64, 8), Part("program_headers", 0, 8), Part("section_headers", 0, 8)

    def output(self, name, kind, flags, entry=0, link=None):
        made = Output(name, kind, flags, entry, link)
        self.outputs.append(made)
        return made

    def output_of(self, key, *made):
        """The output section of all inputs that have one key."""
        if key not in self.by_key:
            self.by_key[key] = self.output(*made)
            self.by_key[key].part("raw")
        return self.by_key[key]

    def output_named(self, name):
        return next((output for output in self.outputs if output.name == name), None)

    def edge(self, name, is_end):
        """Where a section begins or ends; 0 where it is not there."""
        output = self.output_named(name)
        return output.address + (output.size if is_end else 0) if output else 0

    # ---- input sections

    def is_left_out(self, section):
        """What the output does not have: tables of the input, and what is for the linker alone."""
        name = section.name
        if section.kind in (0, SYMTAB, STRTAB, RELA, GROUP, SYMTAB_SHNDX) or section.group is False or section.flags & EXCLUDE:
            return True
        if name in (b".note.GNU-stack", b".note.gnu.property", b".llvm_addrsig") or name.startswith((b".gnu.warning", b".llvm.", b".gnu.lto_", b".debug_gdb_scripts")):
            return True
        return self.options.strip in ("all", "debug") and (name.startswith((b".debug", b".zdebug", b".stab")) or name == b".comment" and self.options.strip == "all")

    def place_inputs(self, objects):
        """Says of each input section what becomes of it, and to which part it belongs."""
        for file in objects:
            for section in file.sections:
                if self.is_left_out(section):
                    continue
                if section.flags & COMPRESSED:
                    section.decompress()
                if section.name == b".eh_frame":
                    section.slot = "frame"
                    continue
                name = family(section.name)
                section.reversed = name in ARRAYS and section.name[1:2] in (b"c", b"d")
                section.slot = "loaded" if section.flags & ALLOC else "debug"
                self.place(section, name)
        for part in (self.by_key[name].parts[0] for name in ARRAYS if name in self.by_key):
            if any(priority(section) < 65536 for section in part.inputs):
                inputs, part.inputs, part.size = sorted(part.inputs, key=priority), [], 0
                for section in inputs:
                    section.slot = "sorted"
                    part.add(section)
                self.sorted += inputs
        self.drop_empty()

    def place(self, section, name):
        flags = section.flags & (WRITE | ALLOC | CODE | TLS)
        nobits = section.kind == NOBITS
        key = name, flags, nobits and bool(flags & TLS or name == b".bss"), section.kind == NOTE
        if name in ARRAYS:
            key, flags = name, WRITE | ALLOC
        output = self.output_of(key, name, ARRAYS.get(name) or (NOTE if section.kind == NOTE else NOBITS if nobits else PROGBITS), flags)
        if output.kind == NOBITS and not nobits:
            output.kind = PROGBITS
        if section.flags & MERGE and section.flags & STRINGS and section.entry == 1 and section.align == 1 and section.relocations is None and section.bytes()[-1:] == b"\0":
            merge = next((part for part in output.parts if part.strings is not None), None)
            if merge is None:
                merge = output.part("raw")
                merge.strings = {}
                self.merges.append(merge)
            self.merge(section, merge)
        else:
            output.parts[0].add(section)

    def merge(self, section, part):
        """Each string is kept once, where it was first."""
        known, at, starts, places = part.strings, 0, [], []
        for string in section.bytes()[:-1].split(b"\0"):
            place = known.get(string)
            if place is None:
                place = known[string] = part.size
                part.size += len(string) + 1
            starts.append(at)
            places.append(place)
            at += len(string) + 1
        section.slot, section.part, section.strings = "merge", part, (starts, places)
        section.position = 0

    def drop_empty(self):
        """Leaves out parts without bytes, but where a symbol is in one."""
        empty = [section for output in self.outputs for part in output.parts if not part.size for section in part.inputs]
        numbers = {}
        for section in empty:
            numbers.setdefault(section.file, set()).add(section.index)
        for file, own in numbers.items():
            for _, info, _, index, _, _ in file.symbols:
                if index in own and info & 15 != SECTION:
                    file.sections[index].part.is_kept = True
        for section in empty:
            if not section.part.is_kept:
                section.slot = "discard"

    def drop_empty_outputs(self):
        for output in self.outputs:
            output.parts = [part for part in output.parts if part.size or part.is_kept or part.role == "symtab_global"]
        self.outputs = [output for output in self.outputs if output.parts]

    # ---- addresses

    def arrange(self):
        """The order of the sections, without those that are empty, and their numbers."""
        self.drop_empty_outputs()
        self.outputs.sort(key=rank)
        for index, output in enumerate(self.outputs, 1):
            output.index = index
        self.parts = [self.file_header, self.program_headers] + [part for output in self.outputs for part in output.parts] + [self.section_headers]
        if self.options.partial:
            self.parts.remove(self.program_headers)
        for index, part in enumerate(self.parts):
            part.index = index

    def give_addresses(self, base):
        """Offsets and addresses of all parts, and the runs: (run, offset, address, bytes in the file, bytes in memory)."""
        page, headers = self.machine.page, self.program_headers
        loaded = [output for output in self.outputs if output.flags & ALLOC]
        thread = [output for output in loaded if output.flags & TLS]
        thread_align = max([output.align() for output in thread], default=1)
        self.file_header.address, headers.offset, headers.address = base, 64, base + 64
        self.runs, run, begin = [], READ, (0, base)
        at, memory = 64 + headers.size, base + 64 + headers.size
        for output in loaded:
            align = thread_align if output in thread[:1] else output.align()
            if output.run() != run:
                self.runs.append((run, *begin, at - begin[0], memory - begin[1]))
                run, at = output.run(), up(at, min(align, page))
                memory = up(memory, page) + at % page
                memory += -memory % align if align > page else 0
                begin = at, memory
            start = up(memory, align)
            offset = at if output.kind == NOBITS else at + start - memory
            end = output.place(offset, start)
            if output.kind != NOBITS:
                at = offset + output.size
            # zeroed thread-local data have no bytes of their own in memory
            if output.kind != NOBITS or not output.flags & TLS:
                memory = end
        self.runs.append((run, *begin, at - begin[0], memory - begin[1]))
        self.image_end = memory
        self.thread = (thread[0].address, thread[-1].address + thread[-1].size, thread_align) if thread else None
        for output in self.outputs[len(loaded) :]:
            output.place(up(at, output.align()), 0)
            at = output.offset + output.size
        self.section_headers.offset, self.section_headers.size = up(at, 8), 64 * (1 + len(self.outputs))

    def segments(self, stack):
        """The program headers: kind, flags, offset, address, bytes in the file and in memory, alignment. Their number does not depend on addresses."""
        headers, page = self.program_headers, self.machine.page

        def over(kind, flags, output, align):
            return kind, flags, output.offset, output.address, output.size, output.size, align

        def over_named(kind, flags, name, align):
            output = self.output_named(name)
            return [over(kind, flags, output, align)] if output else []

        made = [over(PHDR, 4, headers, 8)] * bool(self.output_named(b".interp")) + over_named(INTERP, 4, b".interp", 1)
        made += [(LOAD, {READ: 4, RUN: 5}.get(run, 6), *place, page) for run, *place in self.runs]
        made += over_named(DYNAMIC, 6, b".dynamic", 8)
        for output in self.outputs:
            if output.kind == NOTE and output.flags & ALLOC:
                made += [over(kind, 4, output, output.align()) for kind in [NOTES] + [PROPERTY] * (output.name == b".note.gnu.property")]
        if self.thread:
            start, end, align = self.thread
            first = next(output for output in self.outputs if output.flags & TLS)
            made.append((THREAD, 4, first.offset, start, 0 if first.kind == NOBITS else first.size, end - start, align))
        made += over_named(UNWIND, 4, b".eh_frame_hdr", 4) + [(STACK, 6 | stack, 0, 0, 0, 0, 16)]
        for run, offset, address, size, memory in self.runs:
            if run == ONCE and self.options.relro:
                made.append((RELRO, 4, offset, address, size, up(address + memory, page) - address, 1))
        return made
