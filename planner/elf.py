"""Reads what a linker is given: relocatable objects, archives of them, shared libraries, and the scripts that stand for a library (`libc.so`).

Only ELF of 64 bits with the lowest byte first is read (gABI, "Object Files"). What is not understood is refused by its name.
"""
import bisect
import os
import re
import struct
import zlib

PROGBITS, SYMTAB, STRTAB, RELA, NOTE, NOBITS, DYNSYM, GROUP = 1, 2, 3, 4, 7, 8, 11, 17
INIT_ARRAY, FINI_ARRAY, PREINIT_ARRAY, SYMTAB_SHNDX = 14, 15, 16, 18
VERDEF, VERSYM = 0x6FFFFFFD, 0x6FFFFFFF
WRITE, ALLOC, CODE, MERGE, STRINGS, INFO_LINK, LINK_ORDER, IN_GROUP, TLS = 1, 2, 4, 16, 32, 64, 128, 512, 1024
COMPRESSED, EXCLUDE = 2048, 0x80000000
UNDEFINED, ABSOLUTE, COMMON, LONG_INDEX = 0, 0xFFF1, 0xFFF2, 0xFFFF
LOCAL, GLOBAL, WEAK, UNIQUE = 0, 1, 2, 10
NOTYPE, OBJECT, FUNCTION, SECTION, FILE, COMMON_TYPE, TLS_TYPE, IFUNC = 0, 1, 2, 3, 4, 5, 6, 10
DEFAULT, INTERNAL, HIDDEN = 0, 1, 2
MACHINES = {62: "x86_64", 183: "aarch64"}


class Refused(Exception):
    """An input or an option that the planner does not take."""


def text(table, at):
    return table[at : table.index(b"\0", at)]


def up(n, align):
    return (n + align - 1) // align * align


class Section:
    """An input section, and what becomes of it."""

    __slots__ = ("file", "index", "name", "kind", "flags", "size", "align", "link", "info", "entry", "offset", "relocations", "slot", "part", "position", "group", "strings", "kept", "reversed", "data", "fdes")

    def __init__(self, file, index, name, header):
        _, self.kind, self.flags, _, self.offset, self.size, self.link, self.info, self.align, self.entry = header
        self.file, self.index, self.name, self.align = file, index, name, max(self.align, 1)
        self.relocations = self.data = self.group = self.strings = self.kept = None
        self.slot, self.part, self.position, self.reversed, self.fdes = "discard", None, 0, False, 0

    def bytes(self):
        if self.data is None:
            self.data = b"" if self.kind == NOBITS else self.file.data[self.offset : self.offset + self.size]
        return self.data

    def decompress(self):
        """A section of debuggers may be compressed (gABI, "Section Compression")."""
        kind, _, self.size, self.align = struct.unpack_from("<IIQQ", self.bytes())
        if kind != 1:
            raise Refused(f"{self.file.name}: section {self.name.decode()} is compressed in a way that is not known")
        self.data = zlib.decompress(self.data[24:])
        self.flags &= ~COMPRESSED

    def address(self):
        """The address at which it begins in the output."""
        return self.part.address + self.position

    def place_of(self, value):
        """The address of an offset in it; of merged strings that of the byte in the string that is kept."""
        if self.slot != "merge":
            return self.part.address + self.position + value
        starts, places = self.strings
        at = max(bisect.bisect_right(starts, value) - 1, 0)
        return self.part.address + places[at] + value - starts[at]

    def records(self):
        """Its relocations: offset, number and symbol as one number, addend."""
        if self.relocations is None:
            return []
        table = self.relocations
        return struct.iter_unpack("<QQq", self.file.data[table.offset : table.offset + table.size])


class Elf:
    """The section headers of an ELF file."""

    def __init__(self, name, data):
        self.name, self.data = name, data
        if data[4:6] != b"\2\1":
            raise Refused(f"{name}: no ELF of 64 bits, the lowest byte first")
        self.type, machine = struct.unpack_from("<HH", data, 16)
        if machine not in MACHINES:
            raise Refused(f"{name}: for machine {machine}, which is neither x86-64 nor AArch64")
        self.machine = MACHINES[machine]
        (at,), (count, names) = struct.unpack_from("<Q", data, 40), struct.unpack_from("<HH", data, 60)
        if not at:
            raise Refused(f"{name}: no section headers")
        first = struct.unpack_from("<IIQQQQIIQQ", data, at)
        count, names = count or first[5], first[6] if names == LONG_INDEX else names
        self.headers = list(struct.iter_unpack("<IIQQQQIIQQ", data[at : at + 64 * count]))
        self.names = self.content(self.headers[names])

    def content(self, header):
        return self.data[header[4] : header[4] + header[5]]

    def first(self, kind):
        return next((header for header in self.headers if header[1] == kind), None)


class Object(Elf):
    """A relocatable object. `symbols` are its records (name, info, other, section, value, size); `globals` has for each global one what its name means."""

    def __init__(self, name, data):
        super().__init__(name, data)
        self.sections = [Section(self, i, text(self.names, header[0]), header) for i, header in enumerate(self.headers)]
        self.symbols, self.strings, self.locals, self.long = [(0, 0, 0, 0, 0, 0)], b"\0", 1, None
        self.first_symbol, self.globals, self.local_targets, self.planned = 0, [], {}, []
        for section in self.sections:
            if section.kind == SYMTAB:
                self.symbols = list(struct.iter_unpack("<IBBHQQ", section.bytes()))
                self.strings, self.locals = self.sections[section.link].bytes(), section.info
            elif section.kind == SYMTAB_SHNDX:
                self.long = [i for i, in struct.iter_unpack("<I", section.bytes())]
            elif section.kind == RELA:
                self.sections[section.info].relocations = section
            elif section.kind == 9:
                raise Refused(f"{name}: section {section.name.decode()} has relocations without addends (SHT_REL)")

    def symbol_name(self, i):
        return text(self.strings, self.symbols[i][0])

    def section_of(self, i):
        """The input section in which a symbol is, or None."""
        index = self.symbols[i][3]
        if index == LONG_INDEX:
            index = self.long[i]
        elif index >= 0xFF00:
            return None
        return self.sections[index] if index else None


class Archive:
    """An archive, whose index says which member defines a symbol."""

    def __init__(self, name, data):
        self.name, self.taken = name, set()
        at, names, self.index, self.members = 8, b"", {}, {}
        while at + 60 <= len(data):
            label, size = data[at : at + 16].rstrip(), int(data[at + 48 : at + 58])
            body = data[at + 60 : at + 60 + size]
            if label == b"/":
                (count,) = struct.unpack_from(">I", body)
                places = struct.unpack_from(f">{count}I", body, 4)
                for symbol, place in zip(body[4 + 4 * count :].split(b"\0"), places):
                    self.index.setdefault(symbol, place)
            elif label == b"//":
                names = body
            elif label == b"/SYM64/":
                raise Refused(f"{name}: its index has numbers of 64 bits")
            else:
                title = names[int(label[1:]) :].split(b"\n")[0] if label[:1] == b"/" else label
                self.members[at] = title.rstrip(b"/").decode(), body
            at = up(at + 60 + size, 2)

    def member(self, place):
        """The object at a place of the index, once; None where it was taken before."""
        if place in self.taken:
            return None
        title, body = self.members[place]
        self.taken.add(place)
        return Object(f"{self.name}({title})", body)

    def all(self):
        """Members that are objects; others (as the `lib.rmeta` of Rust) are passed over."""
        return [self.member(place) for place, (_, body) in self.members.items() if body[:4] == b"\x7fELF" and place not in self.taken]


class Library(Elf):
    """A shared library: its name, and what it defines and refers to."""

    def __init__(self, name, data, as_needed):
        super().__init__(name, data)
        self.needed, self.used, self.first_symbol = not as_needed, [], 0
        table = self.first(DYNSYM)
        strings = self.content(self.headers[table[6]])
        records = list(struct.iter_unpack("<IBBHQQ", self.content(table)))
        dynamic = dict(struct.iter_unpack("<QQ", self.content(self.first(6))))
        self.soname = text(strings, dynamic[14]) if 14 in dynamic else os.path.basename(name).encode()
        versions = self.first(VERSYM)
        versions = [i for i, in struct.iter_unpack("<H", self.content(versions))] if versions else [1] * len(records)
        self.version_names, header = {}, self.first(VERDEF)
        if header:
            body, at = self.content(header), 0
            while True:
                _, flags, index, _, _, aux, next_one = struct.unpack_from("<HHHHIII", body, at)
                if not flags & 1:
                    self.version_names[index] = text(strings, struct.unpack_from("<I", body, at + aux)[0])
                if not next_one:
                    break
                at += next_one
        # by name: the record and the version's name; a hidden version is found by `name@VERSION` alone
        self.defines, self.refers, self.at_value = {}, set(), {}
        for record, version in zip(records[1:], versions[1:]):
            symbol = text(strings, record[0])
            if record[3] == UNDEFINED:
                self.refers.add(symbol)
            elif record[1] >> 4 != LOCAL:
                known = self.version_names.get(version & 0x7FFF)
                self.defines.setdefault(symbol + b"@" + known if version & 0x8000 and known else symbol, (record, known))
                if not version & 0x8000:
                    self.at_value.setdefault(record[4], []).append(symbol)

    def alignment(self, value, section):
        """The alignment of a symbol's data: that of its section, as far as its address has it."""
        align = max(self.headers[section][8], 1)
        while value % align:
            align //= 2
        return align


def script_words(data):
    """The files that a script names in GROUP and INPUT, each with whether AS_NEEDED has it, or None if the script has other commands."""
    words = re.findall(r"[(),]|[^\s(),]+", re.sub(r"/\*.*?\*/", "", data.decode("latin1"), flags=re.S))
    files, stack = [], []
    for i, word in enumerate(words):
        if word == "(":
            stack.append(words[i - 1])
            if stack[-1] not in ("GROUP", "INPUT", "AS_NEEDED", "OUTPUT_FORMAT"):
                return None
        elif word == ")":
            stack.pop()
        elif word != "," and stack and stack[0] != "OUTPUT_FORMAT" and word not in ("AS_NEEDED",):
            files.append((word, "AS_NEEDED" in stack))
        elif not stack and word not in ("GROUP", "INPUT", "OUTPUT_FORMAT", ","):
            return None
    return files
