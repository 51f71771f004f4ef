"""What each name means: the rules by which a linker takes members of archives, drops groups that it has already, and lets one definition stand for all."""
import os
import struct

from elf import (
    ABSOLUTE, COMMON, COMMON_TYPE, DEFAULT, FUNCTION, GLOBAL, GROUP, HIDDEN, IFUNC, INTERNAL, LONG_INDEX, OBJECT, UNDEFINED, UNIQUE, WEAK,
    Archive, Library, Object, Refused, script_words,
)


class Target:
    """What a reference is to: a name, or a local symbol of one object that has a slot."""

    __slots__ = ("name", "kind", "file", "index", "info", "other", "size", "value", "align", "strong", "version", "needs", "exported", "plan", "dynsym", "got", "plt", "copy", "canonical", "alias", "section", "absolute", "listed_version", "first", "joined")

    def __init__(self, name):
        self.name, self.kind, self.file, self.index = name, "undefined", None, 0
        self.info, self.other, self.size, self.value, self.align = GLOBAL << 4, DEFAULT, 0, 0, 1
        self.strong = self.exported = self.copy = self.canonical = self.absolute = False
        self.joined = self.version = self.dynsym = self.got = self.plt = self.alias = self.section = None
        self.needs, self.plan, self.first, self.listed_version = 0, None, None, 1

    def type(self):
        return self.info & 15

    def define(self, file, i):
        """The name means symbol i of a file."""
        _, info, _, section, value, size = file.symbols[i]
        self.kind, self.file, self.index, self.size, self.value = "defined", file, i, size, value
        self.info = info & 15 | (GLOBAL << 4 if info >> 4 == UNIQUE else info & 0xF0)
        self.absolute, self.section = section == ABSOLUTE, file.section_of(i)

    def is_at(self, file, i):
        """Whether symbol i of a file is the one that the name means."""
        return self.file is file and self.index == i

    def is_own(self):
        return self.kind in ("defined", "common", "linker")

    def is_ifunc(self):
        return self.kind == "defined" and self.type() == IFUNC

    def is_weak(self):
        return self.info >> 4 == WEAK

    def is_hidden(self):
        return self.other & 3 in (INTERNAL, HIDDEN)


def flat(files):
    return [each for file in files for each in (flat(file) if isinstance(file, list) else [file])]


class Resolver:
    """Takes the inputs in the order of the command line."""

    def __init__(self, options):
        self.options = options
        self.table, self.objects, self.libraries = {}, [], []
        self.unresolved, self.offered, self.groups, self.machine = {}, {}, {}, None
        self.shared_names = {}
        for name in options.undefined:
            target = self.table[name] = Target(name)
            target.strong, self.unresolved[name] = True, None

    # Files

    def search(self, name, static):
        """The file that `-lNAME` means."""
        endings = [""] if name.startswith(":") else [".a"] if static else [".so", ".a"]
        for folder in self.options.folders:
            for ending in endings:
                path = os.path.join(folder, name[1:] if name.startswith(":") else f"lib{name}{ending}")
                if os.path.isfile(path):
                    return path
        raise Refused(f"cannot find -l{name}")

    def read(self, path, static, as_needed, whole):
        """The objects, archives and libraries of a path."""
        if not os.path.isfile(path):
            raise Refused(f"cannot find {path}")
        with open(path, "rb") as file:
            data = file.read()
        if data[:8] == b"!<arch>\n":
            archive = Archive(path, data)
            return archive.all() if whole else [archive]
        if data[:8] == b"!<thin>\n":
            raise Refused(f"{path}: a thin archive")
        if data[:4] == b"\x7fELF":
            kind = struct.unpack_from("<H", data, 16)[0]
            if kind == 1:
                return [Object(path, data)]
            if kind != 3:
                raise Refused(f"{path}: neither an object nor a library")
            if static:
                raise Refused(f"{path}: a shared library in a static link")
            return [Library(path, data, as_needed)]
        if data[:4] == b"BC\xc0\xde":
            raise Refused(f"{path}: code for link-time optimisation")
        files = script_words(data) if b"\0" not in data[:4096] else None
        if files is None:
            raise Refused(f"{path}: neither ELF, an archive, nor a script of GROUP and INPUT alone")
        found = []
        for name, needed in files:
            if name.startswith("-l"):
                name = self.search(name[2:], static)
            elif not os.path.isfile(name):
                name = self.search(":" + os.path.basename(name), static)
            found += self.read(name, static, as_needed or needed, whole)
        return [found]

    def take(self, files):
        """Takes files one by one; those of a list within are a group, gone through until no archive gives more."""
        for file in files:
            if isinstance(file, list):
                members = flat(file)
                self.take([each for each in members if not isinstance(each, Archive)])
                before = -1
                while before != len(self.objects):
                    before = len(self.objects)
                    self.take([each for each in members if isinstance(each, Archive)])
            elif isinstance(file, Archive):
                self.take_members(file)
            elif isinstance(file, Library):
                self.take_library(file)
            else:
                self.take_object(file)

    def take_members(self, archive):
        while names := [name for name in self.unresolved if name in archive.index and archive.index[name] not in archive.taken]:
            for name in names:
                if name in self.unresolved and (member := archive.member(archive.index[name])):
                    self.take_object(member)

    def check_machine(self, file):
        self.machine = self.machine or file.machine
        if file.machine != self.machine:
            raise Refused(f"{file.name}: for {file.machine}, and others for {self.machine}")

    def take_library(self, library):
        self.check_machine(library)
        if library.soname in self.shared_names:
            self.shared_names[library.soname].needed |= library.needed
            return
        self.shared_names[library.soname] = library
        self.libraries.append(library)
        for name, (record, version) in library.defines.items():
            if name not in self.offered:
                self.offered[name] = library
                target = self.table.get(name)
                if target and target.kind == "undefined":
                    self.bind(target, library)

    def bind(self, target, library):
        """A name that an object refers to is the library's."""
        (_, info, _, section, value, size), version = library.defines[target.name]
        target.kind, target.file, target.size, target.value, target.version, target.section = "shared", library, size, value, version, section
        kind = FUNCTION if info & 15 == IFUNC else info & 15
        target.info = info & 0xF0 | kind
        if info >> 4 == UNIQUE:
            target.info = GLOBAL << 4 | kind
        if target.strong:
            library.needed = True
            self.unresolved.pop(target.name, None)

    # Objects

    def drop_groups(self, file):
        """Of groups of one name the first is kept (gABI, "Section Groups")."""
        dropped = set()
        for section in file.sections:
            if section.kind == GROUP:
                flags, *members = (i for i, in struct.iter_unpack("<I", section.bytes()))
                name = file.symbol_name(section.info)
                if file.symbols[section.info][1] & 15 == 3:
                    name = file.section_of(section.info).name
                section.group = name
                if flags & 1 and self.groups.setdefault(name, section) is not section:
                    dropped.update(members, (section.index,))
                else:
                    for member in members:
                        file.sections[member].group = section
            elif section.name.startswith(b".gnu.linkonce.") and self.groups.setdefault(section.name, section) is not section:
                dropped.add(section.index)
        return dropped

    def take_object(self, file):
        self.check_machine(file)
        if any(section.name.startswith(b".gnu.lto_") for section in file.sections) and not any(section.flags & 4 and section.size for section in file.sections):
            raise Refused(f"{file.name}: code for link-time optimisation")
        self.objects.append(file)
        dropped = self.drop_groups(file)
        for i in dropped:
            file.sections[i].group = False
        for i in range(file.locals, len(file.symbols)):
            _, info, other, section, value, size = file.symbols[i]
            name = file.symbol_name(i)
            if b"@" in name:
                raise Refused(f"{file.name}: symbol {name.decode()} has a version")
            target = self.table.get(name)
            if target is None:
                target = self.table[name] = Target(name)
            if target.first is None:
                target.first = target.file, target.index = file, i
                target.info = info if section == UNDEFINED else target.info
                if name in self.offered:
                    self.bind(target, self.offered[name])
            file.globals.append(target)
            if other & 3 and (not target.other & 3 or other & 3 < target.other & 3):
                target.other = other & 3
            is_dropped = section and section < 0xFF00 and section in dropped or section == LONG_INDEX and file.long[i] in dropped
            if section == UNDEFINED or is_dropped:
                self.refer(target, file, i, info)
            elif section == COMMON or info & 15 == COMMON_TYPE:
                self.take_common(target, file, i)
            else:
                self.define(target, file, i)

    def refer(self, target, file, i, info):
        if info >> 4 == WEAK:
            return
        if target.kind == "undefined":
            self.unresolved.setdefault(target.name, file)
            target.info = target.info & 15 | GLOBAL << 4
        elif target.kind == "shared":
            target.file.needed = True
        target.strong = True

    def set(self, target, file, i):
        target.define(file, i)
        self.unresolved.pop(target.name, None)

    def define(self, target, file, i):
        weak = file.symbols[i][1] >> 4 == WEAK
        if target.kind in ("undefined", "shared") or target.kind == "common" and not weak:
            self.set(target, file, i)
        elif target.kind == "defined" and not weak:
            if target.is_weak():
                self.set(target, file, i)
            elif not (self.options.allow_multiple or target.file.symbols[target.index][1] >> 4 == UNIQUE):
                raise Refused(f"{file.name}: symbol {target.name.decode()} is defined in {target.file.name} too")

    def take_common(self, target, file, i):
        _, info, _, _, value, size = file.symbols[i]
        if target.kind == "common":
            target.size, target.align = max(target.size, size), max(target.align, value)
        elif target.kind != "defined" or target.is_weak():
            self.set(target, file, i)
            target.kind, target.align, target.value, target.section = "common", max(value, 1), 0, None
            target.info = info & 0xF0 | (OBJECT if info & 15 == COMMON_TYPE else info & 15)

    # The end

    def finish(self, is_provided):
        """Says which libraries are needed, which names are the linker's own, and which other modules see."""
        self.libraries = [library for library in self.libraries if library.needed]
        seen = {name for library in self.libraries for name in (*library.refers, *library.defines)}
        for name, target in self.table.items():
            if target.kind == "shared" and not target.file.needed:
                target.kind, target.info, (target.file, target.index) = "undefined", WEAK << 4, target.first
            if target.kind == "undefined" and not self.options.partial and is_provided(name):
                target.kind, target.file, target.other, target.info = "linker", None, HIDDEN, GLOBAL << 4
                self.unresolved.pop(name, None)
            exports = self.options.shared or self.options.export_dynamic or name in seen
            target.exported = bool(exports and target.kind in ("defined", "common") and not target.is_hidden() and not self.options.static and not self.options.partial)
