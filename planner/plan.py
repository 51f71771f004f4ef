"""Makes the plan of an executable or a shared object (docs/PLAN.md), in the order of docs/LINKERS.md, "What to decide, in which order"."""
import json
import re
import struct

from elf import ABSOLUTE, ALLOC, CODE, COMMON, DYNSYM, INFO_LINK, NOBITS, NOTE, PROGBITS, RELA, SECTION, STRTAB, SYMTAB, TLS, TLS_TYPE, WRITE, Refused, up
from layout import Layout
from machines import MACHINES
from slots import GOT, GOT_DESCRIPTOR, GOT_OFFSET, GOT_PAIR, STUB, Scan, keep_frames
from symbols import Target

BRANCHES_REACH = 100 << 20
DYNAMIC, HASH, GNU_HASH, VERSYM, VERNEED, RELR = 6, 5, 0x6FFFFFF6, 0x6FFFFFFF, 0x6FFFFFFE, 19
EDGES = re.compile(rb"__(start|stop)_([A-Za-z_]\w*)")
ARRAYS = {b"__%s_%s" % (name, edge): (b"." + name, edge == b"end") for name in (b"preinit_array", b"init_array", b"fini_array") for edge in (b"start", b"end")}
json_text = json.JSONEncoder(separators=(",", ":"), check_circular=False).encode
PLACES = {ABSOLUTE: "absolute", COMMON: "common"}
SLOT_FLAGS = [(GOT, "GOT"), (STUB, "PLT"), (GOT_OFFSET, "GOT_TLS_OFFSET"), (GOT_PAIR, "GOT_TLS_MODULE"), (GOT_DESCRIPTOR, "GOT_TLS_DESCRIPTOR")]


def gnu_hash(name):
    """The hash of a name in GNU's table (GNU, "DT_GNU_HASH")."""
    h = 5381
    for byte in name:
        h = (33 * h + byte) & 0xFFFFFFFF
    return h


def list_text(lists):
    """The text of lists that are one list of a plan, without its brackets."""
    separator = ""
    for each in lists:
        if each:
            yield separator + json_text(each)[1:-1]
            separator = ","


# the names that the linker defines where an object refers to them, and their values
OWN = {
    b"_GLOBAL_OFFSET_TABLE_": lambda plan: plan.got_base,
    b"_DYNAMIC": lambda plan: plan.layout.edge(b".dynamic", False),
    b"__GNU_EH_FRAME_HDR": lambda plan: plan.layout.edge(b".eh_frame_hdr", False),
    # offsets in an x86-64 executable count from the thread pointer, in others from the start of the data
    b"_TLS_MODULE_BASE_": lambda plan: 0 if not plan.layout.thread else plan.layout.thread[0] if plan.options.shared or plan.machine.branches else up(*plan.layout.thread[1:]),
    **dict.fromkeys((b"__ehdr_start", b"__executable_start"), lambda plan: plan.layout.file_header.address),
    **dict.fromkeys((b"etext", b"_etext", b"__etext"), lambda plan: max((output.address + output.size for output in plan.layout.outputs if output.flags & CODE), default=0)),
    **dict.fromkeys((b"edata", b"_edata", b"__bss_start", b"__bss_start__"), lambda plan: plan.layout.edge(b".bss", False) or plan.layout.image_end),
    **dict.fromkeys((b"end", b"_end", b"__end__", b"__bss_end__", b"_bss_end__"), lambda plan: plan.layout.image_end),
    b"__rela_iplt_start": lambda plan: plan.layout.edge(b".rela.plt", False),
    b"__rela_iplt_end": lambda plan: plan.layout.edge(b".rela.plt", True),
}


def provided_names(options, objects):
    """Says of a name whether the linker defines it."""
    sections = {section.name for file in objects for section in file.sections if section.flags & ALLOC}
    absent = {b"__rela_iplt_start", b"__rela_iplt_end"} if options.kind != "static" else {b"_DYNAMIC"}

    def is_provided(name):
        edge = EDGES.fullmatch(name)
        return name in OWN and name not in absent or name in ARRAYS or bool(edge and edge[2] in sections)

    return is_provided


class Plan:
    def __init__(self, options, resolver):
        self.options, self.resolver, self.machine = options, resolver, MACHINES[resolver.machine]
        self.objects, self.libraries = resolver.objects, resolver.libraries
        self.layout = Layout(options, self.machine)
        self.scan = Scan(resolver, self.machine, options)
        self.thunks, self.block_of = [], {}

    def make(self):
        self.layout.place_inputs(self.objects)
        # the stack may be executed if an object says so (`.note.GNU-stack` with SHF_EXECINSTR)
        stacks = (section.flags & CODE for file in self.objects for section in file.sections if section.name == b".note.GNU-stack")
        self.execstack = any(stacks) if self.options.execstack is None else self.options.execstack
        self.keep_frames()
        self.scan.scan()
        if self.scan.missing:
            raise Refused("\n".join(f"{file.name}: undefined reference to {name.decode()}" for name, file in [*self.scan.missing.items()][:20]))
        self.place_commons_and_copies()
        self.number_symbols()
        self.place_thunks()
        self.choose_dynamic_symbols()
        self.choose_symtab()
        self.add_tables()
        layout = self.layout
        layout.arrange()
        base = 0 if self.options.moves else self.machine.image_base
        # addresses depend on the size of the program headers, and their number on no address
        layout.give_addresses(base)
        layout.program_headers.size = 56 * len(layout.segments(self.execstack))
        layout.give_addresses(base)
        self.give_slots()
        return self.text()

    # ---- what is kept

    def keep_frames(self):
        sections = [section for file in self.objects for section in file.sections if section.slot == "frame"]
        size = sum(keep_frames(section) for section in sections)
        if size:
            self.layout.frames = self.layout.output(b".eh_frame", PROGBITS, ALLOC).part("eh_frame", size + 4, 8)
            if self.options.eh_frame_hdr:
                self.layout.output(b".eh_frame_hdr", PROGBITS, ALLOC).part("eh_frame_hdr", 12 + 8 * sum(section.fdes for section in sections), 4)

    def place_commons_and_copies(self):
        """Room in zeroed data for what no section has: common symbols, and copies of libraries' data."""
        for target in self.scan.copies:
            target.align = target.file.alignment(target.value, target.section)
        for target in [target for target in self.resolver.table.values() if target.kind == "common"] + self.scan.copies:
            name, flags = (b".tbss", ALLOC | WRITE | TLS) if target.type() == TLS_TYPE else (b".bss", ALLOC | WRITE)
            part = self.layout.output_of((name, flags, True, False), name, NOBITS, flags).parts[0]
            part.align = max(part.align, target.align)
            target.alias = up(part.size, target.align), part
            part.size = target.alias[0] + target.size

    # ---- symbols

    def number_symbols(self):
        """One list of symbols: those of the objects as they are, those of each library that are used, and the linker's own."""
        at = 0
        for file in self.objects:
            file.first_symbol, at = at, at + len(file.symbols)
        for target in {**dict.fromkeys(self.resolver.table.values()), **dict.fromkeys(self.scan.targets.values())}:
            if target.kind in ("defined", "common", "undefined") and target.file:
                target.plan = target.file.first_symbol + target.index
            elif target.kind == "shared" and target.needs:
                target.file.used.append(target)
        for library in self.libraries:
            library.first_symbol = at
            for target in library.used:
                target.plan, at = at, at + 1
        self.own = [target for target in self.resolver.table.values() if target.kind == "linker"]
        # the other names of what is copied mean the copy too
        for target in self.scan.copies:
            for name in target.file.at_value[target.value]:
                (_, info, _, section, _, size), version = target.file.defines[name]
                known = self.resolver.table.get(name)
                if name != target.name and section == target.section and not (known and (known.kind != "shared" or known.needs)):
                    other = Target(name)
                    other.kind, other.info, other.size, other.exported, other.file, other.version, other.joined = "linker", info, size, True, target.file, version, target
                    self.own.append(other)
        for target in self.own:
            if target.joined:
                target.alias = target.joined.alias
        self.first_own = at
        for target in self.own:
            target.plan, at = at, at + 1

    def place_thunks(self):
        """On AArch64 a branch reaches 128 MiB: if there is more code, files within reach of each other have a block of thunks after them."""
        code = [output for output in self.layout.outputs if output.flags & CODE]
        if not self.machine.branches or sum(part.size for output in code for part in output.parts) < BRANCHES_REACH:
            return
        part = self.layout.output_named(b".text").parts[0]
        files, size = {}, BRANCHES_REACH
        for section in part.inputs:
            files.setdefault(section.file, []).append(section)
        for file, sections in files.items():
            own = sum(section.size + section.align for section in sections)
            if size + own > BRANCHES_REACH:
                self.thunks.append(({}, []))
                size = 0
            size += own
            self.block_of[file] = len(self.thunks) - 1
            self.thunks[-1][1].append(file)
        for file in self.objects:
            block = self.block_of.setdefault(file, 0)
            for section in file.sections:
                if section.slot == "loaded" and section.flags & CODE:
                    home = block if section.part is part else 0
                    for _, info, addend in section.records():
                        if info & 0xFFFFFFFF in self.machine.branches and info >> 32 >= file.locals and not addend:
                            target = file.globals[(info >> 32) - file.locals]
                            near = target.section is not None and target.kind == "defined" and target.section.part is part and self.block_of.get(target.file) == home and not target.needs & STUB
                            if not near and target.plan is not None and (target.kind != "undefined" or target.needs & STUB):
                                self.thunks[home][0][target.plan] = target
        part.inputs, part.size = [], 0
        for index, (targets, members) in enumerate(self.thunks):
            for file in members:
                for section in files[file]:
                    part.add(section)
            start = up(part.size, 4)
            part.size = start + 12 * len(targets) if targets else part.size
            self.thunks[index] = sorted(targets.items()), members[-1], start
        self.thunk_part = part

    def choose_dynamic_symbols(self):
        table = self.resolver.table.values()
        self.undefined = sorted((target for target in table if target.kind == "undefined" and self.scan.is_left_to_loader(target) and target.needs), key=lambda target: target.plan)
        for library in self.libraries:
            self.undefined += [target for target in library.used if not target.copy and not target.canonical]
        listed = [target for target in table if target.exported and target.kind in ("defined", "common")] + [target for target in self.own if target.exported]
        listed += [target for library in self.libraries for target in library.used if target.copy or target.canonical]
        self.buckets = max(1, len(listed) // 3)
        self.listed = sorted(listed, key=lambda target: gnu_hash(target.name) % self.buckets)
        for position, target in enumerate(self.undefined + self.listed, 1):
            target.dynsym = position
        # the versions that are needed of each library, numbered from 2 on
        self.version_needs, number = {}, 2
        for target in self.undefined + self.listed:
            if target.version and target.file in self.libraries:
                versions = self.version_needs.setdefault(target.file, {})
                if target.version not in versions:
                    versions[target.version], number = number, number + 1
                target.listed_version = versions[target.version]
        # a program with packed addresses needs this version of glibc, so that a loader without them refuses it
        for library in self.libraries:
            if self.options.relr and b"GLIBC_ABI_DT_RELR" in library.version_names.values():
                self.version_needs.setdefault(library, {})[b"GLIBC_ABI_DT_RELR"] = number
                number += 1

    def is_emitted(self, file, i):
        """Whether `.symtab` has symbol i of an object: by its name, unless what it is in is left out."""
        at, info, _, section, _, _ = file.symbols[i]
        where = file.section_of(i)
        if not at or not section or info & 15 == SECTION or where is not None and where.slot == "discard":
            return False
        if i < file.locals:
            return not file.strings.startswith(b".L", at)
        target = file.globals[i - file.locals]
        return target.is_at(file, i) and target.is_own()

    def choose_symtab(self):
        """Which symbols `.symtab` has, and the bytes of its parts: those of local symbols, of others, and of names."""
        self.has_symtab = self.options.strip != "all"
        local, others = [b""], []
        for file in self.objects:
            file.emitted = bytearray(self.has_symtab and self.is_emitted(file, i) for i in range(len(file.symbols)))
            for i in (i for i, is_emitted in enumerate(file.emitted) if is_emitted):
                (local if i < file.locals or file.globals[i - file.locals].is_hidden() else others).append(file.symbol_name(i))
        for target in self.own:
            (local if target.is_hidden() else others).append(target.name)
        local += [b"__wild_thunk_" + target.name for targets, _, _ in self.thunks for _, target in targets]
        self.symtab_sizes = 24 * len(local), 24 * len(others), sum(len(name) + 1 for name in local + others)

    # ---- tables

    def add_tables(self):
        """What the writer makes. A part of which the output has no bytes is left out later."""
        options, libraries, sizes = self.options, self.libraries, self.scan.count()
        names, count = [target.name for target in self.undefined + self.listed], 1 + len(self.undefined) + len(self.listed)
        names += [library.soname for library in libraries] + [text for text in (options.soname, options.rpath) if text is not None]
        names += [name for library, versions in self.version_needs.items() for name in (library.soname, *versions)]
        self.bloom = 1
        while 64 * self.bloom < 10 * len(self.listed):
            self.bloom *= 2
        if not options.has_dynamic and (sizes["rela_dyn_general"] or sizes["rela_dyn_relative"]):
            raise Refused("a static output has no entries for a loader")
        self.properties = self.merged_properties()
        self.got_header = int(not sizes["got"] and b"_GLOBAL_OFFSET_TABLE_" in self.resolver.table)
        has_gnu, has_sysv = (options.has_dynamic and options.hash_style in (style, "both") for style in ("gnu", "sysv"))
        versions = [16 + 16 * len(versions) for versions in self.version_needs.values()]
        rows = [
            (b".interp", PROGBITS, ALLOC, 0, None, ("interp", len(options.interpreter) + 1 if options.interpreter and options.has_loader and not options.shared else 0, 1)),
            (b".note.gnu.property", NOTE, ALLOC, 0, None, ("property", 16 + 16 * len(self.properties) if self.properties else 0, 8)),
            (b".note.gnu.build-id", NOTE, ALLOC, 0, None, ("build_id", 0 if options.build_id is None else 16 + (len(options.build_id) or 20), 4)),
            (b".dynsym", DYNSYM, ALLOC, 24, b".dynstr", ("dynsym", options.has_dynamic * 24 * count, 8)),
            (b".dynstr", STRTAB, ALLOC, 0, None, ("dynstr", options.has_dynamic * (1 + sum(len(name) + 1 for name in names)), 1)),
            (b".gnu.hash", GNU_HASH, ALLOC, 0, b".dynsym", ("gnu_hash", has_gnu * (16 + 8 * self.bloom + 4 * (self.buckets + len(self.listed))), 8)),
            (b".hash", HASH, ALLOC, 4, b".dynsym", ("sysv_hash", has_sysv * (8 + 4 * (self.buckets + count)), 8)),
            (b".gnu.version", VERSYM, ALLOC, 2, b".dynsym", ("gnu_version", bool(versions) * 2 * count, 2)),
            (b".gnu.version_r", VERNEED, ALLOC, 0, b".dynstr", ("gnu_version_r", sum(versions), 8)),
            (b".rela.dyn", RELA, ALLOC, 24, b".dynsym", *((role, sizes[role], 8) for role in ("rela_dyn_relative", "rela_dyn_general"))),
            (b".rela.plt", RELA, ALLOC | INFO_LINK, 24, b".dynsym", ("rela_plt", sizes["rela_plt"], 8)),
            (b".plt.got", PROGBITS, ALLOC | CODE, 16, None, ("plt_got", sizes["plt_got"], 16)),
            (b".relr.dyn", RELR, ALLOC, 8, None, ("relr_dyn", sizes["relr_dyn"], 8)),
            (b".got", PROGBITS, ALLOC | WRITE, 8, None, ("got", sizes["got"] + 8 * self.got_header, 8), ("got_relr", sizes["got_relr"], 8)),
            (b".dynamic", DYNAMIC, ALLOC | WRITE, 16, b".dynstr", ("dynamic", options.has_dynamic * 16 * self.dynamic_entries(sizes), 8)),
        ]
        if self.has_symtab:
            local, others, text = self.symtab_sizes
            rows += [(b".symtab", SYMTAB, 0, 24, b".strtab", ("symtab_local", local, 8), ("symtab_global", others, 8)), (b".strtab", STRTAB, 0, 0, None, ("strtab", text, 1))]
        for name, kind, flags, entry, link, *parts in [*rows, (b".shstrtab", STRTAB, 0, 0, None, ("shstrtab", 1, 1))]:
            output = self.layout.output(name, kind, flags, entry, link)
            for role, size, align in parts:
                last = output.part(role, size, align)
        last.size += sum(len(output.name) + 1 for output in self.layout.outputs if any(part.size or part.is_kept for part in output.parts))
        if len(self.layout.outputs) > 0xFF00:
            raise Refused("more output sections than the planner counts")

    def dynamic_entries(self, sizes):
        """The entries of the dynamic section (docs/LINKERS.md, "The entries of `dynamic`")."""
        options, count = self.options, 7
        for name, entries in (b".init", 1), (b".fini", 1), (b".init_array", 2), (b".fini_array", 2), (b".preinit_array", 2):
            output = self.layout.output_named(name)
            count += entries * bool(output and output.kind != NOBITS and any(part.size for part in output.parts))
        count += 4 * bool(sizes["rela_plt"]) + 3 * bool(sizes["rela_dyn_relative"] or sizes["rela_dyn_general"]) + bool(sizes["rela_dyn_relative"]) + 3 * bool(sizes["relr_dyn"])
        count += len(self.libraries) + (options.rpath is not None) + (options.soname is not None) + (not options.shared)
        return count + (2 if options.hash_style == "both" else 1) + 3 * bool(self.version_needs)

    def merged_properties(self):
        """Properties of the program: of one sort those bits that all objects have, of another those that any has (x86-64 psABI, "Program Property")."""
        common, any_of = 0xFFFFFFFF, 0
        for file in self.objects:
            found = {}
            for data in (section.bytes() for section in file.sections if section.name == b".note.gnu.property" and section.size):
                at, end = 16, 16 + struct.unpack_from("<I", data, 4)[0]
                while at + 8 <= end:
                    kind, length = struct.unpack_from("<II", data, at)
                    if length == 4:
                        found[kind] = struct.unpack_from("<I", data, at + 8)[0]
                    at += 8 + up(length, 8)
            common &= found.get(self.machine.own_property, 0)
            any_of |= found.get(self.machine.other_property, 0)
        return [{"ptype": kind, "value": value} for kind, value in ((self.machine.own_property, common), (self.machine.other_property, any_of)) if value and kind]

    # ---- slots and values

    def part_of(self, role):
        return next((part for part in self.layout.parts if part.role == role), None)

    def give_slots(self):
        """Each slot is the next free word, each stub the next free one, in the order of the symbols."""
        got, block, stubs = self.part_of("got"), self.part_of("got_relr"), self.part_of("plt_got")
        packed = block.address if block else 0
        word = got.address + 16 * self.scan.tlsld + 8 * self.got_header if got else 0
        stub = stubs.address if stubs else 0
        for target in sorted(self.scan.targets.values(), key=lambda target: target.plan):
            count = self.scan.words(target)
            if self.scan.is_in_block(target):
                target.got, packed = packed, packed + 8
            elif count:
                target.got, word = word, word + 8 * count
            if target.needs & STUB:
                target.plt, stub = stub, stub + 16
        self.got_base = (got or block).address if got or block else 0

    def value_of(self, target):
        """The address of a target."""
        if target.alias:
            return target.alias[1].address + target.alias[0]
        if target.kind in ("shared", "undefined"):
            return target.plt or 0
        if target.kind == "linker":
            return self.own_value(target.name)
        if target.section is not None:
            return target.section.place_of(target.value)
        return target.value

    def own_value(self, name):
        if name in ARRAYS:
            return self.layout.edge(*ARRAYS[name])
        if name in OWN:
            return OWN[name](self)
        edge = EDGES.fullmatch(name)
        return self.layout.edge(edge[2], edge[1] == b"stop")

    # ---- the text

    def flags(self, target):
        scan, needs = self.scan, target.needs
        flags = [name for bit, name in SLOT_FLAGS if needs & bit]
        if target.kind == "shared" or target.kind == "undefined" and scan.is_left_to_loader(target):
            flags.append("DYNAMIC")
        elif not scan.is_interposable(target):
            flags.append("NON_INTERPOSABLE")
        if target.exported:
            flags.append("EXPORT_DYNAMIC")
        if target.kind == "undefined" and not scan.is_left_to_loader(target):
            flags += ["UNDEFINED_WEAK", "ABSOLUTE"]
        if target.absolute:
            flags.append("ABSOLUTE")
        if target.is_ifunc():
            flags += ["IFUNC"] + ["IFUNC_GOT_FOR_ADDRESS"] * scan.has_second(target)
        if target.canonical:
            flags += ["CANONICAL_PLT"] + ["CANONICAL_PLT_GOT_FOR_ADDRESS"] * scan.has_second(target)
        if target.copy:
            flags.append("COPY_RELOCATION")
        if target.is_own() and target.is_hidden():
            flags.append("DOWNGRADE_TO_LOCAL")
        return flags

    def full_symbol(self, target, place, emit):
        """A symbol that has more than its place."""
        symbol = {"name": target.name.hex(), "info": target.info, "other": target.other, "size": target.size, "place": place, "flags": self.flags(target), "emit": bool(emit)}
        if isinstance(place, dict) and "section" in place or target.absolute:
            symbol["value"] = target.value
        if target.kind == "shared":
            symbol["version"] = target.listed_version
        given = {"raw_value": self.value_of(target), "dynsym": target.dynsym, "got": target.got, "plt": target.plt}
        symbol["resolution"] = {name: value for name, value in given.items() if value is not None}
        return symbol

    def symbol(self, file, i):
        """Symbol i of an object."""
        at, info, other, section, value, size = file.symbols[i]
        where, emit, is_local = file.section_of(i), file.emitted[i], i < file.locals
        target = file.local_targets.get(i) if is_local else file.globals[i - file.locals]
        place = {"section": where.index} if where else PLACES.get(section, "undefined")
        if not is_local and (not target.is_at(file, i) or target.kind == "shared"):
            # another symbol defines it, or none
            symbol = {"name": target.name.hex(), "info": info, "place": place if where else "undefined"}
            return {**symbol, "flags": ["NON_INTERPOSABLE"]} if target.plan is None else {**symbol, "definition": target.plan}
        if target is not None and (target.needs or target.dynsym is not None or target.kind != "defined"):
            return self.full_symbol(target, place, emit)
        flags = ["NON_INTERPOSABLE"] + ["ABSOLUTE"] * (section == ABSOLUTE) + ["DOWNGRADE_TO_LOCAL"] * (target is not None and target.is_hidden())
        symbol = {"name": "" if is_local and not emit else file.symbol_name(i).hex(), "info": info, "place": place, "flags": flags, "value": value, "size": size, "other": target.other if target else other, "emit": bool(emit)}
        # a reference of another file needs the address, and one into merged strings that of the string
        if where and info & 15 != SECTION and (target is not None or where.slot == "merge") and where.slot != "discard":
            symbol["resolution"] = {"raw_value": where.place_of(value)}
        elif section == ABSOLUTE:
            symbol["resolution"] = {"raw_value": value}
        return symbol

    def section(self, file, section):
        """An input section."""
        if section.slot == "discard":
            return {"slot": "discard"}
        part = self.layout.frames if section.slot == "frame" else section.part
        made = {"slot": section.slot, "name": section.name.hex(), "size": section.size, "flags": section.flags & 0xFFFFFFFF, "part": part.index, "address": part.address + section.position, "reversed": section.reversed}
        if section.kind == NOBITS:
            made["nobits"] = True
        elif section.slot == "merge":
            made["strings"] = [{"offset": start, "address": part.address + place} for start, place in zip(*section.strings)]
        else:
            made["bytes"] = section.bytes().hex()
            records = sorted(section.records()) if section.slot == "frame" else section.records()
            made["relocations"] = [
                {"offset": offset, "number": info & 0xFFFFFFFF, "symbol": file.first_symbol + (info >> 32) if info >> 32 else None, "addend": addend} for offset, info, addend in records
            ]
        return made

    def output_section(self, output):
        """A section of the output."""
        link = next((other.index for other in self.layout.outputs if other.name == output.link), 0)
        return {"name": output.name.hex(), "kind": output.kind, "flags": output.flags, "address": output.address, "offset": output.offset, "size": output.size, "link": link, "align": output.align(), "entsize": output.entry}

    def shape(self):
        """What each plan has, of an object too."""
        page = self.machine.page
        return {
            "machine": self.resolver.machine, "kind": self.options.kind, "page_size": page,
            "parts": [
                {"role": part.role, "section": part.output.index if part.output else 0, "offset": part.offset, "address": part.address, "size": part.size, "align": part.align if self.options.partial else min(part.align, page)}
                for part in self.layout.parts
            ],
            "sections": [{}] + [self.output_section(output) for output in self.layout.outputs],
        }

    def head(self):
        """The plan without symbols and files."""
        options, layout = self.options, self.layout
        own_options = {
            "relax": True, "relr": options.relr, "eh_frame_hdr": bool(options.eh_frame_hdr and layout.frames), "terminator": layout.frames is not None, "strip_all": not self.has_symtab,
            "versions": bool(options.has_dynamic and self.version_needs), "new_dtags": True, "execstack": self.execstack,
            "static_tls": options.shared and any(target.needs & GOT_OFFSET for target in self.scan.targets.values()), "origin": bool(options.rpath and b"$ORIGIN" in options.rpath),
        }
        for name in "soname", "rpath":
            if getattr(options, name) is not None and options.has_dynamic:
                own_options[name] = getattr(options, name).hex()
        names = "kind", "flags", "offset", "address", "physical", "file_size", "mem_size", "align"
        plan = {
            **self.shape(), "got_base": self.got_base, "got_header": self.got_header, "options": own_options, "properties": self.properties,
            "segments": [dict(zip(names, (kind, flags, offset, address, address, *rest))) for kind, flags, offset, address, *rest in layout.segments(self.execstack)],
            "merged": [{"part": part.index, "strings": [(string + b"\0").hex() for string in part.strings]} for part in layout.merges],
        }
        if layout.thread:
            plan["tls"] = dict(zip(("start", "end", "align"), layout.thread))
        if self.scan.tlsld:
            plan["tlsld"] = self.got_base + 8 * self.got_header
        if self.part_of("interp"):
            plan["interp"] = (options.interpreter + b"\0").hex()
        if options.has_dynamic:
            plan["dynsyms"] = [{"symbol": target.plan, "name": target.name.hex(), "version": target.listed_version} for target in self.listed]
            if self.part_of("gnu_hash"):
                plan["gnu_hash"] = {"buckets": self.buckets, "bloom_count": self.bloom, "bloom_shift": 26, "base": 1 + len(self.undefined)}
            if self.part_of("sysv_hash"):
                plan["sysv_hash"] = {"buckets": self.buckets}
        if self.thunks:
            plan["primary_part"] = self.thunk_part.index
            plan["thunk_blocks"] = [
                [{"symbol": symbol, "address": self.thunk_part.address + start + 12 * i} for i, (symbol, _) in enumerate(targets)] for targets, _, start in self.thunks
            ]
        if layout.sorted:
            numbers = {file: i for i, file in enumerate(self.objects, 1)}
            plan["sorted"] = [{"group": 0, "file": numbers[section.file], "section": section.index} for section in layout.sorted]
        entry = self.resolver.table.get(options.entry)
        if entry is not None and entry.plan is not None:
            plan["entry"] = {"symbol": entry.plan}
        return plan

    def files(self):
        """The files of the one group."""
        yield {"role": "prelude"}
        for file in self.objects:
            made = {"role": "object", "first_symbol": file.first_symbol, "symbol_count": len(file.symbols), "sections": [self.section(file, section) for section in file.sections]}
            if self.thunks:
                block = self.block_of.get(file, 0)
                made.update(thunk_block=block, owns_thunk_block=self.thunks[block][1] is file)
            yield made
        if self.options.has_dynamic:
            last = [library for library in self.libraries if library in self.version_needs][-1:]
            for library in self.libraries:
                made = {"role": "dynamic", "first_symbol": library.first_symbol, "symbol_count": len(library.used), "lib_name": library.soname.hex(), "copies": [target.plan for target in library.used if target.copy]}
                if library in self.version_needs:
                    versions = [{"name": name.hex(), "index": index} for name, index in self.version_needs[library].items()]
                    made["verneed"] = {"last": library in last, "versions": versions}
                yield made
        if self.own:
            yield {"role": "synthetic", "first_symbol": self.first_own, "symbol_count": len(self.own)}
        yield {"role": "epilogue"}

    def symbols(self):
        """All symbols, in a list for each file."""
        for file in self.objects:
            yield [self.symbol(file, i) for i in range(len(file.symbols))]
        yield [self.full_symbol(target, "absolute", False) for library in self.libraries for target in library.used]
        outputs = [output for output in self.layout.outputs if output.flags & ALLOC and not output.flags & TLS]
        for target in self.own:
            # in the section that has its address, or begins before it
            place = max((output for output in outputs if output.address <= self.value_of(target)), key=lambda output: output.index, default=outputs[0])
            yield [self.full_symbol(target, {"output": place.index}, self.has_symtab)]

    def text(self):
        """The plan, in pieces. A file's symbols and sections are made when their piece is: all at once would not fit the memory."""
        yield json_text(self.head())[:-1] + ',"symbols":['
        yield from list_text(self.symbols())
        yield '],"groups":[{"part_sizes":' + json_text([part.size for part in self.layout.parts]) + ',"files":['
        yield from list_text([file] for file in self.files())
        yield "]}]"
