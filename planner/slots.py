"""Which slots, stubs, copies and entries the references need (docs/SLOTS.md), and how many bytes of each table that is.

A reference that the writer rewrites under `relax` needs no slot (docs/REWRITES.md). Where that is not sure from the bytes a slot is given: one too many
does no harm.
"""
from elf import ALLOC, CODE, FUNCTION, IFUNC, NOBITS, NOTYPE, TLS_TYPE, WRITE, Refused
from machines import CALL, DESCRIPTOR, DISTANCE, NARROW, OFFSET_SLOT, OWN_PAIR, PAIR, RELAXED, SIZE, SLOT, WHOLE
from symbols import Target

# what is needed, one bit each
GOT, STUB, GOT_OFFSET, GOT_PAIR, GOT_DESCRIPTOR, ADDRESS, USED, ENTRY = (1 << i for i in range(8))


class Scan:
    """Goes through the references of what is kept."""

    def __init__(self, resolver, machine, options):
        self.resolver, self.machine, self.options = resolver, machine, options
        self.targets, self.tlsld = {}, False
        self.relative = self.general = self.plt_entries = 0
        self.copies, self.missing, self.packed = [], {}, {}

    # ---- what a symbol is

    def target(self, file, i):
        """What symbol i of a file means."""
        if i >= file.locals:
            return file.globals[i - file.locals]
        target = file.local_targets.get(i)
        if target is None:
            target = file.local_targets[i] = Target(file.symbol_name(i))
            target.define(file, i)
            target.other = file.symbols[i][2]
        return target

    def is_lookup(self, target):
        """Whether a loader looks the symbol up: another module's definition may count."""
        return target.kind == "shared" or target.kind == "undefined" and self.is_left_to_loader(target) or self.is_interposable(target)

    def is_interposable(self, target):
        return self.options.shared and target.exported and target.other & 3 == 0 and target.kind in ("defined", "common") and not self.options.symbolic

    def is_chosen_here(self, target):
        """Whether the output's own resolver says where the symbol is. One that a loader looks up is as any function: the loader runs the resolver."""
        return target.is_ifunc() and not self.is_lookup(target)

    def is_left_to_loader(self, target):
        """Whether a name that nothing defines is left to the loader. In a program it is 0, as with `-z nodynamic-undefined-weak` of GNU ld."""
        return self.options.shared and target.kind == "undefined" and target.other & 3 == 0

    def moves(self, target):
        """Whether the symbol's address moves with the base."""
        return self.options.moves and not target.absolute and target.kind != "undefined"

    # ---- references

    def scan(self):
        """All references; once more where other names of a symbol that is copied are referred to too: these are the copy's."""
        for file in self.resolver.objects:
            for section in file.sections:
                if section.relocations is not None and section.flags & ALLOC and section.slot in ("loaded", "sorted", "frame") and section.kind != NOBITS:
                    self.scan_section(file, section)
        if self.join_names():
            for target in self.targets.values():
                target.needs, target.copy, target.canonical = 0, False, False
            self.__init__(self.resolver, self.machine, self.options)
            self.scan()

    def join_names(self):
        joined = False
        for target in self.copies:
            for name in target.file.at_value[target.value]:
                other = self.resolver.table.get(name)
                if other and other is not target and other.kind == "shared" and other.file is target.file and target.kind == "shared" and other.needs:
                    other.kind, other.exported, other.joined, joined = "linker", True, target, True
        return joined

    def scan_section(self, file, section):
        sorts, first, symbols = self.machine.sorts, file.locals, file.symbols
        moves, executable, is_call = self.options.moves, not self.options.shared, False
        for offset, info, addend in section.records():
            sort = sorts.get(info & 0xFFFFFFFF)
            if sort is None or is_call:
                if info & 0xFFFFFFFF in self.machine.tiny:
                    raise Refused(f"{file.name}: section {section.name.decode()} has R_AARCH64_{self.machine.tiny[info & 0xFFFFFFFF]}, of the tiny code model: compile with -mcmodel=small")
                is_call = False
                continue
            i = info >> 32
            if i < first:
                # a local symbol has an address in the output, so most references need nothing
                if sort == DISTANCE or sort == NARROW or sort == CALL or sort == SIZE:
                    if symbols[i][1] & 15 != IFUNC:
                        continue
                elif sort == WHOLE and symbols[i][1] & 15 != IFUNC:
                    if moves and symbols[i][3] != 0xFFF1:
                        self.count_relative(file, section, offset)
                    continue
            elif sort == CALL or sort == DISTANCE:
                target = file.globals[i - first]
                if target.kind == "defined" and target.info & 15 != IFUNC and (executable or not self.is_interposable(target)):
                    continue
            target = self.target(file, i)
            if sort == OWN_PAIR:
                # the next relocation is the call of `__tls_get_addr`, which is rewritten with this one
                is_call = executable
                self.tlsld = self.tlsld or not executable
            elif sort == PAIR and executable and self.machine.number == 62:
                is_call = True
                if self.is_lookup(target):
                    self.need(target, GOT_OFFSET)
            else:
                self.refer(file, section, target, sort, offset)

    def count_relative(self, file, section, offset):
        if section.kept is not None and not any(start <= offset < end for start, end in section.kept):
            return
        if not section.flags & WRITE:
            raise Refused(f"{file.name}: section {section.name.decode()} is not writable, and an address in it moves: compile with -fPIC or -fPIE")
        section.part.align = max(section.part.align, 2)
        if self.options.relr and (section.position + offset) % 2 == 0:
            self.packed.setdefault(section, []).append(offset)
        else:
            self.relative += 1

    def need(self, target, bits):
        if not target.needs:
            self.targets[id(target)] = target
        target.needs |= bits | USED

    def refer(self, file, section, target, sort, offset):
        lookup, executable, writable = self.is_lookup(target), not self.options.shared, section.flags & WRITE
        if target.kind == "undefined" and target.strong and (not lookup or self.options.no_undefined):
            self.missing.setdefault(target.name, file)
        if target.kind == "undefined" and not lookup:
            # absent, and 0: slots have a 0 that does not move
            if sort == SLOT or sort == RELAXED and not self.is_rewritten(section, offset):
                self.need(target, GOT)
            elif sort == OFFSET_SLOT:
                self.need(target, GOT_OFFSET)
            return
        self.need(target, 0)
        if self.is_chosen_here(target):
            if sort in (SLOT, RELAXED):
                self.need(target, GOT | STUB | ADDRESS)
            elif sort == WHOLE and self.options.moves and writable:
                self.general += 1
            else:
                self.need(target, GOT | STUB)
                if sort == WHOLE and self.options.moves:
                    self.count_relative(file, section, offset)
            return
        if sort == WHOLE:
            if lookup and writable:
                self.need(target, ENTRY)
                self.general += 1
                return
            if self.moves(target):
                self.count_relative(file, section, offset)
            if target.kind == "shared":
                self.take_address(target)
        elif sort in (NARROW, DISTANCE):
            if target.kind == "shared" and executable:
                self.take_address(target)
        elif sort == CALL:
            if lookup:
                self.need(target, GOT | STUB)
        elif sort == SLOT or sort == RELAXED and (lookup or not self.is_rewritten(section, offset)):
            self.need(target, GOT | ADDRESS)
        elif sort == OFFSET_SLOT:
            if lookup or not executable or not self.is_offset_rewritten(section, offset):
                self.need(target, GOT_OFFSET)
        elif sort == PAIR:
            self.need(target, GOT_PAIR)
        elif sort == DESCRIPTOR:
            if not executable:
                self.need(target, GOT_DESCRIPTOR)
            elif lookup:
                self.need(target, GOT_OFFSET)
        elif sort == SIZE and lookup:
            self.need(target, ENTRY)
            self.general += 1

    def is_rewritten(self, section, offset):
        """Whether the writer has no use for the slot of an own symbol: a call, a jump or a `mov` of x86-64."""
        if not section.flags & CODE or offset < 2:
            return False
        before = section.bytes()[offset - 2 : offset]
        return before in (b"\xff\x15", b"\xff\x25") or before[0] == 0x8B and before[1] & 0xC7 == 5

    def is_offset_rewritten(self, section, offset):
        if self.machine.number != 62 or offset < 3:
            return False
        before = section.bytes()[offset - 3 : offset]
        return before[0] in (0x48, 0x4C) and before[1] in (0x8B, 0x03) and before[2] & 0xC7 == 5

    def take_address(self, target):
        """Code of the program has the address of another module's symbol as a number: data are copied, a function has its stub for its address."""
        if target.type() == FUNCTION or target.type() == NOTYPE and not target.size:
            target.canonical = True
            self.need(target, GOT | STUB)
        elif target.type() != TLS_TYPE and not target.copy:
            target.copy = True
            self.need(target, ENTRY)
            self.copies.append(target)
            self.general += 1

    # ---- what tables need

    def words(self, target):
        """The words of a symbol's slots."""
        needs = target.needs
        return bool(needs & GOT_OFFSET) + 2 * bool(needs & GOT_PAIR) + 2 * bool(needs & GOT_DESCRIPTOR) + bool(needs & GOT) + self.has_second(target)

    def has_second(self, target):
        """A second slot for the address, after the one that the stub uses."""
        return bool(target.needs & ADDRESS and target.needs & GOT and (target.canonical or self.is_chosen_here(target) and target.needs & STUB))

    def is_in_block(self, target):
        """Whether the slot is one of those whose addresses are packed together."""
        return bool(self.options.relr and target.needs & GOT and self.moves(target) and not target.is_ifunc() and not target.canonical and not self.is_lookup(target))

    def count(self):
        """Adds the entries of the slots; the sizes of the tables of slots and entries."""
        shared, moves = self.options.shared, self.options.moves
        got, block = 2 * self.tlsld, 0
        self.general += bool(self.tlsld and shared)
        packed = sum(packed_words(offsets) for offsets in self.packed.values())
        for target in self.targets.values():
            needs, lookup = target.needs, self.is_lookup(target) and not target.copy
            got += self.words(target) * (not self.is_in_block(target))
            if needs & GOT_OFFSET:
                self.general += lookup or shared
            if needs & GOT_PAIR:
                self.general += (shared or target.kind == "shared") + lookup
            self.general += bool(needs & GOT_DESCRIPTOR)
            if needs & GOT:
                if target.canonical or self.is_chosen_here(target):
                    self.plt_entries += 1
                elif lookup or target.copy:
                    self.general += 1
                elif self.is_in_block(target):
                    block += 1
                elif self.moves(target):
                    self.relative += 1
                if self.has_second(target):
                    if target.canonical:
                        self.general += 1
                    elif self.options.relr:
                        packed += 1
                    elif moves:
                        self.relative += 1
        return {
            "got": 8 * got,
            "got_relr": 8 * block,
            "relr_dyn": 8 * (packed + packed_words(range(0, 8 * block, 8))),
            "plt_got": 16 * sum(1 for target in self.targets.values() if target.needs & STUB),
            "rela_plt": 24 * self.plt_entries,
            "rela_dyn_relative": 24 * self.relative,
            "rela_dyn_general": 24 * self.general,
        }


def packed_words(offsets):
    """How many words pack places: an address, and after it bitmaps of 63 places each (gABI, "Relative Relocation Table")."""
    count, next_place, is_marked = 0, None, False
    for offset in offsets:
        while next_place is not None and offset >= next_place + 504 and is_marked:
            next_place, is_marked = next_place + 504, False
        distance = offset - next_place if next_place is not None else -1
        if 0 <= distance < 504 and distance % 8 == 0:
            count += not is_marked
            is_marked = True
        else:
            count, next_place, is_marked = count + 1, offset + 8, False
    return count


def keep_frames(section):
    """The entries of a section of frames that the output keeps, as (start, end), and how many are of functions (docs/FRAMES.md)."""
    data, kept, fdes, at = section.bytes(), [], 0, 0
    file, first = section.file, {}
    for offset, info, _ in section.records():
        first.setdefault(offset, info >> 32)
    while at + 8 <= len(data):
        length = int.from_bytes(data[at : at + 4], "little")
        if not length:
            break
        end = at + 4 + length
        if length == 0xFFFFFFFF or end > len(data):
            raise Refused(f"{file.name}: section .eh_frame has an entry that does not end in it")
        if data[at + 4 : at + 8] == bytes(4):
            kept.append((at, end))
        else:
            symbol = first.get(at + 8)
            place = file.section_of(symbol) if symbol else None
            if place is not None and place.slot != "discard" and place.size:
                kept.append((at, end))
                fdes += 1
        at = end
    section.kept, section.fdes = kept, fdes
    rest = len(data) - at
    tail = rest if 0 < rest < 8 and data[at:] != bytes(4) else 0
    return sum(end - start for start, end in kept) + tail
