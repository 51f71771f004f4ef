"""Makes the plan of a relocatable object (docs/PARTIAL.md): sections of one name are one section of the output, members of groups stay as they are, and each has its table of relocations."""
from elf import GROUP, IN_GROUP, INFO_LINK, LINK_ORDER, NOBITS, RELA, SECTION, STRTAB, SYMTAB, SYMTAB_SHNDX, UNDEFINED, Refused, up
from plan import PLACES, Plan


class PartialPlan(Plan):
    def make(self):
        self.layout.outputs = []
        self.tables, self.group_outputs = {}, {}
        self.place_sections()
        self.layout.drop_empty()
        self.place_tables()
        self.place_commons_and_copies()
        self.number_symbols()
        self.choose_emitted()
        self.number_outputs()
        return self.text()

    def kept_sections(self):
        for file in self.objects:
            for section in file.sections:
                if section.group is not False:
                    yield section

    def place_sections(self):
        """Groups first: the header of a group comes before those of its members (gABI, "Section Groups")."""
        for section in self.kept_sections():
            if section.kind == GROUP:
                output = self.layout.output(b".group", GROUP, 0, 4, b".symtab")
                section.slot = "group"
                self.group_outputs[section] = output
                output.part("raw").add(section)
        for section in self.kept_sections():
            if section.kind in (0, GROUP, RELA, SYMTAB, STRTAB, SYMTAB_SHNDX):
                continue
            if section.flags & LINK_ORDER:
                raise Refused(f"{section.file.name}: section {section.name.decode()} is ordered as another one (SHF_LINK_ORDER)")
            section.slot = "loaded"
            key = (section.name, section.flags, True, False) if section.kind == NOBITS else (section.name, section.kind, section.flags, section.entry)
            output = self.layout.output_of(section if section.flags & IN_GROUP else key, section.name, section.kind, section.flags, section.entry)
            output.parts[0].is_kept = section.name == b".note.GNU-stack"
            output.parts[0].add(section)

    def place_tables(self):
        """The relocations of each section, in a table for each output section."""
        for section in self.kept_sections():
            table = section.relocations
            if section.slot != "loaded" or table is None:
                continue
            owner = section.part.output
            output = self.tables[owner] = self.layout.output_of((owner, RELA), b".rela" + section.name, RELA, INFO_LINK | section.flags & IN_GROUP, 24, b".symtab")
            table.slot = "rela"
            output.parts[0].add(table)
        for section, output in self.group_outputs.items():
            # a group has its members that are there, and their tables
            section.strings = [member.part.output for member in section.file.sections if member.group is section and member.slot == "loaded"]
            section.strings += [self.tables[member] for member in section.strings if member in self.tables]
            section.size = output.parts[0].size = 4 + 4 * len(section.strings)
        self.layout.drop_empty_outputs()

    def choose_emitted(self):
        """Which symbols `.symtab` has: those of each file that it defines, then those that nothing defines."""
        names, self.numbers, local, others = 1, {}, 0, 0
        signatures = {(section.file, section.info) for section in self.group_outputs}
        for file in self.objects:
            file.emitted = bytearray(len(file.symbols))
            order = []
            for i, (at, info, _, section, _, _) in enumerate(file.symbols):
                if not at or info & 15 == SECTION:
                    continue
                place = file.section_of(i)
                if i < file.locals:
                    if (section == UNDEFINED or place is not None and place.slot == "discard") and (file, i) not in signatures:
                        continue
                elif not file.globals[i - file.locals].is_at(file, i):
                    continue
                order.append((place is None and section == UNDEFINED, i))
                file.emitted[i] = 1
                names += len(file.symbol_name(i)) + 1
            for _, i in sorted(order):
                name = (file, i) if i < file.locals else file.symbol_name(i)
                self.numbers[name] = local if i < file.locals else others
                local, others = local + (i < file.locals), others + (i >= file.locals)
        sections = sum(self.has_symbol(output) or self.is_alone(output) for output in self.layout.outputs)
        self.first_local, self.local_count, self.has_symtab = 1 + sections, 1 + sections + local, True
        table = self.layout.output(b".symtab", SYMTAB, 0, 24, b".strtab")
        table.part("symtab_local", 24 * self.local_count, 8)
        table.part("symtab_global", 24 * others, 8)
        self.layout.output(b".strtab", STRTAB, 0).part("strtab", names)
        self.layout.output(b".shstrtab", STRTAB, 0).part("shstrtab", 1 + sum(len(output.name) + 1 for output in self.layout.outputs))

    def is_alone(self, output):
        return bool(output.flags & IN_GROUP) and output.kind != RELA

    def has_symbol(self, output):
        return output.kind not in (GROUP, RELA, SYMTAB, STRTAB) and not output.flags & IN_GROUP

    def number_outputs(self):
        layout = self.layout
        if len(layout.outputs) >= 0xFF00:
            raise Refused("more output sections than the planner counts")
        layout.parts = [layout.file_header] + [part for output in layout.outputs for part in output.parts] + [layout.section_headers]
        at = 64
        for index, output in enumerate(layout.outputs, 1):
            output.index = index
            output.offset = at = up(at, output.align())
            for part in output.parts:
                part.offset = at = up(at, part.align)
                at += part.size if output.kind != NOBITS else 0
            output.size = output.parts[-1].offset + output.parts[-1].size - output.offset
        layout.section_headers.offset, layout.section_headers.size = up(at, 8), 64 * (1 + len(layout.outputs))
        for index, part in enumerate(layout.parts):
            part.index = index

    # ---- the text

    def symbol(self, file, i):
        _, info, other, section, value, size = file.symbols[i]
        target, where = file.globals[i - file.locals] if i >= file.locals else None, file.section_of(i)
        symbol = {"name": file.symbol_name(i).hex(), "info": info, "other": target.other if target else other, "size": size, "value": value, "emit": bool(file.emitted[i])}
        symbol["place"] = {"section": where.index} if where else PLACES.get(section, "undefined")
        if target and not target.is_at(file, i):
            symbol["definition"] = target.plan
        elif target and target.kind == "common":
            symbol.update(size=target.size, value=0, resolution={"raw_value": target.alias[0]})
        return symbol

    def section(self, file, section):
        if section.slot == "rela":
            return {"slot": "rela", "part": section.part.index, "address": section.position, "size": section.size, "target": section.info}
        if section.slot == "group":
            members = [output.index for output in section.strings]
            return {"slot": "group", "part": section.part.index, "size": section.size, "bytes": (section.bytes()[:4] + bytes(section.size - 4)).hex(), "members": members}
        made = super().section(file, section)
        if section.flags & IN_GROUP and section.slot == "loaded":
            made["singleton"] = section.part.output.index
        return made

    def output_section(self, output):
        section = super().output_section(output)
        if output.kind == GROUP:
            group = output.parts[0].inputs[0]
            is_local = group.info < group.file.locals
            section["info"] = self.first_local + self.numbers[group.file, group.info] if is_local else self.local_count + self.numbers[group.group]
        elif output.kind == RELA:
            section["info"] = next(owner for owner, table in self.tables.items() if table is output).index
        elif self.has_symbol(output):
            section["section_symbol"] = True
        return section

    def head(self):
        return self.shape()
