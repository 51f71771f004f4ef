#!/usr/bin/env python3
"""Loads the image that `link` prints of each plan, as docs/LOADER.md says, and compares the memory with what `place` prints. Each plan is loaded at several
bases, in worlds whose answers are made by chance. Prints what differs; the status is 0 where nothing does.

    plans/check_memory.py              over crates/wild_main/out/wild_main, which ./build makes
    plans/check_memory.py PROGRAM [ROUNDS]

The loader is written here once more, in Python, from the gABI ("Program Loading", "Dynamic Linking") and the ABIs of both processors.
"""
import glob
import json
import os
import random
import struct
import subprocess
import sys

TOP = os.path.dirname(os.path.dirname(os.path.abspath(__file__)))
ALL = 2**64
LOAD, DYNAMIC = 1, 2
RELA_SECTION, ALLOC = 4, 2
RELA, RELASZ, PLTRELSZ, JMPREL, RELRSZ, RELR = 7, 8, 2, 23, 35, 36
# what an entry writes, by machine and number
KINDS = {
    62: {1: "sum", 5: "copy", 6: "symbol", 7: "symbol", 8: "base", 16: "module", 17: "offset", 18: "thread", 32: "size32", 33: "size", 36: "descriptor", 37: "resolver"},
    183: {257: "sum", 1024: "copy", 1025: "sum", 1026: "sum", 1027: "base", 1028: "module", 1029: "offset", 1030: "thread", 1031: "descriptor", 1032: "resolver"},
}


class Image:
    def __init__(self, data, base):
        self.data, self.base = data, base
        kind, self.machine = struct.unpack_from("<HH", data, 16)
        phoff, shoff = struct.unpack_from("<QQ", data, 32)
        phnum, = struct.unpack_from("<H", data, 56)
        shnum, = struct.unpack_from("<H", data, 60)
        self.loadable = kind in (2, 3)
        self.headers = [struct.unpack_from("<IIQQQQQQ", data, phoff + 56 * i) for i in range(phnum)]
        if shoff and not shnum:
            shnum, = struct.unpack_from("<Q", data, shoff + 32)
        self.sections = [struct.unpack_from("<IIQQQQIIQQ", data, shoff + 64 * i) for i in range(shnum)]
        # the bytes of each segment with memory, by its address without the base
        self.segments = [(h[3], bytearray(data[h[2] : h[2] + h[5]].ljust(h[6], b"\0")), h[5]) for h in self.headers if h[0] == LOAD and h[6]]

    def at(self, address):
        """The bytes of the segment that has the address, and the place in them."""
        for start, held, _ in self.segments:
            if start <= address < start + len(held):
                return held, address - start
        raise LookupError(address)

    def put(self, address, value, size=8):
        held, place = self.at(address)
        held[place : place + size] = (value % (1 << 8 * size)).to_bytes(size, "little")

    def tables(self):
        """The words of RELR, and the entries: of the dynamic section, else of the loaded sections."""
        for h in self.headers:
            if h[0] == DYNAMIC:
                tags = {}
                for at in range(h[2], h[2] + h[5] - 15, 16):
                    tag, value = struct.unpack_from("<QQ", self.data, at)
                    if not tag:
                        break
                    tags.setdefault(tag, value)
                def read(table, size):
                    if not tags.get(size):
                        return b""
                    held, place = self.at(tags[table])
                    return bytes(held[place : place + tags[size]])
                return read(RELR, RELRSZ), [read(RELA, RELASZ), read(JMPREL, PLTRELSZ)]
        return b"", [self.data[s[4] : s[4] + s[5]] for s in self.sections if s[1] == RELA_SECTION and s[2] & ALLOC and s[5]]

    def relocate(self, world):
        relr, tables = self.tables()
        place, touched = 0, []
        for (word,) in struct.iter_unpack("<Q", relr):
            if word % 2 == 0:
                touched, place = touched + [word], word + 8
            else:
                touched += [place + 8 * (i - 1) for i in range(1, 64) if word >> i & 1]
                place += 504
        for address in touched:
            held, place = self.at(address)
            self.put(address, int.from_bytes(held[place : place + 8], "little") + self.base)
        for offset, info, addend in (entry for table in tables for entry in struct.iter_unpack("<QQq", table[: len(table) // 24 * 24])):
            index, kind = info >> 32, KINDS[self.machine][info % 2**32]
            answer = world["symbols"][index]
            module, within = (answer["module"], answer["offset"]) if index else (world["own_module"], 0)
            if kind == "copy":
                for i, byte in enumerate(bytes.fromhex(answer["bytes"])):
                    self.put(offset + i, byte, 1)
            elif kind == "size32":
                self.put(offset, answer["size"] + addend, 4)
            elif kind != "descriptor":
                value = {
                    "sum": lambda: answer["address"] + addend, "symbol": lambda: answer["address"], "base": lambda: self.base + addend, "module": lambda: module,
                    "offset": lambda: answer["offset"] + addend, "size": lambda: answer["size"] + addend,
                    "thread": lambda: distance(world, module) + within + addend, "resolver": lambda: resolved(world, (self.base + addend) % ALL),
                }[kind]()
                self.put(offset, value)

    def text(self):
        lines, loaded = [], {start: held for start, held, _ in self.segments}
        for h in self.headers:
            if h[0] == LOAD:
                held = loaded[h[3]][: h[5]] if h[6] else b""
                lines.append(f"at {self.base + h[3]} {h[5]}")
                lines += [held[k : k + 32].hex() for k in range(0, len(held), 32)]
        return "".join(f"{line}\n" for line in lines)


def distance(world, module):
    return next(pair["distance"] for pair in world["modules"] if pair["module"] == module)


def resolved(world, address):
    return next(pair["answer"] for pair in world["resolvers"] if pair["address"] == address)


def world_of(plan, base, chance):
    """A world by chance that has all that the plan's image may ask for."""
    word = lambda: chance.getrandbits(64)
    resolutions = [(symbol, symbol["resolution"]) for symbol in plan["symbols"] if symbol.get("resolution")]
    count = 1 + max([resolution.get("dynsym") or 0 for _, resolution in resolutions] + [0]) + len(plan.get("dynsyms", ()))
    symbols = [{"address": word(), "module": chance.randrange(1, 5), "offset": chance.getrandbits(16), "size": chance.getrandbits(20), "bytes": ""} for _ in range(count)]
    for symbol, resolution in resolutions:
        if "COPY_RELOCATION" in symbol.get("flags", ()):
            symbols[resolution["dynsym"]]["bytes"] = chance.randbytes(chance.randrange(symbol.get("size", 0) + 1)).hex()
    resolvers = [{"address": (base + resolution["raw_value"]) % ALL, "answer": word()} for symbol, resolution in resolutions if "IFUNC" in symbol.get("flags", ())]
    modules = [{"module": n, "distance": chance.randrange(-(2**20), 2**20)} for n in range(5)]
    return {"base": base, "symbols": symbols, "resolvers": resolvers, "modules": modules, "own_module": chance.randrange(5)}


def run(program, words, text):
    ran = subprocess.run([program, *words], input=text.encode(), stdout=subprocess.PIPE)
    return ran.returncode, ran.stdout.decode()


def main():
    program = os.path.abspath(sys.argv[1] if len(sys.argv) > 1 else f"{TOP}/crates/wild_main/out/wild_main")
    rounds = int(sys.argv[2]) if len(sys.argv) > 2 else 3
    chance, differ, compared = random.Random(1), 0, 0
    for path in sorted(glob.glob(f"{TOP}/plans/*.json")):
        with open(path) as file:
            text = file.read()
        plan = json.loads(text)
        _, answer = run(program, ["link", "1"], text)
        image = bytes.fromhex("".join(line for line in answer.split("\n") if " " not in line))
        for base in [0, *(plan["page_size"] * chance.randrange(1, 2**30) for _ in range(rounds))] if image else []:
            world = world_of(plan, base, chance)
            loaded = Image(image, base)
            if loaded.loadable:
                loaded.relocate(world)
            wanted = (0, loaded.text()) if loaded.loadable else (10, "not placed NotElf\n")
            given = run(program, ["place", "2"], json.dumps({"plan": plan, "world": world}))
            compared += 1
            if given != wanted:
                differ += 1
                print(f"{os.path.basename(path)} at base {base}: status {given[0]}, {given[1][:200]!r}")
    print(f"{compared} memories, {differ} differ")
    return 1 if differ or not compared else 0


if __name__ == "__main__":
    sys.exit(main())
