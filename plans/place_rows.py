#!/usr/bin/env python3
"""Writes the rows of `place` for the table of crates/wild_tests_answers: plans of the table in worlds, and what they are answered.

    plans/place_rows.py                 the rows
    plans/place_rows.py --check FILE    whether the table has each of them

The bytes of a memory are those of the table's whole image of the same plan, with the words that its relocation entries write. These words are
written down from the gABI ("Relocation", "Relative Relocation Table") and docs/PLACER.md, and so are the other answers.
"""
import json
import os
import re
import sys

TOP = os.path.dirname(os.path.dirname(os.path.abspath(__file__)))
TABLE = f"{TOP}/crates/wild_tests_answers/stdin"
PLANS = f"{TOP}/crates/wild_tests_plans/src/lib.rt"


def plans():
    """The plans of the tests by their names in the table."""
    with open(PLANS) as file:
        found = re.findall(r'pub const (\w+): &str =\s*r#"(.*?)"#;', file.read(), re.S)
    return {name.lower(): json.loads(plan) for name, plan in found}


def images():
    """The longest text of an image that the table has of each plan without a change, as bytes from the image's start."""
    found = {}
    with open(TABLE) as file:
        for block in file.read().split("\n\n"):
            lines = block.split("\n")
            words = [line for line in lines if not line.startswith(("#", "says "))]
            says = [line[5:] for line in lines if line.startswith("says ")]
            if len(words) == 1 and words[0].startswith("plan ") and says and says[0].startswith("image "):
                name, image = words[0][5:], bytes.fromhex("".join(line for line in says if " " not in line))
                found[name] = max(found.get(name, b""), image, key=len)
    return found


def memory(plan, image, base, words):
    """The text of a plan's memory: its image's bytes by segments, with these words at their addresses."""
    lines = []
    for segment in plan["segments"]:
        if segment["kind"] != 1:
            continue
        start, offset, size = (segment.get(key, 0) for key in ("address", "offset", "file_size"))
        held = bytearray(image[offset : offset + size])
        assert len(held) == size, "the table has less of the image"
        for address, value in words.items():
            at = address - base - start
            if 0 <= at < size:
                held[at : at + 8] = value.to_bytes(8, "little")
        lines.append(f"at {base + start} {size}")
        lines += [held[k : k + 32].hex() for k in range(0, size, 32)]
    return lines


def row(comment, lines, says):
    return "\n".join([*(f"# {line}" for line in comment), *lines, *(f"says {line}" for line in says)])


def rows():
    known, whole = plans(), images()
    in_memory = [
        ("the first 135 bytes of the image", "smallest", {}, 0, {}),
        ("two functions and a thunk between them, for AArch64", "aarch64", {}, 0, {}),
        ("the word at 0x13001 is 0x11040, by an entry; the packed word at 0x13010 is too. The second segment has no bytes in the file", "moved", {"base": 0x10000}, 0x10000, {0x13001: 0x11040, 0x13010: 0x11040}),
        ("at base 0", "moved", {}, 0, {0x3001: 0x1040, 0x3010: 0x1040}),
    ]
    yield from (row([comment], [f"plan {name}", f"world {json.dumps(world, separators=(',', ':'))}"], memory(known[name], whole[name], base, words)) for comment, name, world, base, words in in_memory)
    refused = [
        ("a relocatable object", "relocatable", {}, "NotElf"),
        ("the base and the segment's end add up to more than 2^64", "wide", {"base": 2**64 - 1}, "Wraps address=4194304"),
        ("no answer for symbol 1, which another module defines", "linked", {"base": 0}, "UnknownSymbol index=1"),
        ("one for symbol 0 alone", "linked", {"symbols": [{}]}, "UnknownSymbol index=1"),
        ("no answer of the resolver at 0x40013c", "slotted", {}, "NoAnswer value=4194620"),
        ("one of another resolver", "slotted", {"resolvers": [{"address": 4194621, "answer": 1}]}, "NoAnswer value=4194620"),
        ("9 bytes for a copied symbol, and memory for 8", "program", {"symbols": [{}, {}, {"bytes": "00" * 9}]}, "Unloaded address=8544"),
    ]
    yield from (row([comment], [f"plan {name}", f"world {json.dumps(world, separators=(',', ':'))}"], [f"not placed {fault}"]) for comment, name, world, fault in refused)
    with open(f"{TOP}/plans/frames.json") as file:
        frames = json.load(file)
    copies = sorted((s["resolution"]["raw_value"], s["resolution"]["dynsym"]) for s in frames["symbols"] if "COPY_RELOCATION" in s.get("flags", []))
    symbols = [{} for _ in range(1 + max(s["resolution"].get("dynsym", 0) for s in frames["symbols"] if s.get("resolution")))]
    (first, index), (second, other) = copies
    symbols[index], symbols[other] = {"bytes": "00" * (second - first + 1)}, {"bytes": "00"}
    world = {"symbols": symbols}
    yield row(["bytes of a copied symbol that reach the next one"], [f"text {json.dumps(frames, separators=(',', ':'))}", f"world {json.dumps(world, separators=(',', ':'))}"], [f"not placed Overlap address={second}"])
    yield row(["a fault of the layout comes before those of the loader"], ["plan wide", 'old "number":2,', 'new "number":200,', 'world {"base":18446744073709551615}'], ["refused UnsupportedRelocation number=200 at group=0 file=1 section=0 offset=1"])
    inputs = [
        ("{}", "refused MalformedLayout clause=1 index=0"),
        ('{"world":{}}', "refused MalformedLayout clause=1 index=0"),
        ("{", "not a plan: json"),
        ("[]", "not a plan: "),
        ('{"plan":0}', "not a plan: /plan"),
        ('{"plan":{"extra":0},"world":0}', "not a plan: /plan/extra"),
        ('{"world":0}', "not a plan: /world"),
        ('{"world":{"base":-1}}', "not a plan: /world/base"),
        ('{"world":{"base":18446744073709551616}}', "not a plan: /world/base"),
        ('{"world":{"symbols":{}}}', "not a plan: /world/symbols"),
        ('{"world":{"symbols":[{},0]}}', "not a plan: /world/symbols/1"),
        ('{"world":{"symbols":[{"bytes":"0"}]}}', "not a plan: /world/symbols/0/bytes"),
        ('{"world":{"symbols":[{"size":1,"extra":0}]}}', "not a plan: /world/symbols/0/extra"),
        ('{"world":{"resolvers":[{"answer":"0"}]}}', "not a plan: /world/resolvers/0/answer"),
        ('{"world":{"modules":[{"module":-1}]}}', "not a plan: /world/modules/0/module"),
        ('{"world":{"modules":[{"distance":9223372036854775808}]}}', "not a plan: /world/modules/0/distance"),
        ('{"world":{"modules":[{"distance":-9223372036854775808}],"own_module":null}}', "not a plan: /world/own_module"),
        ('{"world":{"extra":0}}', "not a plan: /world/extra"),
        ('{"extra":0}', "not a plan: /extra"),
    ]
    yield from (row(["members of the input of place"] if i == 0 else [], [f"place {text}"], [says]) for i, (text, says) in enumerate(inputs))


def main():
    if sys.argv[1:2] == ["--check"]:
        with open(sys.argv[2]) as file:
            table = set(file.read().strip("\n").split("\n\n"))
        missing = [each for each in rows() if each not in table]
        print("\n\n".join(missing) or "the table has each row")
        return 1 if missing else 0
    print("\n\n".join(rows()))
    return 0


if __name__ == "__main__":
    sys.exit(main())
