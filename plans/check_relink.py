#!/usr/bin/env python3
"""Compares `relink` with `link` of the changed plan, for changes by chance.

    plans/check_relink.py                             over crates/wild_main/out/wild_main, which ./build makes
    plans/check_relink.py PROGRAM [COUNT [PLAN]..]    over another build, COUNT changes of each plan, only of these plans

Each change names an input section of the plan, seldom one that is not there, and gives it other bytes, or adds, removes or changes relocations. What
`relink` has to print follows from docs/RELINK.md and from what `link` prints for the plan and for the changed plan. Prints each change whose answer
differs, and how many answers of each status there were; the status is 0 if none differs.
"""
import collections
import copy
import glob
import json
import os
import random
import subprocess
import sys

TOP = os.path.dirname(os.path.dirname(os.path.abspath(__file__)))
CHANGEABLE = ("loaded", "debug")


def answer(program, words, value):
    ran = subprocess.run([program, *words], input=json.dumps(value, separators=(",", ":")).encode(), stdout=subprocess.PIPE)
    return ran.returncode, ran.stdout.decode()


def sections_of(plan):
    """The input sections, each with its place."""
    for group, item in enumerate(plan.get("groups", [])):
        for file, inner in enumerate(item.get("files", [])):
            for section, found in enumerate(inner.get("sections", [])):
                yield (group, file, section), found


def other_relocation(chance, relocation, known, plan):
    """The relocation with one member changed."""
    other = dict(relocation)
    member = chance.choice(["offset", "number", "symbol", "addend"])
    if member == "number":
        other[member] = chance.choice(known + [0, 99])
    elif member == "symbol":
        other[member] = chance.randrange(len(plan.get("symbols", [])) + 1)
    else:
        other[member] = max(0 if member == "offset" else -2**63, other.get(member, 0) + chance.choice([-8, -4, -1, 1, 4, 8, 64, 1 << 33]))
    return other


def change_of(chance, plan, sections):
    """A change of one section by chance."""
    changeable = [item for item in sections if item[1].get("slot", "discard") in CHANGEABLE]
    place, section = chance.choice(changeable if changeable and chance.random() < 0.95 else sections)
    bytes_, relocations = bytearray.fromhex(section.get("bytes", "")), copy.deepcopy(section.get("relocations", []))
    known = sorted({item.get("number", 0) for _, found in sections for item in found.get("relocations", [])})
    for _ in range(chance.randrange(4)):
        kind = chance.choice(["byte", "byte", "relocation", "relocation", "removed", "added", "swapped", "section"])
        if kind == "byte" and bytes_:
            bytes_[chance.randrange(len(bytes_))] = chance.randrange(256)
        elif kind == "relocation" and relocations:
            index = chance.randrange(len(relocations))
            relocations[index] = other_relocation(chance, relocations[index], known, plan)
        elif kind == "removed" and relocations:
            del relocations[chance.randrange(len(relocations))]
        elif kind == "added":
            others = [item for _, found in sections for item in found.get("relocations", [])]
            if others:
                relocations.insert(chance.randrange(len(relocations) + 1), copy.deepcopy(chance.choice(others)))
        elif kind == "swapped" and len(relocations) > 1:
            chance.shuffle(relocations)
        elif kind == "section":
            alike = [found for _, found in sections if len(found.get("bytes", "")) == 2 * len(bytes_)]
            other = chance.choice(alike) if alike else {}
            bytes_, relocations = bytearray.fromhex(other.get("bytes", "")), copy.deepcopy(other.get("relocations", []))
    if chance.random() < 0.03:
        bytes_ = bytes_[:-1] if chance.random() < 0.5 else bytes_ + b"\0"
    if chance.random() < 0.03:
        place = tuple(step + (chance.random() < 0.5) * chance.randrange(3) for step in place)
    change = dict(zip(("group", "file", "section"), place))
    return {name: value for name, value in {**change, "bytes": bytes_.hex(), "relocations": relocations}.items() if value}


def answer_due(program, words, plan, change, linked):
    """What `relink` has to print, and its status."""
    if linked[0]:
        return linked
    place = tuple(change.get(name, 0) for name in ("group", "file", "section"))
    changed = copy.deepcopy(plan)
    section = dict(sections_of(changed)).get(place, {})
    if section.get("slot", "discard") not in CHANGEABLE:
        return 9, "no change section\n"
    given, needed = (len(item.get("bytes", "")) // 2 for item in (change, section))
    if given != needed:
        return 9, f"no change length given={given} needed={needed}\n"
    section["bytes"], section["relocations"] = change.get("bytes", ""), change.get("relocations", [])
    status, text = answer(program, words, changed)
    return status, text if status else f"rewritten 1\n{text}"


def main():
    program = os.path.abspath(sys.argv[1]) if len(sys.argv) > 1 else f"{TOP}/crates/wild_main/out/wild_main"
    if not os.path.exists(program):
        sys.exit(f"check_relink: there is no {program}; ./build makes it")
    count = int(sys.argv[2]) if len(sys.argv) > 2 else 40
    paths = sys.argv[3:] or sorted(glob.glob(f"{TOP}/plans/*.json"))
    came, differ = collections.Counter(), 0
    for path in paths:
        with open(path) as file:
            plan = json.load(file)
        sections = list(sections_of(plan))
        linked = answer(program, ("link", "1"), plan)
        for seed in range(count if sections else 0):
            change = change_of(random.Random(f"{os.path.basename(path)} {seed}"), plan, sections)
            due = answer_due(program, ("link", "1"), plan, change, linked)
            said = answer(program, ("relink", "1"), {"plan": plan, "change": change})
            came[due[0]] += 1
            if said != due:
                differ += 1
                print(f"{path}, change {seed}: {json.dumps(change)[:300]}\n    said:  {said[0]} {said[1][:100]!r}\n    due:   {due[0]} {due[1][:100]!r}")
    print("; ".join(f"status {status}: {number}" for status, number in sorted(came.items())) + f"; {differ} differ")
    sys.exit(differ > 0)


if __name__ == "__main__":
    main()
