#!/usr/bin/env python3
"""Compares the sizes of docs/LIMITS.md that a short plan can reach with what the program does: at each limit, and one past it. Prints what came of each; a
line that differs from what is said is marked, and the status is 0 where none does.

    plans/check_limits.py            over crates/wild_main/out/wild_main, which ./build makes
    plans/check_limits.py PROGRAM
    plans/check_limits.py --longest [PROGRAM]    a plan of 2^31 bytes, and one of a byte more, too; it needs 5 GB

The ends of addresses, pages, and distances that are 32 bits wide have rows in crates/wild_tests_answers/stdin and docs/FAULTS.md.
"""
import json
import os
import subprocess
import sys

from measure_hostile import longest

TOP = os.path.dirname(os.path.dirname(os.path.abspath(__file__)))
SECONDS = 120
COUNTS = "refused MalformedLayout clause=2 index=0"
differences = 0


def plan(name="smallest"):
    with open(f"{TOP}/plans/{name}.json") as file:
        return json.load(file)


def changed(name="smallest", **members):
    return {**plan(name), **members}


def told(name, said, status, text):
    """Prints a line, and marks it where it is not what is said."""
    global differences
    right = text == said
    differences += not right
    print(f"{'' if right else 'DIFFERS '}{name}: status {status}: {text}", flush=True)


def asked(name, said, value, workers="1"):
    text = value if isinstance(value, str) else json.dumps(value, separators=(",", ":"))
    try:
        ran = subprocess.run([PROGRAM, "link", workers], input=text.encode(), stdout=subprocess.PIPE, timeout=SECONDS)
    except subprocess.TimeoutExpired:
        told(name, said, "none", "no answer")
        return
    told(name, said, ran.returncode, ran.stdout[:200].decode().split("\n")[0])


def levels():
    for count, said in ((127, "not a plan: /a"), (128, "not a plan: json")):
        asked(f"{count} levels", said, '{"a":' + "[" * (count - 1) + "]" * (count - 1) + "}")


def workers():
    for count, said in (("1", "image 344"), ("64", "image 344"), ("65", "usage: link W | make N W | verify | relink W | place W | space"), ("0", "usage: link W | make N W | verify | relink W | place W | space")):
        asked(f"{count} workers", said, plan(), count)


def segments():
    loaded = plan()["segments"]
    # what more of them need is a fault behind the clauses
    for count, said in ((65534, f"refused InsufficientAllocation part=1 group=0 given=56 needed={56 * 65534}"), (65535, COUNTS)):
        asked(f"{count} segments", said, changed(segments=loaded + [{}] * (count - 1)))


def versions():
    """Defined, of libraries, and of one library."""
    for count, said in ((65535, "refused MalformedLayout clause=4 index=15"), (65536, COUNTS)):
        asked(f"{count} versions that are defined", said, with_part(changed("every", verdefs=[{}] * count), "gnu_version_d"))
    files = plan("every")["groups"][0]["files"]
    library = {"role": "dynamic", "verneed": {}}
    for count, said in ((65535, "refused MalformedLayout clause=4 index=16"), (65536, COUNTS)):
        asked(f"{count} libraries of which versions are needed", said, with_part(with_files(files[:2] + [library] * count + files[3:]), "gnu_version_r"))
        needed = {**files[2], "verneed": {"last": True, "versions": [{}] * count}}
        asked(f"{count} versions that are needed", said, with_part(with_files(files[:2] + [needed] + files[3:]), "gnu_version_r"))


def with_files(files):
    value = plan("every")
    value["groups"][0]["files"] = files
    return value


def with_part(value, role):
    """The plan without that role: where its counts pass, clause 4 lacks it."""
    for part in value["parts"]:
        if part["role"] == role:
            part["role"] = "raw"
    return value


def listed():
    """A symbol of the dynamic symbol table in a section with a great header index."""
    for index, said in ((65279, None), (65280, "refused MalformedLayout clause=13 index=0")):
        value = plan("every")
        value["sections"] += [{"align": 1}] * (65281 - len(value["sections"]))
        value["symbols"][3]["place"] = {"output": index}
        names = sum(len(section.get("name", "")) // 2 + 1 for section in value["sections"])
        part = next(i for i, part in enumerate(value["parts"]) if part["role"] == "shstrtab")
        given = value["parts"][part]["size"]
        asked(f"a listed symbol in section {index}", said or f"refused InsufficientAllocation part={part} group=0 given={given} needed={names}", value)


def names():
    """The names of .symtab, of which that of a thunk's symbol comes again with each thunk."""
    length, count = 99_986, 42_949
    rest = 2**32 - 1 - count * (len("__wild_thunk_") + length + 1)
    for more, said in ((0, "refused MalformedLayout clause=4 index=22"), (1, COUNTS)):
        value = changed("aarch64", thunk_blocks=[[{"symbol": 0, "address": 4194304}] * count])
        value["options"] = {"relax": True}
        value["symbols"][0]["name"] = "61" * length
        value["symbols"][1].update(emit=True, name="62" * (rest - 2 + more))
        asked(f"{2**32 - 1 + more} bytes of names", said, value)


def lengths():
    for length, said in ((1 << 31, (1, "refused MalformedLayout clause=1 index=0")), ((1 << 31) + 1, (7, "plan too long"))):
        seconds, status, text = longest(PROGRAM, length)
        told(f"{length} bytes of a plan, in {seconds:.1f} s", said[1], status, text)


LONGEST = "--longest" in sys.argv
PATHS = [word for word in sys.argv[1:] if word != "--longest"]
PROGRAM = os.path.abspath(PATHS[0]) if PATHS else f"{TOP}/crates/wild_main/out/wild_main"

if __name__ == "__main__":
    if not os.path.exists(PROGRAM):
        sys.exit(f"check_limits: there is no {PROGRAM}; ./build makes it")
    for check in [levels, workers, segments, versions, listed, names] + [lengths] * LONGEST:
        check()
    print(f"{differences} differ")
    sys.exit(differences != 0)
