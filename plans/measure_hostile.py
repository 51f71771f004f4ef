#!/usr/bin/env python3
"""Measures plans that are made to be slow beside an honest plan of the same length, and prints the seconds of each, how many times as long as the
honest one it took, and its answer.

    plans/measure_hostile.py                         plans of a million bytes, over crates/wild_main/out/wild_main, which ./build makes
    plans/measure_hostile.py --bytes 4000000 --only shares
    plans/measure_hostile.py --longest               a plan of 2^31 bytes is answered, and one of a byte more has status 7; it needs 5 GB
"""
import argparse
import json
import os
import subprocess
import time

TOP = os.path.dirname(os.path.dirname(os.path.abspath(__file__)))
SECONDS = 40


def text(value):
    return json.dumps(value, separators=(",", ":"))


def smallest():
    with open(f"{TOP}/plans/smallest.json") as file:
        return json.load(file)


def items(length, *kinds):
    """How many of each of these texts make a list of so many bytes together."""
    return length // sum(len(kind) + 1 for kind in kinds)


def honest(length):
    """Input sections with calls and addresses (plans/make_large.py)"""
    made = subprocess.run([f"{TOP}/plans/make_large.py", str(max(1, length // 640))], stdout=subprocess.PIPE, check=True)
    return made.stdout.decode()


def sections(length):
    """Sections over the same bytes, a quarter as many as the plan has"""
    plan = smallest()
    size, end = length // 4, 128 + length // 4
    item = {"kind": 1, "flags": 2, "align": 1, "address": 4194432, "offset": 128, "size": size}
    count = items(length // 2, text(item))
    plan["sections"][1:1] = [item] * count
    part = plan["parts"][2]
    part.update(section=1 + count, size=size)
    plan["sections"][1 + count].update(size=size)
    piece = plan["groups"][0]["files"][1]["sections"][0]
    piece.update(size=size, bytes="90" * size, relocations=[])
    plan["segments"][0].update(file_size=end, mem_size=end)
    names = 17 + count
    plan["parts"][3].update(offset=end, size=names, section=2 + count)
    plan["sections"][2 + count].update(offset=end, size=names)
    plan["parts"][4].update(offset=(end + names + 7) // 8 * 8, size=64 * (3 + count))
    plan["groups"][0]["part_sizes"] = [64, 56, size, names, 64 * (3 + count)]
    return text(plan)


def pairs(length):
    """Sections, each second one at the first segment and the others at the last, over many segments"""
    plan = smallest()
    segment = {"kind": 1, "address": 1 << 40}
    count = min(65533, items(length // 2, text(segment)))
    plan["segments"] += [{"kind": 1, "address": (1 << 40) + 4096 * k, "mem_size": 1} for k in range(count)]
    low, high = ({"kind": 8, "flags": 2, "align": 1, "address": at, "size": 1} for at in (4194304, (1 << 40) + 4096 * (count - 1)))
    plan["sections"] += [high, low] * (items(length // 2, text(high), text(low)))
    return text(plan)


def ranges(length):
    """Files whose ranges of symbols descend"""
    plan = smallest()
    count = items(length, '{"symbol_count":1,"first_symbol":10000}', '{"place":{"section":0}}')
    plan["symbols"] = [{"place": {"section": 0}}] * count
    files = plan["groups"][0]["files"]
    files[1:2] = [{"symbol_count": 1, "first_symbol": count - 1 - k} for k in range(count)]
    return text(plan)


def overlaps(length):
    """Files each of which has all symbols"""
    plan = smallest()
    file = '{"symbol_count":100000}'
    symbols = items(length // 2, "{}")
    plan["symbols"] = [{}] * symbols
    plan["groups"][0]["files"][1:2] = [{"symbol_count": symbols}] * items(length // 2, file)
    return text(plan)


def aliases(length):
    """Symbols that one symbol defines, all of them copied from a library"""
    plan = smallest()
    count = items(length, '{"definition":0}', "1000000")
    plan["symbols"] += [{"definition": 0}] * count
    plan["groups"][0]["files"][1]["copies"] = list(range(count, 0, -1))
    return text(plan)


def copies(length):
    """Symbols that are copied from a library, listed in descending order"""
    plan = smallest()
    count = items(length, "{}", "1000000")
    plan["symbols"] += [{}] * count
    plan["groups"][0]["files"][1]["copies"] = list(range(count, 0, -1))
    return text(plan)


def shares(length):
    """Empty parts and groups that list no shares"""
    plan = smallest()
    count = items(length, "{}", "{}")
    plan["parts"][:0] = [{}] * count
    plan["groups"][0]["files"][1]["sections"][0]["part"] = 2 + count
    plan["groups"] += [{}] * count
    plan["groups"][0]["part_sizes"] = [0] * count + plan["groups"][0]["part_sizes"]
    return text(plan)


def parts(length):
    """Empty parts, and discarded input sections"""
    plan = smallest()
    count = items(length, "{}", "0", "{}")
    plan["parts"][:0] = [{}] * count
    plan["groups"][0]["part_sizes"][:0] = [0] * count
    pieces = plan["groups"][0]["files"][1]["sections"]
    pieces[0]["part"] = 2 + count
    pieces += [{}] * count
    return text(plan)


def files(length):
    """Empty parts, and files"""
    plan = smallest()
    count = items(length, "{}", "0", "{}")
    plan["parts"][:0] = [{}] * count
    plan["groups"][0]["part_sizes"][:0] = [0] * count
    plan["groups"][0]["files"][1]["sections"][0]["part"] = 2 + count
    plan["groups"][0]["files"][1:1] = [{}] * count
    return text(plan)


def segments(length):
    """More segments than there may be"""
    plan = smallest()
    plan["segments"] += [{}] * items(length, "{}")
    return text(plan)


def members(length):
    """An object with members that are not known"""
    count = items(length, '"10000000":0')
    return text({f"{(k * 7919) % count:08}": 0 for k in range(count)})


def digits(length):
    """A number of many digits"""
    return '{"page_size":' + "1" * length + "}"


def common(length):
    """Symbols of .symtab without a section, which is looked for among many"""
    plan = smallest()
    plan["options"] = {}
    section, symbol = {"align": 1}, {"place": "common", "emit": True, "info": 16, "resolution": {}}
    count = items(length, text(section), text(symbol))
    plan["symbols"] = [symbol] * count
    plan["groups"][0]["files"][1].update(symbol_count=count)
    plan["groups"][0]["files"][1]["sections"][0]["relocations"] = []
    plan["sections"] += [section] * (count - 1) + [{"align": 1, "name": b".bss".hex()}]
    names, strings, heads = 17 + count + 4, 1 + count, 64 * (3 + count)
    at = 135
    for part, role, size in ((plan["parts"][3], "shstrtab", names), ({}, "strtab", strings), ({}, "symtab_local", 24), ({}, "symtab_global", 24 * count), (plan["parts"][4], "section_headers", heads)):
        at = (at + 7) // 8 * 8 if role != "shstrtab" else at
        part.update(role=role, offset=at, size=size)
        if part not in plan["parts"]:
            plan["parts"].insert(-1, part)
        at += size
    plan["sections"][2].update(size=names)
    plan["groups"][0]["part_sizes"] = [64, 56, 7, names, strings, 24, 24 * count, heads]
    return text(plan)


KINDS = [honest, sections, pairs, ranges, overlaps, aliases, copies, shares, parts, files, segments, members, digits, common]


def measure(program, plan):
    """The seconds of a run, and the first line of its answer."""
    begin = time.time()
    try:
        ran = subprocess.run([program, "link", "1"], input=plan.encode(), stdout=subprocess.PIPE, timeout=SECONDS)
    except subprocess.TimeoutExpired:
        return time.time() - begin, "no answer"
    return time.time() - begin, ran.stdout[:120].decode().split("\n")[0] or f"status {ran.returncode}"


def longest(program, length):
    """The seconds of a run over so many bytes, `{}` and blanks, its status and the first line of its answer."""
    begin = time.time()
    with subprocess.Popen([program, "link", "1"], stdin=subprocess.PIPE, stdout=subprocess.PIPE) as ran:
        left, blanks = length - 2, b" " * (1 << 20)
        try:
            ran.stdin.write(b"{}")
            while left > 0:
                left -= ran.stdin.write(blanks[:left])
            ran.stdin.close()
        except BrokenPipeError:
            pass
        said = ran.stdout.read().decode().split("\n")[0]
    return time.time() - begin, ran.returncode, said


def main():
    parser = argparse.ArgumentParser(description=__doc__, formatter_class=argparse.RawDescriptionHelpFormatter)
    parser.add_argument("program", nargs="?", default=f"{TOP}/crates/wild_main/out/wild_main")
    parser.add_argument("--bytes", type=int, default=1_000_000)
    parser.add_argument("--only", choices=[kind.__name__ for kind in KINDS])
    parser.add_argument("--longest", action="store_true")
    chosen = parser.parse_args()
    if chosen.longest:
        for length in (1 << 31, (1 << 31) + 1):
            seconds, status, said = longest(chosen.program, length)
            print(f"{seconds:7.2f} s  {length} bytes: status {status}: {said}", flush=True)
        return
    base = None
    for kind in KINDS:
        if kind is honest or chosen.only in (None, kind.__name__):
            plan = kind(chosen.bytes * chosen.bytes // len(kind(chosen.bytes)))
            seconds, said = measure(chosen.program, plan)
            base = base or seconds
            print(f"{seconds:7.2f} s {seconds / base:8.1f} times  {kind.__name__}: {kind.__doc__}, {len(plan)} bytes: {said}", flush=True)


if __name__ == "__main__":
    main()
