#!/usr/bin/env python3
"""Refuses each allocation of the program in turn: the answer has to be status 6, with nothing written. Where a second worker cannot be started, since
the C library has no memory for its thread, the others do its work: with more workers than one the whole answer may come too. Prints how many were
refused, by answer, and each refusal that had another answer; the status is 0 where none had.

    plans/refuse_growth.py              over crates/wild_main/out/wild_main, which ./build makes
    plans/refuse_growth.py PROGRAM
    plans/refuse_growth.py PROGRAM smallest every     these plans alone, `make`, `space` and shards

Each allocation is refused of `make 2 2`, of `space` for three images, of each plan, among them the smallest and one with a part of each role
(plans/every.json), of `relink` for a section of each plan, of `place` for each plan at base 0, and of `verify` for each plan and its image. Of a plan whose debug section is cut into shards, which has 65,537 relocations, each is refused from the last of reading on, and some of those ahead.

The program asks the C library for memory, so a library that is loaded ahead of it refuses allocation N (malloc, calloc, realloc and their
like), or that and all behind it. It says so with a byte on standard error, on which the program writes nothing; so the first run without that byte
is behind the last allocation.
"""
import glob
import json
import os
import subprocess
import sys
import tempfile
from collections import Counter

import space_rows

TOP = os.path.dirname(os.path.dirname(os.path.abspath(__file__)))
SECONDS = 20
SHIM = r"""
#include <errno.h>
#include <stdlib.h>
#include <unistd.h>

extern void *__libc_malloc(size_t), *__libc_calloc(size_t, size_t), *__libc_realloc(void *, size_t), *__libc_memalign(size_t, size_t);
static long calls, first, last;

__attribute__((constructor)) static void begin(void) {
    char *from = getenv("REFUSE_FROM"), *to = getenv("REFUSE_TO");
    last = to ? atol(to) : 0;
    __atomic_store_n(&calls, 0, __ATOMIC_SEQ_CST);
    first = from ? atol(from) : 0;
}

static int is_refused(void) {
    long call = __atomic_add_fetch(&calls, 1, __ATOMIC_SEQ_CST);
    if (!first || call < first || call > last) return 0;
    if (write(2, "!", 1) < 0) _exit(99);
    errno = ENOMEM;
    return 1;
}

void *malloc(size_t size) { return is_refused() ? 0 : __libc_malloc(size); }
void *calloc(size_t count, size_t size) { return is_refused() ? 0 : __libc_calloc(count, size); }
void *realloc(void *old, size_t size) { return is_refused() ? 0 : __libc_realloc(old, size); }
void *memalign(size_t align, size_t size) { return is_refused() ? 0 : __libc_memalign(align, size); }
void *aligned_alloc(size_t align, size_t size) { return memalign(align, size); }
int posix_memalign(void **place, size_t align, size_t size) {
    void *found = memalign(align, size);
    if (found) *place = found;
    return found ? 0 : ENOMEM;
}
"""


def shim(folder):
    """The library that refuses."""
    path = f"{folder}/refuse.so"
    subprocess.run(["cc", "-shared", "-fPIC", "-O1", "-x", "c", "-", "-o", path], input=SHIM.encode(), check=True)
    return path


def answer(program, words, plan, library, first, last, whole=None):
    """What a run is answered where these allocations are refused, beside the whole answer, and whether one was."""
    env = {"LD_PRELOAD": library, "REFUSE_FROM": str(first), "REFUSE_TO": str(last)}
    try:
        ran = subprocess.run([program, *words], input=plan, stdout=subprocess.PIPE, stderr=subprocess.PIPE, env=env, timeout=SECONDS)
    except subprocess.TimeoutExpired:
        return "no answer", True
    if (ran.returncode, ran.stdout) == whole:
        return "the whole answer", bool(ran.stderr)
    text = "nothing written" if not ran.stdout else f"{len(ran.stdout)} bytes written"
    return f"status {ran.returncode}, {text}", bool(ran.stderr)


def with_change(plan):
    """The input of `relink`: a plan, and its first section that may be changed with the bytes and relocations that it has."""
    value = json.loads(plan)
    for place in ((g, f, s) for g, group in enumerate(value["groups"]) for f, file in enumerate(group["files"]) for s in range(len(file.get("sections", ())))):
        section = value["groups"][place[0]]["files"][place[1]]["sections"][place[2]]
        if section.get("slot") in ("loaded", "debug"):
            change = {**dict(zip(("group", "file", "section"), place)), "bytes": section.get("bytes", ""), "relocations": section.get("relocations", [])}
            return json.dumps({"plan": value, "change": change}, separators=(",", ":")).encode()
    return plan


def with_world(plan):
    """The input of `place`: a plan, and a world that has its answers: empty ones for symbols, and for each resolver its own address."""
    value = json.loads(plan)
    resolved = [(symbol["resolution"], symbol.get("flags", ())) for symbol in value.get("symbols", ()) if symbol.get("resolution")]
    count = max([resolution.get("dynsym") or 0 for resolution, _ in resolved], default=0)
    chosen = [{"address": resolution["raw_value"], "answer": resolution["raw_value"]} for resolution, flags in resolved if "IFUNC" in flags]
    return json.dumps({"plan": value, "world": {"symbols": [{}] * (count + 1), "resolvers": chosen}}, separators=(",", ":")).encode()


def with_image(program, plan):
    """The input of `verify`: a plan, and the image that `link` prints of it."""
    printed = subprocess.run([program, "link", "1"], input=plan, stdout=subprocess.PIPE).stdout.decode()
    image = "".join(line for line in printed.split("\n") if " " not in line)
    return json.dumps({"plan": json.loads(plan), "image": image}, separators=(",", ":")).encode()


def sweep(program, library, words, plan, others):
    """How often each answer came, where one allocation is refused, and where (others) all behind it are too."""
    came, odd = Counter(), []
    right = ["status 6, nothing written"] + ["the whole answer"] * (words[-1] == "2")
    calm = subprocess.run([program, *words], input=plan, stdout=subprocess.PIPE)
    call = 0
    while True:
        call += 1
        found, was_refused = answer(program, words, plan, library, call, 1 << 40 if others else call, (calm.returncode, calm.stdout))
        if not was_refused:
            return came, odd
        came[found] += 1
        if found not in right:
            odd.append(f"allocation {call}: {found}")


def shards(**more):
    """The smallest plan with a debug section of 65,537 relocations, which two workers have in two shards."""
    count = 65537
    with open(f"{TOP}/plans/smallest.json") as file:
        plan = json.load(file)
    names = [b"", b".text", b".debug_info", b".shstrtab"]
    told, at = {"section": 2, "offset": 136, "size": 4 * count, "align": 8}, 136 + 4 * count
    strings = {"role": "shstrtab", "section": 3, "offset": at, "size": sum(len(name) + 1 for name in names)}
    at = (at + strings["size"] + 7) // 8 * 8
    headers = {"role": "section_headers", "offset": at, "size": 64 * len(names), "align": 8}
    plan["parts"][3:] = [told, strings, headers]
    plan["sections"][2:] = [{"name": name.hex(), "kind": kind, "offset": part["offset"], "size": part["size"], "align": 1} for name, kind, part in zip(names[2:], (1, 3), (told, strings))]
    plan["groups"][0]["part_sizes"] = [part["size"] for part in plan["parts"]]
    plan["groups"][0]["files"][1]["sections"].append({
        "slot": "debug", "name": names[2].hex(), "part": 3, "size": 4 * count, "bytes": "00" * (4 * count),
        "relocations": [{"offset": 4 * i, "number": 10, "addend": i} for i in range(count)],
    })
    return json.dumps({**plan, **more}, separators=(",", ":")).encode()


def allocations(program, library, words, plan):
    """How many allocations a run has, as near as the workers let it be told."""
    def is_one(call):
        return answer(program, words, plan, library, call, call)[1]
    high = 1
    while is_one(high):
        high *= 2
    low = high // 2
    while high - low > 1:
        middle = (low + high) // 2
        low, high = (middle, high) if is_one(middle) else (low, middle)
    return low


def sweep_shards(program, library, odd):
    """How often each answer came of the plan with shards, where one allocation is refused."""
    words, plan = ["link", "2"], shards()
    calm = subprocess.run([program, *words], input=plan, stdout=subprocess.PIPE)
    # a member that is not known ends the same plan when it is read
    read, every = allocations(program, library, words, shards(zzz=0)), allocations(program, library, words, plan)
    calls = sorted({1 + read * i // 50 for i in range(50)} | set(range(max(1, read - 20), every + 1)))
    came = Counter()
    for call in calls:
        found, was_refused = answer(program, words, plan, library, call, call, (calm.returncode, calm.stdout))
        came[found] += was_refused
        if was_refused and found not in ("status 6, nothing written", "the whole answer"):
            odd.append(f"allocation {call}: {found}")
    print(f"of {every} allocations, {read} of them for reading")
    return +came


def main():
    program = os.path.abspath(sys.argv[1]) if len(sys.argv) > 1 else f"{TOP}/crates/wild_main/out/wild_main"
    if not os.path.exists(program):
        sys.exit(f"refuse_growth: there is no {program}; ./build makes it")
    runs = [(["make", "2", "2"], "", b""), (["space"], "three images", space_rows.three_images().encode())]
    for path in sorted(glob.glob(f"{TOP}/plans/*.json")):
        if len(sys.argv) < 3 or os.path.basename(path).removesuffix(".json") in sys.argv[2:]:
            with open(path, "rb") as file:
                plan = file.read()
            runs += [(["link", workers], f"plans/{os.path.basename(path)}", plan) for workers in ("1", "2")]
            runs += [(["relink", "1"], f"plans/{os.path.basename(path)}", with_change(plan))]
            runs += [(["place", workers], f"plans/{os.path.basename(path)}", with_world(plan)) for workers in ("1", "2")]
            runs += [(["verify"], f"plans/{os.path.basename(path)}", with_image(program, plan))]
    failed, tried = False, 0
    with tempfile.TemporaryDirectory() as folder:
        library = shim(folder)
        for words, of, plan in runs:
            for others in (False, True):
                came, odd = sweep(program, library, words, plan, others)
                name = " < ".join([" ".join(words), of] if of else [" ".join(words)])
                told = "; ".join(f"{count} of {found}" for found, count in came.items())
                print(f"{name}, {'each and all behind it' if others else 'each'} refused: {told}", flush=True)
                for line in odd[:20]:
                    print(f"    {line}")
                failed = failed or bool(odd) or not came
                tried += sum(came.values())
        odd = []
        came = sweep_shards(program, library, odd)
        told = "; ".join(f"{count} of {found}" for found, count in came.items())
        print(f"link 2 of a debug section in two shards, each from the last of reading on refused: {told}", flush=True)
        for line in odd[:20]:
            print(f"    {line}")
        failed, tried = failed or bool(odd) or not came, tried + sum(came.values())
    print(f"{tried} refusals")
    sys.exit(failed)


if __name__ == "__main__":
    main()
