#!/usr/bin/env python3
"""Compiles placed.c, makes a plan of the object, and calls its function in the memory that `place` writes, at a base that the kernel chose
(plans/run_placed.c). Prints each answer that is wrong; the status is 0 where none is.

    plans/check_placed.py              over crates/wild_main/out/wild_main, which ./build makes
    plans/check_placed.py PROGRAM

The plan is that of planner/ld. Rows for AArch64 are left out, and said so, where Debian's gcc-aarch64-linux-gnu, libc6-dev-arm64-cross or qemu-user is not there.
"""
import json
import os
import shutil
import subprocess
import sys
import tempfile

HERE = os.path.dirname(os.path.abspath(__file__))
TOP = os.path.dirname(HERE)
MACHINES = {"x86_64": ("", []), "aarch64": ("aarch64-linux-gnu-", ["qemu-aarch64", "-L", "/usr/aarch64-linux-gnu"])}
FLAGS = "-c -fPIE -ffreestanding -fno-stack-protector -fno-asynchronous-unwind-tables".split()
LEVELS = "-O0 -O1 -O2 -Os".split()
NUMBERS = (0, 1, 20, -7)
LETTERS = len("increment" "twice" "square")


def expected(n):
    return 100 * ((2 * (n + 1)) ** 2 + 1) + LETTERS


def run(words, **more):
    return subprocess.run(words, stdout=subprocess.PIPE, text=True, **more)


def plan_of(room, compiler, level, program):
    """The plan's path, the bytes that it needs in memory, and the address of its function."""
    subprocess.run([compiler, *FLAGS, level, f"{HERE}/placed.c", "-o", f"{room}/object.o"], check=True)
    words = [f"{TOP}/planner/ld", "-pie", "--no-dynamic-linker", "-z", "pack-relative-relocs", "-e", "answer", "--plan", f"{room}/plan.json", "-o", f"{room}/image", f"{room}/object.o"]
    subprocess.run(words, check=True, env={**os.environ, "WILD": program})
    with open(f"{room}/plan.json") as file:
        plan = json.load(file)
    size = max(s["address"] + s["mem_size"] for s in plan["segments"] if s["kind"] == 1)
    address = next(s["resolution"]["raw_value"] for s in plan["symbols"] if s.get("name") == b"answer".hex())
    return f"{room}/plan.json", size, address


def main():
    program = os.path.abspath(sys.argv[1] if len(sys.argv) > 1 else f"{TOP}/crates/wild_main/out/wild_main")
    called = wrong = 0
    bases = set()
    for machine, (prefix, runner) in MACHINES.items():
        if not all(shutil.which(each) for each in [prefix + "gcc", *runner[:1]]):
            print(f"{machine}: no {prefix}gcc, or no {runner[0] if runner else 'machine'}: left out")
            continue
        with tempfile.TemporaryDirectory() as room:
            caller = f"{room}/run_placed"
            subprocess.run([prefix + "gcc", "-O1", "-Wall", "-Wextra", "-o", caller, f"{HERE}/run_placed.c"], check=True)
            for level in LEVELS:
                plan, size, address = plan_of(room, prefix + "gcc", level, program)
                for number in NUMBERS:
                    ran = run([*runner, caller, program, plan, str(size), str(address), str(number)])
                    lines = dict(line.split(" ", 1) for line in ran.stdout.splitlines())
                    called += 1
                    bases.add(lines.get("base"))
                    if ran.returncode or lines.get("answer") != str(expected(number)):
                        wrong += 1
                        print(f"{machine} {level} {number}: status {ran.returncode}, {ran.stdout!r} and not {expected(number)}")
    print(f"{called} calls at {len(bases)} bases, {wrong} wrong")
    return 1 if wrong or not called else 0


if __name__ == "__main__":
    sys.exit(main())
