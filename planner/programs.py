#!/usr/bin/env python3
"""Links whole programs by planner/ld and by the system's linker, runs both, and compares what they print. Prints the table of docs/PROGRAMS.md.

    cd FOLDER && apt-get source lua5.4 zlib sqlite3
    planner/programs.py FOLDER [NAME ...]

Of each program the objects are compiled once, by the system's compilers. Needed are Debian's packages gcc, g++, tcl, llvm-14-dev, gcc-aarch64-linux-gnu, g++-aarch64-linux-gnu
and qemu-user; for Rust `rustc`. A program whose sources or compiler are not there is left out, and said so. The status is 0 where all that ran printed the same.
"""
import glob
import os
import re
import subprocess
import sys

HERE = os.path.dirname(os.path.abspath(__file__))
SOURCES = f"{HERE}/programs"
QEMU = ["qemu-aarch64", "-L", "/usr/aarch64-linux-gnu"]


def run(words, folder, **more):
    return subprocess.run(words, cwd=folder, stdout=subprocess.PIPE, stderr=subprocess.PIPE, **more)


def compile_all(folder, compiler, files, flags):
    """The objects of sources; those that are there are taken."""
    objects = []
    for file in files:
        made = f"{folder}/{os.path.basename(file).rsplit('.', 1)[0]}.o"
        if not os.path.exists(made):
            subprocess.run([*compiler, *flags, "-c", file, "-o", made], check=True)
        objects.append(made)
    return objects


class Program:
    """What is compiled, how it is linked, and what is run of it."""

    def __init__(self, name, make, tests, runner=()):
        self.name, self.make, self.tests, self.runner = name, make, tests, list(runner)


def of_source(name, *parts):
    found = sorted(glob.glob(f"{FOLDER}/{name}"))
    if not found:
        raise FileNotFoundError(f"{FOLDER}/{name}")
    return [each for part in parts for each in sorted(glob.glob(f"{found[0]}/{part}"))]


def lua(compiler, *link):
    def make(folder):
        # Debian's source has the system's triple from its own build
        with open(f"{folder}/lua5.4-deb-multiarch.h", "w") as file:
            file.write('#define DEB_HOST_MULTIARCH "any"\n')
        files = [file for file in of_source("lua5.4-*", "src/*.c") if not file.endswith("luac.c")]
        return [compiler, *compile_all(folder, [compiler], files, ["-O2", "-fPIE", "-DLUA_USE_POSIX", "-DLUA_USE_DLOPEN", "-I", folder]), "-lm", "-ldl", "-Wl,-E", *link]
    return make


def zlib(folder):
    files = [file for file in of_source("zlib-*", "*.c")]
    return ["gcc", *compile_all(folder, ["gcc"], files + of_source("zlib-*", "test/example.c"), ["-O2", "-fPIE", "-DHAVE_UNISTD_H", "-I", os.path.dirname(files[0])])]


def sqlite(folder):
    (top,) = of_source("sqlite3-*", "configure")
    top = os.path.dirname(top)
    if not os.path.exists(f"{folder}/shell.c"):
        subprocess.run([f"{top}/configure", "--disable-tcl"], cwd=folder, check=True, stdout=subprocess.DEVNULL)
        subprocess.run(["make", "sqlite3.c", "shell.c"], cwd=folder, check=True, stdout=subprocess.DEVNULL)
    return ["gcc", *compile_all(folder, ["gcc"], [f"{folder}/sqlite3.c", f"{folder}/shell.c"], ["-O2", "-g", "-fPIE", "-DSQLITE_THREADSAFE=1", "-I", folder]), "-lm", "-lpthread", "-ldl"]


def cplusplus(compiler, *link):
    return lambda folder: [compiler, *compile_all(folder, [compiler], [f"{SOURCES}/streams.cpp"], ["-O1", "-g", "-fPIE"]), *link]


def rust(folder):
    return ["rustc", "-O", "-C", "linker-features=-lld", f"{SOURCES}/words.rs"]


def llvm(folder):
    def config(*words):
        return subprocess.run(["llvm-config-14", *words], check=True, capture_output=True, text=True).stdout.split()
    libraries = [each for each in config("--link-static", "--ldflags", "--libs", "all", "--system-libs") if not each.startswith("-lPolly")]
    return ["g++", *compile_all(folder, ["g++"], [f"{SOURCES}/compile.cpp"], ["-O1", *config("--cxxflags")]), *libraries]


LUA = [["-e", "print(_VERSION, #arg)"], [f"{SOURCES}/test.lua"]]
PROGRAMS = [
    Program("Lua 5.4", lua("gcc"), LUA),
    Program("Lua 5.4, static", lua("gcc", "-static"), LUA),
    Program("Lua 5.4, AArch64", lua("aarch64-linux-gnu-gcc"), LUA, QEMU),
    Program("zlib's test", zlib, [[]]),
    Program("SQLite's shell", sqlite, [[":memory:", open(f"{SOURCES}/test.sql").read()] if os.path.exists(f"{SOURCES}/test.sql") else []]),
    Program("C++ streams, exceptions, threads", cplusplus("g++"), [["1"], ["2"]]),
    Program("the same, static", cplusplus("g++", "-static"), [["1"], ["2"]]),
    Program("the same, AArch64, static PIE", cplusplus("aarch64-linux-gnu-g++", "-static-pie"), [["1"], ["2"]], QEMU),
    Program("Rust, threads and panics", rust, [["a b a"]]),
    Program("a compiler of LLVM's libraries", llvm, [[]]),
]


def image_counts(plan):
    """Input sections that are placed, symbols and relocations of a plan."""
    with open(plan) as file:
        text = file.read()
    return text.count('"part":'), text.count('"info":'), text.count('"number":')


def link(words, folder, made, ours):
    """Links by the planner or by the system's linker; the seconds of processor time of planner and writer, or of the user and the system."""
    steps = f"{folder}/times"
    if ours:
        tool, options = HERE, [f"-Wl,--times,{steps},--plan,{folder}/plan.json"]
    else:
        tool, options = f"{folder}/timed", []
        os.makedirs(tool, exist_ok=True)
        linker = "aarch64-linux-gnu-ld" if words[0].startswith("aarch64") else "ld"
        with open(f"{tool}/ld", "w") as script:
            script.write(f'#!/bin/bash\nTIMEFORMAT="%U %S"\n{{ time /usr/bin/{linker} "$@" 2>&3; }} 3>&2 2>{steps}\n')
        os.chmod(f"{tool}/ld", 0o755)
    options = [f"-B{tool}", *options]
    if words[0] == "rustc":
        options = [f"-Clink-arg={each}" for each in options]
    linked = run([*words, "-o", made, *options], folder)
    if linked.returncode:
        raise RuntimeError(linked.stderr.decode(errors="replace").strip()[:600])
    with open(steps) as file:
        return [float(each) for each in file.read().split()[:2]]


def tested(program, folder, made):
    """Status and output of each test."""
    results = []
    for words in program.tests:
        ran = run([*program.runner, made, *words], folder, timeout=300)
        # a message names the program, and the thread by its number
        results.append((ran.returncode, ran.stdout, re.sub(rb"\(\d+\)", b"", ran.stderr.replace(made.encode(), b""))))
    return results


def main(names):
    failed = 0
    print("| Program | Bytes | Input sections | Symbols | Relocations | Planner | `link` | GNU ld | Tests |\n|---|---|---|---|---|---|---|---|---|")
    for program in PROGRAMS:
        if names and program.name not in names:
            continue
        folder = f"{FOLDER}/build/{re.sub('[^A-Za-z0-9]+', '_', program.name)}"
        os.makedirs(folder, exist_ok=True)
        try:
            words = program.make(folder)
        except (OSError, subprocess.CalledProcessError) as why:
            print(f"| {program.name} | left out: {why} |")
            continue
        try:
            seconds = sum(link(words, folder, f"{folder}/by_ld", False))
            planner, writer = link(words, folder, f"{folder}/by_planner", True)
            expected, found = tested(program, folder, f"{folder}/by_ld"), tested(program, folder, f"{folder}/by_planner")
        except (RuntimeError, subprocess.TimeoutExpired) as why:
            failed += 1
            print(f"| {program.name} | failed: {why} |")
            continue
        passed = sum(a == b for a, b in zip(expected, found))
        failed += passed != len(expected)
        if passed != len(expected):
            print("expected", expected, "found", found)
        sections, symbols, relocations = image_counts(f"{folder}/plan.json")
        print(f"| {program.name} | {os.path.getsize(f'{folder}/by_planner'):,} | {sections:,} | {symbols:,} | {relocations:,} | {planner:.2f} s | {writer:.2f} s | {seconds:.2f} s | {passed} of {len(expected)} |", flush=True)
    return 1 if failed else 0


if __name__ == "__main__":
    FOLDER = os.path.abspath(sys.argv[1])
    sys.exit(main(sys.argv[2:]))
