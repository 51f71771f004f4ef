#!/usr/bin/env python3
"""Compares the order and the binds of `space` with those of the system's dynamic linker, on x86-64 with GNU's. Run it as

    plans/check_space.py                       over crates/wild_main/out/wild_main, which ./build makes
    plans/check_space.py PROGRAM [COUNT]       over another build, and so many programs by chance

Programs and libraries without a C library are compiled by gcc. Each image is written by the system's linker, or by planner/ld with the program
(docs/PROGRAMS.md). One program has copies, thread-local data, an indirect function, visibilities and libraries that need each other. The
others are made by chance; a linker may refuse some of those, as one with a weak reference to a symbol that a library needs.

The dynamic linker tells its order (LD_TRACE_LOADED_OBJECTS) and its bindings (LD_BIND_NOW=1 LD_DEBUG=bindings). Each binding of one image to
another is compared with the bind of that symbol. If it does not find a symbol, `space` has to answer `Undefined` for it; if it does not find a
library, `Missing`. Two bindings are not compared: that for a copy, which is that of a later image; and one to a stub of a program at fixed addresses
that stands for the function's address, whose entry is no definition for `space`.
"""
import itertools
import json
import os
import platform
import random
import re
import subprocess
import sys
import tempfile

import make_space

TOP = os.path.dirname(os.path.dirname(os.path.abspath(__file__)))
EXIT = '__asm__ volatile("syscall" : : "a"(60), "D"(0)); __builtin_unreachable();'
FLAGS = ["-O1", "-nostdlib", "-fno-stack-protector", "-fcf-protection=none", "-fno-asynchronous-unwind-tables", "-Wl,--hash-style=both,--no-as-needed,--allow-shlib-undefined"]
STRONG, WEAK, PROTECTED = "", "__attribute__((weak)) ", '__attribute__((visibility("protected"))) '

# name: source, libraries that it needs. The last one is the program. Each library is linked after those that it needs, where there is a cycle
# first without them.
CHOSEN = {
    "liba.so": ("int f(void) { return 1; } int shared_number = 5; __thread int own_number = 7; int k(void); int ak(void) { return k() + f(); }", ["libb.so"]),
    "libb.so": ('int f(void) { return 2; } int g(void); __attribute__((visibility("protected"))) int h(void) { return 3; } __attribute__((visibility("protected"))) int k(void) { return 4; } '
                "int bh(void) { return f() + g() + h(); } extern int shared_number; int bs(void) { return shared_number; }", ["libd.so", "liba.so"]),
    "libd.so": ('static int one(void) { return 1; } static void *choose(void) { return one; } int picked(void) __attribute__((ifunc("choose"))); int nobody(void) __attribute__((weak)); '
                'extern __thread int own_number __attribute__((tls_model("initial-exec"))); int g(void) { return nobody ? nobody() : own_number; } int k(void) { return 9; }', ["libb.so", "libd.so"]),
    "main": (f"int f(void); int g(void); int picked(void); int k(void); extern int shared_number; void _start(void) {{ f(); g(); picked(); k(); shared_number++; {EXIT} }}", ["liba.so", "libd.so"]),
}


def by_chance(seed):
    """A program and libraries that define, use and need each other by chance."""
    chance = random.Random(seed)
    libraries = [f"lib{letter}.so" for letter in "abcdef"[:chance.randint(1, 6)]]
    names = [f"name_{index}" for index in range(chance.randint(1, 8))]
    images, defined = {}, {}
    for place, image in enumerate([*libraries, "main"]):
        needed = chance.sample(libraries, chance.randint(0 if image != "main" else 1, min(3, len(libraries))))
        own = chance.sample(names, chance.randint(0, len(names) if image != "main" else min(2, len(names))))
        used = chance.sample(names + ["missing"] * (chance.random() < 0.1), chance.randint(0, len(names)))
        # a program has only symbols of libraries that it needs, unless they are weak
        there = names + ["missing"] if image != "main" else {name for library in needed for name in defined[library]}
        defined[image] = own
        source = [f"{chance.choice([STRONG, STRONG, WEAK, PROTECTED])}int {name}(void) {{ return {place}; }}" for name in own]
        source += [f"extern int {name}(void){'' if name in there and chance.random() < 0.5 else ' __attribute__((weak))'};" for name in used if name not in own]
        calls = " ".join(f"{name}();" if name in own else f"if (&{name}) {name}();" for name in used)
        source.append(f"void {'_start' if image == 'main' else f'use_{place}'}(void) {{ {calls} {EXIT if image == 'main' else ''} }}")
        images[image] = ("\n".join(source), needed)
    return images


class Wrong(Exception):
    """What differs."""


class Unlinked(Exception):
    """What a linker says of images that it does not write."""


def compiled(folder, images, writers, fixed):
    """Writes the images. A library is first written without those that it needs, so that libraries may need each other."""
    for whole, (image, (source, needed)) in itertools.product((False, True), images.items()):
        if image == "main" and not whole:
            continue
        with open(f"{folder}/{image}.c", "w") as file:
            file.write(source)
        kind = ["-shared", "-fPIC", f"-Wl,-soname,{image}"] if image != "main" else ["-no-pie", "-fno-pie"] if fixed else ["-pie", "-fPIE"]
        writer = ["-B", f"{TOP}/planner/"] if writers[image] == "program" else []
        words = ["gcc", *writer, *FLAGS, *kind, f"{image}.c", "-L.", *[f"-l:{name}" for name in needed if whole], "-o", image + (".next" if whole else "")]
        ran = subprocess.run(words, cwd=folder, stdout=subprocess.PIPE, stderr=subprocess.STDOUT, text=True, env={**os.environ, "WILD": PROGRAM})
        if ran.returncode:
            raise Unlinked(f"{' '.join(words)}: {ran.stdout.strip()[:400]}")
    for image in images:
        os.replace(f"{folder}/{image}.next", f"{folder}/{image}")


def dynamic_linker(folder, **asked):
    ran = subprocess.run(["./main"], cwd=folder, stdout=subprocess.PIPE, stderr=subprocess.STDOUT, text=True, env={"LD_LIBRARY_PATH": ".", "LD_BIND_NOW": "1", **asked})
    return ran.stdout


def copied(path):
    """The symbols of a program that are copied from libraries."""
    shown = subprocess.run(["readelf", "-rW", path], stdout=subprocess.PIPE, text=True).stdout
    return set(re.findall(r"R_X86_64_COPY\s+\S+\s+([^\s@]+)", shown))


def compare(folder, images):
    """The number of bindings that are as the dynamic linker has them."""
    files = ["main", *sorted(set(images) - {"main"}, reverse=True)]
    read = [make_space.Image(f"{folder}/{name}") for name in files]
    ran = subprocess.run([PROGRAM, "space"], input=json.dumps(make_space.space(read)).encode(), stdout=subprocess.PIPE)
    said = ran.stdout.decode().splitlines()
    shown = dynamic_linker(folder, LD_DEBUG="bindings")
    if undefined := re.search(r"(?:\./)?(\S+): symbol lookup error: \S*?(\w[\w.]*): undefined symbol: (\w+)", shown) or re.search(r"symbol lookup error: (\S*?)(\w[\w.]*): undefined symbol: (\w+)", shown):
        if ran.returncode != 11 or not (found := re.match(r"not bound Undefined image=(\d+) index=(\d+)", said[0])):
            raise Wrong(f"the dynamic linker does not find {undefined[3]} for {undefined[2]}, and space says {said[0]}")
        name = list(read[int(found[1])].symbols())[int(found[2])][0]
        if not any(name == text for text in re.findall(r"undefined symbol: (\w+)", shown)):
            raise Wrong(f"the dynamic linker does not find {undefined[3]}, and space does not find {name}")
        return 0
    if ran.returncode:
        raise Wrong(f"space says {said[0]}, and the dynamic linker {shown.strip().splitlines()[-1:]}")
    listed = [name for name in re.findall(r"^\s*(\S+) => ", dynamic_linker(folder, LD_TRACE_LOADED_OBJECTS="1"), re.M) if name in files]
    order = [files[int(place)] for place in said[0].split()[1:]]
    if order != ["main", *listed]:
        raise Wrong(f"the order is {order}, and the dynamic linker's {['main', *listed]}")
    names = [[symbol[0] for symbol in image.symbols()] for image in read]
    binds = {}
    for line in said[1:]:
        _, image, index, target = line.split()
        binds[files[int(image)], names[int(image)][int(index)]] = target if target == "none" else files[int(target)]
    left_out = copied(f"{folder}/main")
    stubs = {name for name, _, _, section, value, _ in read[0].symbols() if value and not section}
    count = 0
    for user, definer, name in re.findall(r"binding file (\S+) \[\d+\] to (\S+) \[\d+\]: \w+ symbol `(\S+?)'", shown):
        user, definer = os.path.basename(user), os.path.basename(definer)
        if user not in files or definer not in files or (user == "main" and name in left_out) or (definer == "main" and name in stubs):
            continue
        if binds.get((user, name)) != definer:
            raise Wrong(f"{name} of {user} is bound to {binds.get((user, name))}, and by the dynamic linker to {definer}")
        count += 1
    return count


def main():
    if platform.machine() != "x86_64":
        print("left out: this is not x86-64")
        return
    cases = [("chosen", CHOSEN)] + [(f"by chance {seed}", by_chance(seed)) for seed in range(int(sys.argv[2]) if len(sys.argv) > 2 else 40)]
    failed = total = unlinked = 0
    for number, (title, images) in enumerate(cases):
        ways = [("system", "system"), ("program", "program"), ("system", "program"), ("program", "system")]
        for way, fixed in itertools.product(ways if number == 0 else [ways[number % 4]], (False, True) if number == 0 else [number % 8 > 3]):
            writers = dict(zip(images, itertools.cycle(way)))
            with tempfile.TemporaryDirectory() as folder:
                try:
                    compiled(folder, images, writers, fixed)
                    total += compare(folder, images)
                except Unlinked as reason:
                    unlinked += 1
                    if number == 0:
                        failed += 1
                        print(reason)
                except Wrong as wrong:
                    failed += 1
                    print(f"{title}, {way}, {'fixed' if fixed else 'movable'}: {wrong}")
    print(f"{len(cases)} programs, {unlinked} of them not linked, {total} bindings, {failed} differ")
    sys.exit(failed > 0)


PROGRAM = os.path.abspath(sys.argv[1]) if len(sys.argv) > 1 else f"{TOP}/crates/wild_main/out/wild_main"

if __name__ == "__main__":
    main()
