#!/usr/bin/env python3
"""Links small programs by planner/ld, runs them, and compares what they print with what is said here. Prints what differs; the status is 0 where nothing does.

    planner/check.py [PROGRAM]

PROGRAM is a build of crates/wild_main, else that which planner/ld takes. Rows for AArch64 are left out, and said so, where its compiler or qemu-aarch64 is not there.
"""
import os
import shutil
import subprocess
import sys
import tempfile

HERE = os.path.dirname(os.path.abspath(__file__))
MACHINES = {"x86_64": ("", []), "aarch64": ("aarch64-linux-gnu-", ["qemu-aarch64", "-L", "/usr/aarch64-linux-gnu"])}
SOURCES = {
    "hello.c": '#include <stdio.h>\nint main(int n, char **v) { printf("hello %d\\n", n); return 3; }\n',
    # what a library and a program share: data, thread-local data, a function's address, another name of what is copied
    "library.c": """#include <stdio.h>
int data = 5; __thread int mine = 9; static __thread int inner = 4;
int (*table[])(const char *) = {puts};
int twice(int n) { return 2 * n + mine + inner++; }
__attribute__((visibility("hidden"))) int hidden(void) { return data; }
void say(const char *s) { table[0](s); printf("%d %d\\n", hidden(), twice(4)); fflush(stdout); }
""",
    "program.c": """#include <stdio.h>
#include <stdlib.h>
#include <string.h>
extern int data; extern __thread int mine; extern char **environ; void say(const char *); int twice(int);
__attribute__((weak)) int nowhere(void); int (*pointer)(int) = twice; int common[100];
int main(void) {
    int n = 0;
    data = 6; mine++; say("main"); setenv("WHO", "me", 1);
    for (char **e = environ; *e; e++) n += !strncmp(*e, "WHO=", 4);
    printf("%d %d %d %d\\n", pointer(3), n, pointer == twice, nowhere ? nowhere() : common[99]);
    return n;
}
""",
    # functions that a resolver chooses, an order of constructors, the bounds of a section, merged strings
    "chosen.c": """#include <stdio.h>
#include <string.h>
static int one(void) { return 1; } static int two(void) { return 2; }
static int (*choose(void))(void) { return two; }
int chosen(void) __attribute__((ifunc("choose")));
int (*address)(void) = chosen; static int order[4], next;
__attribute__((constructor(300))) static void c(void) { order[next++] = 3; }
__attribute__((constructor(200))) static void b(void) { order[next++] = 2; }
__attribute__((constructor)) static void d(void) { order[next++] = 4; }
__attribute__((section("numbers"))) int first = 10, second = 20; extern int __start_numbers[], __stop_numbers[];
const char *a = "merged", *again = "merged";
int main(void) {
    printf("%d %d %d%d%d %d %d %d\\n", chosen(), address(), order[0], order[1], order[2], (int)(__stop_numbers - __start_numbers), __start_numbers[0] + __start_numbers[1], a == again && !strcmp(a, "merged"));
    return one();
}
""",
    # a library calls its own function, which a resolver chooses and a program may replace
    "picked.c": """static int three(void) { return 3; }
static int (*pick(void))(void) { return three; }
int picked(void) __attribute__((ifunc("pick"))); int (*pointer)(void) = picked;
int inside(void) { return picked() + pointer(); }
""",
    "picks.c": """#include <stdio.h>
int inside(void);
#ifdef OWN
int picked(void) { return 4; }
#else
int picked(void);
#endif
int main(void) { printf("%d %d\\n", picked(), inside()); return 0; }
""",
    "thrown.cpp": """#include <iostream>
#include <stdexcept>
#include <string>
struct Trace { ~Trace() { std::cout << "left\\n"; } };
thread_local std::string name = "thread";
static int deep(int n) { Trace trace; if (!n) throw std::runtime_error("bottom"); return deep(n - 1) + 1; }
int main() { try { return deep(1); } catch (const std::exception &e) { std::cout << e.what() << " " << name << std::endl; return 7; } }
""",
    "undefined.c": "int nowhere(void);\nint main(void) { return nowhere(); }\n",
    "narrow.c": "int data;\nint main(void) { return data; }\n",
    "word.s": ".data\n.globl word\nword: .quad elsewhere\n",
}
HELLO, SHARED = (3, "hello 1\n"), (1, "main\n6 22\n21 1 1 0\n")
CHOSEN, THROWN = (1, "2 2 234 2 30 1\n"), (7, "left\nleft\nbottom thread\n")
KINDS = {"PIE": [], "fixed": ["-no-pie", "-fno-pic"], "static": ["-static"], "static PIE": ["-static-pie"]}
PICKED = [("and used", [], "NONE", "3 6\n"), ("and replaced", [], "OWN", "4 8\n"), ("its own always", ["-Wl,-Bsymbolic"], "OWN", "4 6\n"), ("without stubs", ["-fno-plt", "-O1"], "OWN", "4 8\n")]
# compilers, words of each, what it ends with and prints
PROGRAMS = (
    [(f"hello, {kind}", "gcc", [[*words, "hello.c", "-o", "out"]], HELLO) for kind, words in KINDS.items()]
    + [(f"program, {kind}", "gcc", [[*words, "-g", "program.c", "library.c", "-o", "out"]], SHARED) for kind, words in KINDS.items()]
    + [(f"with a library, {kind}", "gcc", [["-shared", "-fPIC", "library.c", "-o", "liblibrary.so"], [*words, "program.c", "-o", "out", "-L.", "-llibrary", "-Wl,-rpath,."]], SHARED) for kind, words in list(KINDS.items())[:2]]
    + [(f"chosen, {kind}", "gcc", [[*words, "-O1", "chosen.c", "-o", "out"]], CHOSEN) for kind, words in KINDS.items()]
    + [(f"chosen in a library, {kind}", "gcc", [["-shared", "-fPIC", *words, "picked.c", "-o", "libpicked.so"], ["picks.c", f"-D{own}", "-o", "out", "-L.", "-lpicked", "-Wl,-rpath,."]], (0, said)) for kind, words, own, said in PICKED]
    + [(f"thrown, {kind}", "g++", [[*words, "thrown.cpp", "-o", "out"]], THROWN) for kind, words in KINDS.items()]
    + [
        ("packed addresses", "gcc", [["-O1", "program.c", "library.c", "-o", "out", "-Wl,-z,pack-relative-relocs"]], SHARED),
        ("packed addresses, static PIE", "g++", [["-static-pie", "thrown.cpp", "-o", "out", "-Wl,-z,pack-relative-relocs"]], THROWN),
        ("relocatable", "g++", [["-r", "-O1", "thrown.cpp", "-o", "both.o"], ["both.o", "-o", "out"]], THROWN),
        ("an archive", "gcc", [["-c", "library.c", "-o", "library.o"], "ar rcs liblibrary.a library.o", ["program.c", "-o", "out", "-L.", "-l:liblibrary.a", "-Wl,--build-id=0x0102,-s"]], SHARED),
        ("both hash tables", "gcc", [["-shared", "-fPIC", "library.c", "-o", "liblibrary.so", "-Wl,--hash-style=sysv,-soname,liblibrary.so"], ["program.c", "-o", "out", "-L.", "-llibrary", "-Wl,-rpath,.,--hash-style=both,-E"]], SHARED),
    ]
)
REFUSED = [
    (["hello.c", "-Wl,--no-such-option"], "option --no-such-option is not known"),
    (["hello.c", "-Wl,-z,nosuch"], "option -z nosuch is not known"),
    (["undefined.c"], "undefined reference to nowhere"),
    (["hello.c", "hello.c"], "symbol main is defined in"),
    (["-shared", "-fno-pic", "narrow.c"], "refused RecompileWithPic"),
    (["hello.c", "-lnowhere"], "cannot find -lnowhere"),
    (["hello.c", "word.s", "-Wl,-T,word.s"], "option -T is not known"),
]
REFUSED_OF = {
    "x86_64": [],
    "aarch64": [(["-shared", "-fPIC", "-mcmodel=tiny", "narrow.c"], "has R_AARCH64_GOT_LD_PREL19, of the tiny code model: compile with -mcmodel=small")],
}


def link(machine, compiler, words, folder):
    if isinstance(words, str):
        return subprocess.run(words.split(), cwd=folder, capture_output=True, text=True)
    return subprocess.run([MACHINES[machine][0] + compiler, f"-B{HERE}", *words], cwd=folder, capture_output=True, text=True)


def main():
    differences = rows = 0

    def differs(what, said, found):
        nonlocal differences
        differences += 1
        print(f"{what}\n    said:  {said}\n    found: {found}")

    if len(sys.argv) > 1:
        os.environ["WILD"] = os.path.abspath(sys.argv[1])
    with tempfile.TemporaryDirectory() as top:
        for machine, (prefix, runner) in MACHINES.items():
            if runner and not (shutil.which(prefix + "g++") and shutil.which(runner[0])):
                print(f"{machine} is left out: {prefix}g++ or {runner[0]} is not there")
                continue
            folder = f"{top}/{machine}"
            os.mkdir(folder)
            for name, text in SOURCES.items():
                with open(f"{folder}/{name}", "w") as file:
                    file.write(text)
            for name, compiler, steps, said in PROGRAMS:
                rows += 1
                made = [link(machine, compiler, words, folder) for words in steps]
                wrong = next((each.stderr for each in made if each.returncode), None)
                if wrong is None:
                    ran = subprocess.run([*runner, "./out"], cwd=folder, capture_output=True, text=True)
                    wrong = None if (ran.returncode, ran.stdout) == said else (ran.returncode, ran.stdout, ran.stderr[:400])
                if wrong is not None:
                    differs(f"{machine}, {name}", said, wrong)
            for words, said in REFUSED + REFUSED_OF[machine]:
                rows += 1
                tried = link(machine, "gcc", [*words, "-o", "refused"], folder)
                if not tried.returncode or said not in tried.stderr or os.path.exists(f"{folder}/refused"):
                    differs(f"{machine}, {' '.join(words)}", said, (tried.returncode, tried.stderr[:400]))
    print(f"{rows} rows, {differences} differ")
    return 1 if differences else 0


if __name__ == "__main__":
    sys.exit(main())
