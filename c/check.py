#!/usr/bin/env python3
"""Checks the libraries for C beside the gate: check.py [LIBRARY [JSON_LIBRARY [PLACE_LIBRARY]]] (default: crates/wild_c/out/libwild_c.a,
crates/wild_json_c/out/libwild_json_c.a and crates/wild_c_place/out/libwild_c_place.a, which `./build --library` makes; without the second
or the third its checks are left out).

- wild.h compiles as C11 and as C++17 without a warning. Its structs have the members, offsets and sizes of the structs of
  wild_c_layout, its enums have their numbers; so have those of rust/wild.
- The text of each fault, and of structs that have none.
- Each plan, written as structs, has the answer of plans/*.answer.
- Each row of a page with a change of a plan and its answer has that answer, unless JSON alone can express the change.
- Each plan has that answer by `wild_link_json` too.
- Each plan has the memory by `wild_place` that the command `place` prints.
- Calls by four threads at once, and calls with each allocation refused in turn, alone and with all that follow.
- The same under valgrind, if it is there: no error, no leak.
- All this over the toolchain's liblibc_c.a; the answers of plans and these calls also over wild_arena.c.
- The examples in C and C++, and with cargo the one in Rust, write programs that run.

It needs gcc, g++ and, for the toolchain's liblibc_c.a, `rt`.
"""
import json
import os
import re
import shutil
import subprocess
import sys
import tempfile
from pathlib import Path

HERE = Path(__file__).resolve().parent
TOP = HERE.parent
STRICT = ["-Wall", "-Wextra", "-Werror", "-pedantic"]
SIZES = {"u8": 1, "bool": 1, "u16": 2, "u32": 4, "u64": 8, "i64": 8, "usize": 8, "Optional": 8}
failures = []


def check(what, ok, detail=""):
    print(f"{'ok' if ok else 'WRONG'}: {what}{'' if ok else ': ' + str(detail)}", flush=True)
    if not ok:
        failures.append(what)


def snake(name):
    return re.sub(r"(?<!^)(?=[A-Z])", "_", name).lower()


# ---- structs


def structs_of(text, prefix):
    """The #[repr(C)] structs of a source: names with lists of members and types."""
    found = {}
    for name, body in re.findall(rf"#\[repr\(C\)\]\n(?:#\[[^\n]*\n)*pub struct {prefix}(\w+)(?:<[^>]*>)? \{{\n(.*?)\n\}}", text, re.S):
        found[name] = re.findall(r"^    (?:pub )?(\w+): (.*),$", body, re.M)
    return found


def shape(kind, structs, enums=()):
    """Size and alignment of a member's type."""
    if kind == "[u8; 4]":
        return 4, 1
    if kind.startswith("&'a [") or kind.startswith("List<") or kind == "Bytes<'a>":
        return 16, 8
    name = re.sub(r"<.*>", "", kind).removeprefix("C")
    if name in structs:
        size, align, _ = placed(structs[name], structs, enums)
        return size, align
    if kind in enums:
        return 4, 4
    return SIZES[kind], SIZES[kind]


def placed(members, structs, enums=()):
    """Size, alignment and offsets of a struct, as C lays it out."""
    at, most, offsets = 0, 1, []
    for name, kind in members:
        size, align = shape(kind, structs, enums)
        at = -(-at // align) * align
        offsets.append((name, at))
        at, most = at + size, max(most, align)
    return -(-at // most) * most, most, offsets


def structs_of_crate(crate):
    return structs_of("".join(path.read_text() for path in sorted((TOP / f"crates/{crate}/src").glob("*.rt"))), "C")


def check_structs(room):
    of_layout = structs_of_crate("wild_c_layout")
    ours = {**of_layout, **structs_of_crate("wild_c_place")}
    lists = {"Bytes": "bytes", "ThunkBlock": "thunk_block"}  # structs of one list, which C has as the list itself
    lines = ['#include "wild.h"', "#include <stddef.h>"]
    for name, members in ours.items():
        size, _, offsets = placed(members, ours)
        lines.append(f'_Static_assert(sizeof(wild_{snake(name)}) == {size}, "{name}");')
        if name not in lists:
            lines += [f'_Static_assert(offsetof(wild_{snake(name)}, {member}) == {at}, "{name}.{member}");' for member, at in offsets]
    (room / "structs.c").write_text("\n".join(lines) + "\n")
    ran = subprocess.run(["gcc", "-std=c11", *STRICT, f"-I{HERE}", "-c", "structs.c", "-o", "structs.o"], cwd=room, capture_output=True, text=True)
    check(f"{len(ours)} structs of wild.h, {len(lines) - 2} sizes and offsets", ran.returncode == 0, ran.stderr[:600])

    rust = (TOP / "rust/wild/src/structs.rs").read_text()
    enums = re.findall(r"^    (\w+): \w+(?: = \d+)?,", rust, re.M)
    theirs = structs_of(rust, "")
    theirs["Warning"] = re.findall(r"^    (\w+): (.*),$", re.search(r"struct RawWarning \{\n(.*?)\n\}", rust, re.S)[1], re.M)
    for name, members in of_layout.items():
        if name not in lists:
            check(f"rust/wild: {name}", name in theirs and placed(members, ours) == placed(theirs[name], theirs, enums), theirs.get(name))


def check_choices(header, rust):
    """The order of roles, slots and roles of files, of the header and of rust/wild, against the sources."""
    codes = (TOP / "crates/wild_c_layout/src/codes.rt").read_text()
    other = {"Group": "GroupSlot", "Dynamic": "Library"}  # names that something else in the header has
    for table, kind, first in (("ROLES", "Role", "WILD_RAW"), ("SLOTS", "Slot", "WILD_DISCARD"), ("FILE_ROLES", "FileRole", "WILD_OBJECT")):
        ours = re.findall(r"::(\w+)", re.search(rf"const {table}: \[.*?\] = \[(.*?)\];", codes, re.S)[1])
        listed = re.split(r",\s*", re.search(rf"enum \{{\s*({first}\b.*?)\s*\}};", header, re.S)[1])
        wanted = ["WILD_" + snake(name if kind == "Role" else other.get(name, name)).upper() for name in ours]
        check(f"{kind}s", listed == wanted, listed)
        listed = re.split(r",\s*", re.search(rf"    {kind}: (.*?),\n\}}", rust, re.S)[1])
        check(f"rust/wild: {kind}s", listed == ["Library" if kind == "FileRole" and name == "Dynamic" else name for name in ours], listed)


def fault_names(crate="wild_types", kind="Fault"):
    """The names of faults, in the order of the sources."""
    fault = (TOP / f"crates/{crate}/src/fault.rt").read_text()
    names = re.findall(r"^    (\w+)(?: \{[^\n]*|,)$", re.search(rf"pub enum {kind} \{{\n(.*?)\n\}}", fault, re.S)[1], re.M)
    return [name for name in names if name != "OutOfMemory"]


def check_numbers():
    """Choices, faults and flags of the header against the sources."""
    header = (HERE / "wild.h").read_text()
    check_choices(header, (TOP / "rust/wild/src/structs.rs").read_text())
    for what, first, names in (("faults", "WILD_MALFORMED_LAYOUT", fault_names()), ("faults of loading", "WILD_NOT_ELF", fault_names("wild_loader", "LoadFault"))):
        listed = re.search(rf"enum \{{\s*({first}.*?)\}};", header, re.S)[1]
        given = [word.split("=")[0].strip() for word in listed.split(",")]
        check(what, given == [f"WILD_{snake(name).upper()}" for name in names], given)
    symbol = (TOP / "crates/wild_types/src/symbol.rt").read_text()
    flags = re.findall(r"^        const (\w+) = (\d+);", symbol, re.M)
    check("flags", all(re.search(rf"WILD_FLAG_{name} = {bit}\b", header) for name, bit in flags), flags)
    rust = (TOP / "rust/wild/src/structs.rs").read_text()
    check("rust/wild: flags", all(f"pub const {name}: u32 = {bit};" in rust for name, bit in flags), flags)


# ---- programs


def built(room, name, sources, libraries, extra=(), compiler="gcc", standard="gnu11"):
    words = [compiler, f"-std={standard}", "-O1", "-g", *STRICT, f"-I{HERE}", *map(str, sources), *map(str, libraries), *extra, "-o", name]
    ran = subprocess.run(words, cwd=room, capture_output=True, text=True)
    check(f"{name}: compiled", ran.returncode == 0, ran.stderr[:600])
    return room / name


def check_plan(room, name, libraries, answer):
    """The answer to the plan that plan.c has, also under valgrind, and the calls of stress.c."""
    program = built(room, f"{name}_answer", ["plan.c", HERE / "answer.c"], libraries)
    ran = subprocess.run([program], capture_output=True)
    check(f"{name}: answer", ran.returncode == 0 and ran.stdout == answer, ran.returncode)
    valgrind = shutil.which("valgrind")
    if valgrind:
        ran = subprocess.run([valgrind, "-q", "--leak-check=full", "--error-exitcode=99", program], capture_output=True)
        check(f"{name}: valgrind", ran.returncode == 0 and ran.stdout == answer, ran.stderr[-600:])
    words = ["-pthread", "-Wl,--wrap=malloc,--wrap=realloc"]
    stress = built(room, f"{name}_stress", ["plan.c", HERE / "stress.c"], libraries, words)
    ran = subprocess.run([stress], capture_output=True, text=True)
    check(f"{name}: {ran.stdout.strip()}", ran.returncode == 0, ran.returncode)


def check_plans(room, libraries):
    for plan in sorted((TOP / "plans").glob("*.json")):
        answer = plan.with_suffix(".answer").read_bytes()
        written = subprocess.run([sys.executable, HERE / "plan_to_c.py"], stdin=plan.open(), capture_output=True, check=True)
        (room / "plan.c").write_bytes(written.stdout)
        check_plan(room, plan.stem, libraries, answer)
        check_plan(room, f"{plan.stem}_arena", [libraries[0], HERE / "wild_arena.c"], answer)


def check_json(room, libraries):
    """Each plan by wild_link_json, and a text that is no plan."""
    program = built(room, "link", [HERE / "link.c"], libraries)
    for plan in sorted((TOP / "plans").glob("*.json")):
        ran = subprocess.run([program], stdin=plan.open(), capture_output=True)
        check(f"{plan.stem}: by JSON", ran.returncode == 0 and ran.stdout == plan.with_suffix(".answer").read_bytes(), ran.returncode)
    for text, status, said in (("{", 3, "not a plan: json\n"), ('{"page_size":-1}', 3, "not a plan: /page_size\n"), ("{}", 1, "refused MalformedLayout clause=1 index=0\n")):
        ran = subprocess.run([program], input=text, capture_output=True, text=True)
        check(f"{text}: by JSON", (ran.returncode, ran.stdout) == (status, said), (ran.returncode, ran.stdout))


def check_place(room, libraries):
    """Each plan by wild_place, in a world without answers, and by the command `place`."""
    for plan in sorted((TOP / "plans").glob("*.json")):
        written = subprocess.run([sys.executable, HERE / "plan_to_c.py"], stdin=plan.open(), capture_output=True, check=True)
        (room / "plan.c").write_bytes(written.stdout)
        program = built(room, f"{plan.stem}_place", ["plan.c", HERE / "place.c"], libraries)
        ran = subprocess.run([program], capture_output=True, text=True)
        text = f'{{"plan":{plan.read_text()}}}'
        wanted = subprocess.run([TOP / "place", "1"], input=text, capture_output=True, text=True)
        said = wanted.stdout
        if wanted.returncode == 10:
            name, value = said.split()[2], re.search(r"=(\d+)$", said.strip())
            said = f"not placed {fault_names('wild_loader', 'LoadFault').index(name) + 1} {value[1] if value else 0}\n"
        same = ran.returncode == wanted.returncode and (ran.returncode not in (0, 10) or ran.stdout == said)
        check(f"{plan.stem}: place, status {wanted.returncode}", same, (ran.returncode, ran.stdout[:200], said[:200]))


def check_rows(room, libraries):
    """The rows of pages with a change of a plan and its answer; the first lines are compared."""
    sys.path.append(str(TOP / "plans"))
    import check_docs

    wrong, count = [], 0
    subprocess.run(["gcc", "-O1", f"-I{HERE}", "-c", str(HERE / "answer.c"), "-o", "answer.o"], cwd=room, check=True)
    for page in check_docs.PAGES:
        for where, _, ahead, heads, cells in check_docs.rows(page):
            said = cells[-1].strip("`")
            if heads[-2:] != ["Change", "Answer"] or said.startswith("not a plan"):
                continue
            plan = (re.findall(r"`(plans/\w+\.json)`", cells[0]) or re.findall(r"`(plans/\w+\.json)`", ahead))[-1]
            changed = check_docs.changed(json.loads(check_docs.read(plan)), cells[-2], check_docs.letters(ahead))
            words = [sys.executable, HERE / "plan_to_c.py"]
            written = subprocess.run(words, input=json.dumps(changed).encode(), capture_output=True, check=True)
            (room / "plan.c").write_bytes(written.stdout)
            words = ["gcc", "-O0", f"-I{HERE}", "plan.c", "answer.o", *map(str, libraries), "-o", "row"]
            subprocess.run(words, cwd=room, check=True)
            ran = subprocess.run([room / "row"], capture_output=True, text=True)
            count += 1
            if (ran.stdout.split("\n")[0], ran.returncode) != (said, 0 if said.startswith("image") else 1):
                wrong.append((where, said, ran.returncode, ran.stdout[:100]))
    check(f"{count} rows of pages with a change and its answer", not wrong, wrong[:5])


def check_faults(room, libraries):
    """The text of each fault, in a buffer of its length, and in one that is too short; and of structs that have no fault."""
    program = built(room, "faults", [HERE / "faults.c"], libraries)
    ran = subprocess.run([program], capture_output=True, text=True)
    names = dict.fromkeys(line.split()[1] for line in ran.stdout.splitlines())
    check(f"{len(names)} faults by wild_fault_text", ran.returncode == 0 and list(names) == fault_names(), ran.stdout[-600:])


def check_examples(room, libraries):
    for source, compiler, standard in (("hello.c", "gcc", "gnu11"), ("hello.cc", "g++", "c++17")):
        maker = built(room, f"make_{source[6:] or source}", [HERE / source], libraries, compiler=compiler, standard=standard)
        subprocess.run([maker, "hello"], cwd=room, check=True)
        ran = subprocess.run([room / "hello"], capture_output=True, text=True)
        check(f"{source}: {ran.stdout.strip()}", ran.returncode == 0 and ran.stdout.startswith("Hello from C"), ran.returncode)
    if not shutil.which("cargo"):
        print("left out: rust/wild, without cargo")
        return
    folder = {**os.environ, "WILD_LIB": str(libraries[0].parent), "WILD_KIT": str(libraries[1].parent), "CARGO_TARGET_DIR": str(room / "target")}
    words = ["cargo", "run", "--offline", "--quiet", "--example", "hello", str(room / "hello")]
    ran = subprocess.run(words, cwd=TOP / "rust/wild", env=folder, capture_output=True, text=True)
    check("rust/wild: compiled", ran.returncode == 0, ran.stderr[-600:])
    ran = subprocess.run([room / "hello"], capture_output=True, text=True)
    check(f"hello.rs: {ran.stdout.strip()}", ran.returncode == 0 and ran.stdout == "Hello from Rust.\n", ran.returncode)


def main():
    library = Path(sys.argv[1] if len(sys.argv) > 1 else TOP / "crates/wild_c/out/libwild_c.a").resolve()
    heap = Path(shutil.which("rt") or "/").resolve().parent.parent / "c/liblibc_c.a"
    libraries = [library, heap]
    by_json = Path(sys.argv[2] if len(sys.argv) > 2 else TOP / "crates/wild_json_c/out/libwild_json_c.a").resolve()
    placer = Path(sys.argv[3] if len(sys.argv) > 3 else TOP / "crates/wild_c_place/out/libwild_c_place.a").resolve()
    with tempfile.TemporaryDirectory() as folder:
        room = Path(folder)
        (room / "both.c").write_text('#include "wild.h"\nint main(void) { wild_layout l = WILD_LAYOUT_INIT; return (int)l.kind; }\n')
        shutil.copy(room / "both.c", room / "both.cc")
        for compiler, standard, source in (("gcc", "c11", "both.c"), ("g++", "c++17", "both.cc")):
            built(room, source.replace(".", "_"), [source], [], compiler=compiler, standard=standard)
        check_structs(room)
        check_numbers()
        check_faults(room, libraries)
        check_plans(room, libraries)
        check_rows(room, libraries)
        if by_json.exists():
            check_json(room, [by_json, heap])
        else:
            print(f"left out: plans in JSON, without {by_json}")
        if placer.exists():
            check_place(room, [placer, heap])
        else:
            print(f"left out: memory, without {placer}")
        check_examples(room, libraries)
    if failures:
        sys.exit(f"check.py: {len(failures)} wrong: {', '.join(failures[:10])}")
    print("check.py: all right")


if __name__ == "__main__":
    main()
