#!/usr/bin/env python3
"""Compares what the pages say with what the program does. Prints what differs; the status is 0 where nothing does.

    plans/check_docs.py              over crates/wild_main/out/wild_main, which ./build makes, and crates/wild_explain_main/out/wild_explain_main
    plans/check_docs.py PROGRAM [EXPLAIN]
    plans/check_docs.py --changes PROGRAM    only rows under "Change | Answer", as the gate does; it prints nothing where none differs

- A block of commands is run where the paragraph behind it tells a status: what stands there in backticks behind "prints" is in its output.
- A row under "Change | Answer" is the plan with the changes: its first line is the answer, for 1 and for 64 workers. Of one that is refused `explain` names a place.
- A row under "Its program" is an image that is run, one of another machine by qemu.
- Of each member of docs/PLAN.md the example is read, and a float is refused at its path; plans with all defaults written out mean the same. Of a member
  that is not there `explain` tells those that are.
- An indented block behind a paragraph that names a plan is in the output of `explain`, or of the words that the paragraph names, for the plan with the
  paragraph's changes. This is left out, and said so, where that program is not there.
- The answers and the makers of plans, plans in readable spelling, one of them in pieces, and the statuses of README.md.
- docs/plan.schema.json has the members, types and defaults of docs/PLAN.md, and takes what the program reads as a plan and nothing else.
- `link -o` writes the image that the program prints. Plans whose sizes, offsets and addresses were left out and filled in by `needs --fill` have an image,
  and their programs do the same.
- Files and functions that a page names are there.
- docs/API.md has a line for each public function, method and type of the crates that it names, and for nothing else.
- Each library on a line of crates.txt is named by a file of its crate, and each crate is in docs/ARCHITECTURE.md; `--changes` checks these too.
"""
import collections
import contextlib
import copy
import functools
import glob
import itertools
import json
import os
import platform
import re
import shutil
import subprocess
import sys
import tempfile

TOP = os.path.dirname(os.path.dirname(os.path.abspath(__file__)))
sys.path.append(f"{TOP}/tools")

import fill_plan
import make_aarch64
import readable

PAGES = ["README.md", "CONTRIBUTING.md", *sorted(os.path.relpath(page, TOP) for page in glob.glob(f"{TOP}/docs/*.md"))]
PLANS = sorted(glob.glob(f"{TOP}/plans/*.json"))
# the tables of members in docs/PLAN.md, by their first column or their section, and where such an object stands in a plan
FILE = "/groups/0/files/0"
STANDS = {
    "The plan": "", "Options": "/options", "Part": "/parts/0", "Section": "/sections/0", "Segment": "/segments/0", "Symbol": "/symbols/0",
    "Input section": f"{FILE}/sections/0", "Relocation": f"{FILE}/sections/0/relocations/0", "Member of `tls`": "/tls",
    "Member of a dynamic symbol": "/dynsyms/0", "Member of `sysv_hash`": "/sysv_hash", "Member of `gnu_hash`": "/gnu_hash",
    "Member of a version definition": "/verdefs/0", "Member of a `resolution`": "/symbols/0/resolution", "Member of a group": "/groups/0",
    "Member of a file": FILE, "Member of `verneed`": f"{FILE}/verneed", "Member of a thunk": "/thunk_blocks/0/0",
    "Member of an item of `sorted`": "/sorted/0", "Member of an item of `merged`": "/merged/0", "Member of `identity`": "/identity",
    "Member of a property": "/properties/0", "Member of an item of `strings`": f"{FILE}/sections/0/strings/0",
}
CHANGE = re.compile(r"((?:`[/A-Z][^`]*`(?: and )?)+) to (?:`([^`]*)`|(null|-?\d+))(, added)?")
differences = 0


def differs(where, said, found):
    global differences
    differences += 1
    print(f"{where}\n    said:  {said}\n    found: {found}")


def same(where, said, found):
    if said != found:
        differs(where, said, found)


def read(path):
    with open(os.path.join(TOP, path)) as page:
        return page.read()


# The program

def answer(plan, *words):
    """The status and the text for a plan, given as a value or as text."""
    text = plan if isinstance(plan, str) else json.dumps(plan, separators=(",", ":"))
    ran = subprocess.run([PROGRAM, *(words or ("link", "1"))], input=text.encode(), stdout=subprocess.PIPE)
    return ran.returncode, ran.stdout.decode()


def image(plan, path):
    """Writes the image of a plan as a program."""
    lines = answer(plan)[1].splitlines()
    with open(path, "wb") as file:
        file.write(bytes.fromhex("".join(line for line in lines if " " not in line)))
    os.chmod(path, 0o755)


def run(words, folder):
    """The status, as a shell tells it, and the output."""
    ran = subprocess.run(words, cwd=folder, stdout=subprocess.PIPE, stderr=subprocess.STDOUT, errors="replace")
    return ran.returncode if ran.returncode >= 0 else 128 - ran.returncode, ran.stdout


# Tables of the pages

def rows(page):
    """Each row of a page's tables: its line, the section, the paragraph ahead of the table, its heads and its cells."""
    section, ahead, heads = "", "", None
    for number, line in enumerate(read(page).splitlines(), 1):
        if line.startswith("|"):
            cells = [cell.strip().replace("\\|", "|") for cell in re.split(r"(?<!\\)\|", line)[1:-1]]
            if heads is None:
                heads = cells
            elif not set(line) <= set("|- "):
                yield f"{page}:{number}", section, ahead, heads, cells
        else:
            ahead = line if heads else f"{ahead} {line}"
            heads = None
            if line.startswith("#"):
                section, ahead = line.strip("# "), ""


def at(plan, path):
    """The list or object that a path goes to, and its last step."""
    *steps, last = path.strip("/").split("/")
    for step in steps:
        if isinstance(plan, dict):
            plan = plan.setdefault(step, {})
        else:
            plan = plan[int(step)]
    return plan, int(last) if isinstance(plan, list) else last


def put(plan, path, value, into):
    inside, step = at(plan, path)
    if into and isinstance(inside, list):
        inside.insert(step, value)
    else:
        inside[step] = value


def letters(text):
    """The short names of paths that a paragraph gives: "R is `/groups/0`"."""
    given = {}
    for name, path in re.findall(r"\b([A-Z]) is\s+`([^`]+)`", text):
        given[name] = path if path.startswith("/") else given[path[0]] + path[1:]
    return given


def changed(plan, change, short):
    """The plan with the changes of a row."""
    plan = copy.deepcopy(plan)
    found = CHANGE.findall(change)
    if not found:
        return moved_slots(plan) if "4 bytes further on" in change else None
    for paths, text, word, added in found:
        for path in re.findall(r"`([^`]*)`", paths):
            whole = path if path.startswith("/") else short[path[0]] + path[1:]
            put(plan, whole, json.loads(text or word), added or "put in" in change)
    return plan


def moved_slots(plan):
    """The parts got and got_relr with align 4, their section and all slots 4 bytes further on, what stands behind them 8, in a longer segment."""
    slots = [part for part in plan["parts"] if part.get("role") in ("got", "got_relr")]
    first, last = slots[0]["address"], slots[-1]["address"] + slots[-1]["size"]
    files = [file for group in plan["groups"] for file in group["files"]]
    inputs = [item for file in files for item in file.get("sections", ())]
    resolutions = [symbol["resolution"] for symbol in plan["symbols"] if symbol.get("resolution")]
    places = [(item, "address") for item in plan["parts"] + plan["sections"] + inputs]
    places += [(item, name) for item in resolutions for name in ("raw_value", "got")] + [(plan, "tlsld")]
    offsets = {item["address"] - item["offset"] for item in slots}.pop()
    for item in plan["parts"] + plan["sections"]:
        if item.get("offset", 0) + offsets >= first:
            item["offset"] += 4 if item["offset"] + offsets < last else 8
    for item, name in places:
        if (item.get(name) or 0) >= first:
            item[name] += 4 if item[name] < last else 8
    for item in slots + plan["sections"][slots[0]["section"]:slots[0]["section"] + 1]:
        item["align"] = 4
    for item in plan["segments"]:
        if item.get("kind") == 1 and item["address"] < first < item["address"] + item["mem_size"]:
            item["file_size"] += 8
            item["mem_size"] += 8
    return plan


# What is checked

def changes():
    """Rows of a change and its answer."""
    for page in PAGES:
        for where, _, ahead, heads, cells in rows(page):
            if heads[-2:] != ["Change", "Answer"]:
                continue
            plan = (re.findall(r"`(plans/\w+\.json)`", cells[0]) or re.findall(r"`(plans/\w+\.json)`", ahead))[-1]
            wrong = changed(json.loads(read(plan)), cells[-2], letters(ahead))
            if wrong is None:
                differs(where, cells[-2], "a change that this script does not know")
                continue
            said = cells[-1].strip("`")
            for workers in ("1", "64"):
                status, text = answer(wrong, "link", workers)
                same(where, (0 if said.startswith("image") else 3 if said.startswith("not") else 1, said), (status, text.split("\n")[0]))
            if os.path.exists(EXPLAIN) and said.startswith(("refused", "not a plan: /")):
                text = run_explain(wrong, ["explain"])
                same(f"{where}, explained", (said, True), (text.split("\n")[0], "\nwhere: /" in text))


def runner_of(plan):
    """The words that run an image of a plan's machine."""
    machine = json.loads(read(plan)).get("machine", "x86_64")
    return [] if machine == platform.machine() else [f"qemu-{machine}"]


def programs():
    """Rows of plans whose programs run."""
    for where, _, _, heads, cells in rows("docs/PLAN.md"):
        told = re.search(r"status (\d+)", cells[-1])
        if heads[-1] != "Its program" or not told:
            continue
        plan = re.search(r"plans/\w+\.json", cells[0])[0]
        runner = runner_of(plan)
        if runner and not shutil.which(runner[0]):
            print(f"left out: {plan}: there is no {runner[0]}")
            continue
        printed = re.search(r"prints `([^`]*)`", cells[-1])
        for text in [read(plan)] + [filled(plan)] * os.path.exists(EXPLAIN):
            with tempfile.TemporaryDirectory() as folder:
                image(text, f"{folder}/program")
                status, said = run([*runner, f"{folder}/program"], folder)
            same(where, (int(told[1]), printed[1] if printed else ""), (status, said.strip()))


@contextlib.contextmanager
def checkout():
    """A folder with the scripts and plans of this checkout, in which the programs are the ones that are checked."""
    with tempfile.TemporaryDirectory() as folder:
        for name in ("link", "verify", "relink", "place", "explain", "needs", "space", "tools", "plans"):
            os.symlink(f"{TOP}/{name}", f"{folder}/{name}")
        for name, program in (("wild_main", PROGRAM), ("wild_explain_main", EXPLAIN)):
            os.makedirs(f"{folder}/crates/{name}/out")
            os.symlink(program, f"{folder}/crates/{name}/out/{name}")
        os.symlink("/bin/true", f"{folder}/build")
        yield folder


def scripts():
    """`link -o` writes the image that the program prints, and has its other lines and its status."""
    wrong = [(json.dumps({"machine": "x86_64", "kind": "static"}), "1"), ("{", "1"), (read("plans/smallest.json"), "65")]
    with checkout() as folder:
        for text, workers in [(read(path), "1") for path in PLANS] + wrong:
            with open(f"{folder}/plan.json", "w") as file:
                file.write(text)
            with open(f"{folder}/image", "w") as file:
                os.chmod(f"{folder}/image", 0o644)
                file.write("as before")
            status, said = answer(text, "link", workers)
            lines = said.splitlines(keepends=True)
            where = f"./link -o image {workers} < {text[:60]}"
            same(where, (status, "".join(line for line in lines if status or " " in line)), run(["bash", "-c", f"./link -o image {workers} < plan.json"], folder))
            with open(f"{folder}/image", "rb") as file:
                same(where, b"as before" if status else bytes.fromhex("".join(line for line in lines if " " not in line)), file.read())
            same(f"{where}: executable", status == 0, os.access(f"{folder}/image", os.X_OK))


# addresses of code that is to be far from its caller
FAR = 2**27


def bare(plan):
    """A plan without the sizes, offsets and addresses that `needs --fill` finds. Symbols with an address are placed in their output section."""
    plan = copy.deepcopy(plan)
    files = [file for group in plan["groups"] for file in group["files"]]
    inputs = [item for file in files for item in file.get("sections", ())]
    own = {}
    for index, symbol in enumerate(plan["symbols"]):
        resolution, is_stub = symbol.get("resolution") or {}, "PLT" in symbol.get("flags", ())
        at = resolution.get("raw_value", 0)
        sections = [number for number, item in enumerate(plan["sections"]) if item.get("flags", 0) & 2 and 0 <= at - item.get("address", 0) < item.get("size", 0)]
        if isinstance(symbol.get("place"), dict):
            own[at] = index
        elif at and sections and not is_stub:
            symbol.update(place={"output": sections[0]}, value=at - plan["sections"][sections[0]]["address"])
        drop(resolution, "got", "plt", *["raw_value"] * (is_stub or isinstance(symbol.get("place"), dict)))
    if (address := (plan.get("entry") or {}).get("address")) in own:
        plan["entry"] = {"symbol": own[address]}
    # the size of a raw part without input sections stays, as of one for copies
    filled = {item.get("part", 0) for item in inputs if item.get("slot", "discard") != "discard"}
    for index, part in enumerate(plan["parts"]):
        drop(part, "offset", *["size"] * (part.get("role", "raw") != "raw" or index in filled))
    for item in plan["sections"] + plan.get("segments", []):
        drop(item, "offset", "size", "file_size", "mem_size")
    for item in [item for name in ("parts", "sections", "segments") for item in plan.get(name, ()) if item.get("address", 0) < FAR] + inputs + list(itertools.chain(*plan.get("thunk_blocks", []))):
        drop(item, "address")
    for group in plan["groups"]:
        drop(group, "part_sizes", *fill_plan.STARTS)
    drop(plan, "tls", "got_base")
    if plan.get("tlsld") is not None:
        plan["tlsld"] = 0
    return plan


def drop(item, *members):
    for member in members:
        item.pop(member, None)


def filled(path):
    """The plan with its sizes, offsets and addresses left out and filled in again, as text."""
    plan, _ = fill_plan.filled(json.dumps(bare(json.loads(read(path)))), lambda text: run_explain(json.loads(text), ["needs"]))
    return json.dumps(plan)


def fillings():
    """Plans that `needs --fill` filled in have an image, and where the alignment of a part is that of its input sections, the same one."""
    for path in PLANS if os.path.exists(EXPLAIN) else ():
        if not json.loads(read(path)).get("options", {}).get("only_keep_debug"):
            status, text = answer(filled(path))
            same(f"{path}: filled", 0, status)
            if os.path.basename(path) in ("hello.json", "partial.json", "pie.json", "smallest.json", "worked.json"):
                same(f"{path}: filled", read(path.replace(".json", ".answer")), text)


def commands():
    """Blocks of commands with a status behind them."""
    for page in PAGES:
        for block, behind in re.findall(r"^```sh\n(.*?)^```\n\s*(.*?)(?:\n\n|\Z)", read(page), re.M | re.S):
            told = re.search(r"status (\d+)", behind)
            if not told:
                continue
            if re.search(r"\./(needs|explain)\b", block) and not os.path.exists(EXPLAIN):
                print(f"left out: {page}: there is no {EXPLAIN}")
                continue
            with checkout() as folder:
                status, text = run(["bash", "-c", block], folder)
            where = f"{page}: {block.splitlines()[0]}"
            same(where, int(told[1]), status)
            for said in re.findall(r"`([^`]+)`", behind[:told.start()].partition("prints")[2]):
                if said not in text:
                    differs(where, said, text[:200])


def explanations():
    """Blocks that `explain` and `needs` print."""
    if not os.path.exists(EXPLAIN):
        print(f"left out: there is no {EXPLAIN}")
        return
    for page in ("docs/EXPLAIN.md", "docs/LINKERS.md"):
        explained(page)


def explained(page):
    """Blocks of a page that `explain` and `needs` print."""
    ahead = ""
    for number, paragraph in enumerate(re.split(r"\n\n+", read(page))):
        if not paragraph.startswith("    "):
            ahead = paragraph
        elif named := re.findall(r"`(plans/\w+\.json)`", ahead):
            plan = json.loads(read(named[-1]))
            words = re.findall(r"`((?:explain|needs|--)[^`<]*)`", ahead)
            asked = (words[-1] if words else "explain").split()
            asked = ["explain"] * asked[0].startswith("--") + asked
            found = run_explain(changed(plan, ahead, {}) or plan, asked).splitlines()
            for line in paragraph.splitlines():
                said = line[4:].rstrip()
                if not (any(other.startswith(said[:-2]) for other in found) if said.endswith("..") else said in found):
                    differs(f"{page}: paragraph {number}: {' '.join(asked)}", said, "\n           ".join(found[:12]))


def known():
    """Of an unknown member `explain` tells those that are known there."""
    told = {}
    for _, _, path, cells in member_rows():
        told.setdefault(path, []).append(cells[0].strip("`"))
    for path, names in told.items() if os.path.exists(EXPLAIN) else ():
        lines = run_explain(wrapped(path, {"unknown": 0}), ["explain"]).splitlines()
        same(f"docs/PLAN.md: members at {path}/", ["known: " + ", ".join(names)], lines[3:])


def run_explain(plan, words):
    return subprocess.run([EXPLAIN, *words], input=json.dumps(plan).encode(), stdout=subprocess.PIPE).stdout.decode()


def spelled():
    """Plans are the same in readable spelling and back."""
    for path in PLANS:
        if readable.planned(readable.shown(read(path))) != json.loads(read(path)):
            differs(f"plans/readable.py: {path}", "the same plan", "another one")
    for name, machine, number in re.findall(r"const (R_(X86_64|AARCH64)_\w+): u32 = (\d+);", read("crates/wild_records/src/abi/relocation.rt")):
        same(f"plans/readable.py: type {number}", name, readable.TYPES[machine.lower()].get(int(number)))
    shown = readable.shown(read("plans/smallest.json")).splitlines()
    for line in re.search(r"\n\n    \{\n(.*?)\n\n", readable.__doc__, re.S)[1].splitlines():
        if line[4:] not in shown:
            differs("plans/readable.py: its example", line[4:], "no such line")


def pieces():
    """The pieces of a plan on a page are the plan."""
    text = "".join(re.findall(r"^```json\n(.*?)^```", read("docs/LINKERS.md"), re.M | re.S))
    if readable.planned(text) != json.loads(read("plans/worked.json")):
        differs("docs/LINKERS.md: its pieces", "plans/worked.json", "another plan")


def members():
    """Each member's example is read, and a float is refused at its path."""
    for where, _, path, cells in member_rows():
        name, example = cells[0].strip("`"), cells[3].split(" (")[0].strip("`")
        inner = {name: json.loads(example)}
        status, text = answer(wrapped(path, inner))
        if status == 3:
            differs(where, f"{example} is read", text.strip())
        same(where, (3, f"not a plan: {path}/{name}\n"), answer(wrapped(path, {name: 0.5})))


def schema():
    """docs/plan.schema.json has the members, types and defaults of docs/PLAN.md, and takes what the program reads as a plan and nothing else."""
    same("docs/plan.schema.json: its keywords", KEYWORDS, KEYWORDS | keywords(SCHEMA))
    told = {}
    for where, _, path, cells in member_rows():
        told.setdefault(path, []).append(name := cells[0].strip("`"))
        found = schema_at(path)["properties"].get(name, False)
        if not is_type(cells[1], found):
            differs(where, cells[1], f"docs/plan.schema.json: {found}")
        same(f"{where}: default", default_of(cells[1], cells[2]), [found["default"]] if "default" in found else [])
        greatest = resolved(found).get("maximum", 0)
        alternatives = PLACES if any("required" in kind for kind in found.get("anyOf", ())) else ()
        for value in (json.loads(cells[3].split(" (")[0].strip("`")), *OTHERS, *alternatives, greatest, greatest + 1):
            plan = wrapped(path, {name: value})
            same(f"{where}: {value} is taken by docs/plan.schema.json", answer(plan)[0] != 3, not wrong_at(plan, SCHEMA))
    for path, names in told.items():
        same(f"docs/plan.schema.json: members at {path}/", names, list(schema_at(path)["properties"]))
        same(f"docs/plan.schema.json: unknown at {path}/", True, bool(wrong_at(wrapped(path, {"unknown": 0}), SCHEMA)))
    same("docs/plan.schema.json: flags", set(words_under("Flag")), set(SCHEMA["$defs"]["symbol_flag"]["enum"]))
    for path in PLANS:
        same(f"docs/plan.schema.json: {path}", [], wrong_at(json.loads(read(path)), SCHEMA))


def words_under(*head):
    """The first column of the table of docs/PLAN.md that begins with these heads."""
    return [word for _, _, _, heads, cells in rows("docs/PLAN.md") if tuple(heads[: len(head)]) == head for word in re.findall(r"`(\w+)`", cells[0])]


# values of all types, and of the members that have one of several objects
OTHERS = [None, True, -1, 0.5, "", "0aF", [None], {}]
PLACES = ["common", {"section": 0}, {"output": 0}, {"output": 0, "section": 0}, {"address": 0}, {"symbol": 0}, {"symbol": 0, "address": 0}]
NUMBERS = {"number", "index", "u32", "u16", "u8", "i64"}
JSON_TYPES = {"null": type(None), "boolean": bool, "integer": int, "string": str, "array": list, "object": dict}
# the keywords of a JSON Schema that are known here
KEYWORDS = {"$schema", "$defs", "$ref", "title", "description", "default", "type", "enum", "anyOf", "minimum", "maximum", "pattern", "items", "properties", "required", "additionalProperties", "dependentSchemas"}


def keywords(schema):
    """The keywords of a schema and of those in it."""
    if not isinstance(schema, dict):
        return set()
    inner = [each for keyword in ("$defs", "properties", "dependentSchemas") for each in schema.get(keyword, {}).values()]
    return set(schema).union(*map(keywords, [*inner, *schema.get("anyOf", []), schema.get("items")]))


def resolved(schema):
    """The schema that another one refers to, also where it may be null."""
    while "$ref" in schema or "anyOf" in schema:
        schema = SCHEMA["$defs"][schema["$ref"].split("/")[-1]] if "$ref" in schema else schema["anyOf"][-1]
    return schema


def schema_at(path):
    """The schema of the objects at a path."""
    schema = SCHEMA
    for step in path.strip("/").split("/") if path else []:
        schema = resolved(schema["items"] if step == "0" else schema["properties"][step])
    return schema


def is_type(told, schema):
    """Whether docs/PLAN.md tells the type of a schema; of objects only that they are objects."""
    if not schema:
        return False
    if "enum" in schema:
        words = re.findall(r"`(\w+)`", told) + words_under("Role", "What the part has") * ("next table" in told)
        return told.startswith("word") and set(words) == set(schema["enum"])
    if "anyOf" in schema:
        kinds = schema["anyOf"]
        if kinds[0] == {"type": "null"} and len(kinds) == 2 and "$ref" in kinds[1]:
            return told.startswith("null or ") and is_type(told[8:].removeprefix("the ").split(" of ")[0], kinds[1])
        return all("null" in told if kind == {"type": "null"} else all(name in told for name in kind.get("enum", kind.get("properties", ()))) for kind in kinds)
    if "items" in schema:
        return told.startswith("list of ")
    if "$ref" in schema:
        name = schema["$ref"].split("/")[-1]
        return told.split(",")[0] == name if name in NUMBERS | {"bytes"} else "object" in told or told == name
    return told == "flag" and schema["type"] == "boolean"


def wrong_at(value, schema, path=""):
    """The paths at which a value is not what a schema says."""
    if schema is False:
        return [path]
    wrong = wrong_at(value, SCHEMA["$defs"][schema["$ref"].split("/")[-1]], path) if "$ref" in schema else []
    if "anyOf" in schema and all(wrong_at(value, kind, path) for kind in schema["anyOf"]) or "enum" in schema and value not in schema["enum"]:
        wrong.append(path)
    if "type" in schema and type(value) is not JSON_TYPES[schema["type"]]:
        return wrong + [path]
    if type(value) is int and not schema.get("minimum", value) <= value <= schema.get("maximum", value):
        wrong.append(path)
    if type(value) is str and not re.search(schema.get("pattern", ""), value):
        wrong.append(path)
    if type(value) is list:
        for place, item in enumerate(value):
            wrong += wrong_at(item, schema.get("items", {}), f"{path}/{place}")
    if type(value) is dict:
        wrong += [path for name in schema.get("required", []) if name not in value]
        for name, item in value.items():
            known = schema.get("properties", {}).get(name, schema.get("additionalProperties", {}))
            wrong += wrong_at(item, known, f"{path}/{name}")
            if name in schema.get("dependentSchemas", {}):
                wrong += wrong_at(value, schema["dependentSchemas"][name], path)
    return wrong


def member_rows():
    for where, section, _, heads, cells in rows("docs/PLAN.md"):
        if heads[0].startswith("Member"):
            key = heads[0] if heads[0] in STANDS else section
            yield where, key, STANDS[key], cells


def wrapped(path, inner):
    """A plan with an object at a path."""
    for step in reversed(path.strip("/").split("/") if path else []):
        inner = [inner] if step == "0" else {step: inner}
    return inner


def default_of(kind, told):
    """The value that a default tells, or none."""
    told = told.split(":")[0]
    if told == "empty":
        return ["" if kind == "bytes" else []]
    if told.startswith("no "):
        return []
    if kind.startswith("word"):
        return [told.strip("`")]
    return [{} if told.startswith("those of") else json.loads(told.strip("`"))]


def defaults():
    """Plans with every default written out have the answers of the plans."""
    table = {}
    for _, key, _, cells in member_rows():
        for value in default_of(cells[1], cells[2]):
            table.setdefault(key, {})[cells[0].strip("`")] = value
    for path in PLANS:
        filled = fill(json.loads(read(path)), "The plan", table)
        same(f"{path}: with all defaults", read(path.replace(".json", ".answer")), answer(filled)[1])


def fill(value, key, table):
    """An object with its absent members, and those in it with theirs."""
    whole = {**copy.deepcopy(table[key]), **value}
    if key == "Member of a property":
        # one number, or two: the members of the other sort are not known there
        for name in ("platform", "version") if "value" in value else ("value",):
            del whole[name]
    for name, place in STANDS.items():
        head, _, last = place.removesuffix("/0").rpartition("/")
        inner = whole.get(last)
        if place and head == STANDS[key] and inner:
            whole[last] = [fill(item, name, table) for item in inner] if isinstance(inner, list) else fill(inner, name, table)
    return whole


def statuses():
    """The statuses of README.md, where memory is not refused and the plan is not too long."""
    told = {cells[0]: re.findall(r"`([^`]*)`", cells[2]) for _, _, _, heads, cells in rows("README.md") if heads[0] == "Status"}
    smallest = f"{TOP}/plans/smallest.json"
    same("README.md: status 2", (2, told["2"][0] + "\n"), answer("", "nothing"))
    same("README.md: status 3", (3, told["3"][0] + "\n"), answer("{"))
    same("README.md: status 11", (11, "not bound Load image=0 NotElf\n"), answer('{"images":[{}]}', "space"))
    same("README.md: status 10", (10, "not placed Wraps address=4194304\n"), answer(f'{{"plan":{read("plans/smallest.json")},"world":{{"base":{2**64 - 1}}}}}', "place", "1"))
    same("README.md: status 9", (9, told["9"][0] + "\n"), answer(f'{{"plan":{read("plans/smallest.json")}}}', "relink", "1"))
    same("docs/SPACE.md: no images", (3, "not a plan: /images\n"), answer('{"resolvers":0}', "space"))
    same("README.md: status 4, of a directory", (4, told["4"][0] + "\n"), run(["bash", "-c", f"{PROGRAM} link 1 < plans"], TOP))
    same("README.md: status 5, of a full device", 5, run(["bash", "-c", f"{PROGRAM} link 1 < {smallest} > /dev/full"], TOP)[0])
    same("README.md: status 5, of a closed pipe", 5, closed_pipe(smallest))
    same("README.md: a summary", "groups 2\nimage 472\ncount 1 16\nsum 25303\n", answer("", "make", "2", "2")[1])
    same("README.md: workers", [2, 0, 0, 2, 2], [answer(read(smallest), "link", count)[0] for count in ("0", "1", "64", "65", "01")])
    for levels, said in ((127, "not a plan: /a\n"), (128, "not a plan: json\n")):
        same(f"docs/LIMITS.md: {levels} levels", said, answer('{"a":' + "[" * (levels - 1) + "]" * (levels - 1) + "}")[1])


def closed_pipe(plan):
    """The status where nobody reads the text."""
    reader, writer = os.pipe()
    os.close(reader)
    with open(plan) as file:
        return subprocess.run([PROGRAM, "link", "1"], stdin=file, stdout=writer, restore_signals=False).returncode


def answers():
    """Each plan's answer, for any number of workers."""
    for path, workers in itertools.product(PLANS, ("1", "2", "64")):
        same(f"{path} {workers}", (0, read(path.replace(".json", ".answer"))), answer(read(path), "link", workers))


def makers():
    """The makers of plans make these from what the system's compiler makes, and the tests have them as they are."""
    for path in glob.glob(f"{TOP}/crates/wild_tests/src/examples.rt"):
        for name, text in re.findall(r'const (\w+): &str =\s+r#"(.*?)"#;', read(path)):
            same(path, json.loads(read(f"plans/{name.lower()}.json")), json.loads(text))
    for words, plan in [(["make_hello.py"], "hello"), (["make_pie.py"], "pie"), (["make_slots.py"], "slots"), (["make_rewrites.py"], "rewrites"),
                        (["make_aarch64.py"], "aarch64"), (["make_debug.py"], "debug"), (["make_debug.py", "--only-keep-debug"], "debug_file"), (["make_partial.py"], "partial"), (["make_every.py"], "every"),
                        *((["make_shared.py", name], name) for name in ("shared", "uses_shared", "symbols", "frames"))]:
        if plan == "aarch64" and not shutil.which(make_aarch64.ASSEMBLER):
            print(f"left out: plans/{words[0]}: there is no {make_aarch64.ASSEMBLER}")
            continue
        made = subprocess.run([f"{TOP}/plans/{words[0]}", *words[1:]], stdout=subprocess.PIPE, stderr=subprocess.STDOUT, text=True)
        if made.stdout != read(f"plans/{plan}.json"):
            differs(f"plans/{words[0]} {plan}", f"plans/{plan}.json", "another plan" if made.returncode == 0 else made.stdout[-300:])


def names():
    """Files and functions that a page names are there."""
    for page in PAGES:
        for name in sorted(set(re.findall(r"`([^`\s]+)`", read(page)))):
            if "/out/" not in name and re.fullmatch(r"(docs|plans|crates)/[\w./*{},]+|wild_\w+/(src|specs|proofs|must-fail)[\w./*{},]*", name):
                for path in spread(name):
                    if not (glob.glob(f"{TOP}/{path}") or glob.glob(f"{TOP}/crates/{path}*")):
                        differs(page, path, "no such file")
            found = re.fullmatch(r"(wild_\w+)::(\w+)", name)
            if found and not is_there(*found.groups()):
                differs(page, name, "no such item")


    for where, _, _, heads, cells in rows("docs/THEOREMS.md"):
        crates = re.findall(r"wild_\w+", cells[1])
        for name in re.findall(r"`(\w+)`", cells[1]) if heads[1] == "Function" else ():
            if crates and name not in crates and not any(is_there(crate, name) for crate in crates):
                differs(where, name, "no such item")


def crates():
    """Each library on a line of crates.txt is named by a file of its crate, and each crate is in the tables of docs/ARCHITECTURE.md."""
    columns = (("by layer", 1, "Crate"), ("by kind", 1, "Crates"), ("of what each does", 0, "Crate"))
    tables = [(table, " ".join(cells[column] for _, _, _, heads, cells in rows("docs/ARCHITECTURE.md") if heads[column] == head)) for table, column, head in columns]
    for number, line in enumerate(read("crates.txt").split("\n"), 1):
        line = line.split("#")[0]
        if ":" not in line:
            continue
        crate, libraries = line.split(":")[0].split()[0], line.split(":")[1].split()
        files = (path for kind in ("rt", "antt") for path in glob.glob(f"{TOP}/crates/{crate}/*/**/*.{kind}", recursive=True) if "/out/" not in path)
        named = set(itertools.chain.from_iterable(re.findall(r"\b[a-z]\w+", re.sub("(//|--).*", "", read(path))) for path in files))
        for library in libraries:
            if library not in named:
                differs(f"crates.txt:{number}", library, f"no file of {crate} names it")
        for table, text in tables:
            if f"`{crate}`" not in text:
                differs("docs/ARCHITECTURE.md", crate, f"not in the table {table}")
    for table, text in tables:
        for crate in sorted(set(re.findall(r"`(wild_\w+)`", text))):
            if not os.path.isdir(f"{TOP}/crates/{crate}"):
                differs("docs/ARCHITECTURE.md", crate, f"no such crate, in the table {table}")


def spread(name):
    """The paths that a name with braces stands for."""
    found = re.fullmatch(r"(.*)\{(.*)\}(.*)", name)
    return [found[1] + middle + found[3] for middle in found[2].split(",")] if found else [name]


def is_there(crate, item):
    crates = ["wild_types", "wild_slot", "wild_needs", "wild_clauses"] if crate == "wild_plan" else [crate]
    files = itertools.chain.from_iterable(glob.glob(f"{TOP}/crates/{name}/src/**/*.rt", recursive=True) for name in crates)
    return any(re.search(rf"\b(fn|struct|enum|mod|trait) {item}\b", read(file)) for file in files)


def exported(crate):
    """The items that a crate exports, each with the crate that defines it."""
    library, items, uses = read(f"crates/{crate}/src/lib.rt"), {}, set()
    for home, names in re.findall(r"^pub use (\w+)[\w:]*?::(\{[^}]*\}|\w+);", library, re.M):
        for name in re.findall(r"\w+", names):
            items[name] = home if os.path.isdir(f"{TOP}/crates/{home}") else crate
            uses.add((home, name))
    for module in re.findall(r"^pub mod (\w+);", library, re.M):
        for _, name in re.findall(PUBLIC, read(f"crates/{crate}/src/{module}.rt"), re.M):
            if (module, name) not in uses:
                items[f"{module}::{name}"] = crate
    return items


PUBLIC = r"^pub (?:const )?(fn|struct|enum|trait) (\w+)"


@functools.cache
def public(crate):
    """By name, the public functions and types of a crate, each with its public methods. A trait's methods are public as it is."""
    found = {}
    for path in glob.glob(f"{TOP}/crates/{crate}/src/**/*.rt", recursive=True):
        text = read(path)
        found.update((name, found.get(name, set())) for _, name in re.findall(PUBLIC, text, re.M))
        for head, body in re.findall(r"^((?:pub trait|impl)\b[^{]*)\{\n(.*?)^\}", text, re.M | re.S):
            head = re.sub(r"<[^<>]*>", "", re.sub(r"<[^<>]*>", "", head))
            if " for " not in head:
                methods = re.findall(r"^    pub (?:const )?fn (\w+)" if head.startswith("impl") else r"^    fn (\w+)", body, re.M)
                found.setdefault(re.findall(r"\w+", head.split(":")[0].split(" where ")[0])[-1], set()).update(methods)
    return found


def calls():
    """docs/API.md has a line for each public function, method and type of the crates that it names, and for nothing else."""
    lines, expected = collections.Counter(), set()
    for where, _, _, heads, cells in rows("docs/API.md"):
        if crate := re.match(r"(?:Call|Law) of `(\w+)`", heads[0]):
            name, items = cells[0].strip("`"), exported(crate[1])
            item, method = (name, "") if name in items else name.rpartition("::")[::2]
            lines[items.get(item, crate[1]), item, method] += 1
            for item, home in items.items():
                methods = public(home).get(item.split("::")[-1])
                if methods is not None:
                    expected.update((home, item, method) for method in {"", *methods})
    for key in sorted(expected | set(lines)):
        same(f"docs/API.md: {'::'.join(filter(None, key))}", f"{int(key in expected)} lines", f"{lines[key]} lines")


ONLY_CHANGES = "--changes" in sys.argv
SCHEMA = json.loads(read("docs/plan.schema.json"))
PATHS = [word for word in sys.argv[1:] if word != "--changes"]
PROGRAM = os.path.abspath(PATHS[0]) if PATHS else f"{TOP}/crates/wild_main/out/wild_main"
EXPLAIN = os.path.abspath(PATHS[1]) if len(PATHS) > 1 else f"{TOP}/crates/wild_explain_main/out/wild_explain_main"

if __name__ == "__main__":
    if not os.path.exists(PROGRAM):
        sys.exit(f"check_docs: there is no {PROGRAM}; ./build makes it")
    if ONLY_CHANGES:
        changes()
        crates()
        sys.exit(differences != 0)
    for check in (answers, statuses, changes, programs, commands, explanations, scripts, fillings, spelled, pieces, known, members, schema, defaults, names, crates, calls, makers):
        before = differences
        check()
        print(f"{check.__doc__.splitlines()[0]} {differences - before} differ")
    sys.exit(differences != 0)
