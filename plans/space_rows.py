#!/usr/bin/env python3
"""Writes the rows of `space` for the table of crates/wild_tests_answers: small images for x86-64, and what they are answered.

    plans/space_rows.py                 the rows
    plans/space_rows.py --check FILE    whether the table has each of them

The images are written here by the gABI ("ELF Header", "Program Header", "Dynamic Section", "Symbol Table", "Hash Table", "Relocation"); the GNU hash
table by the description of its format. Each answer is written down from docs/SPACE.md.
"""
import json
import struct
import sys

COPY, GLOB_DAT, RELATIVE = 5, 6, 8
LOAD, DYNAMIC, THREAD_LOCAL = 1, 2, 7
NEEDED, HASH, STRTAB, SYMTAB, RELA, RELASZ, RELAENT, STRSZ, SYMENT, GNU_HASH = 1, 4, 5, 6, 7, 8, 9, 10, 11, 0x6FFFFEF5
WEAK, GLOBAL = 2, 1
OBJECT, FUNC, TLS, IFUNC = 1, 2, 6, 10
ABSOLUTE = 0xFFF1
PROTECTED = 3


def symbol(name, section=0, kind=FUNC, bind=GLOBAL, other=0, value=0, size=0):
    return name, section, 16 * bind + kind, other, value, size


def sysv_hash(name):
    """gABI, "Hash Table"."""
    h = 0
    for byte in name.encode():
        h = (h << 4) + byte
        g = h & 0xF0000000
        h = (h ^ g >> 24) & ~g if g else h
    return h


def gnu_hash(name):
    h = 5381
    for byte in name.encode():
        h = (33 * h + byte) % 2**32
    return h


def sysv_table(names, chain=None):
    """One bucket, in which the symbols follow each other."""
    count = len(names) + 1
    chain = chain if chain is not None else [0, *(k + 1 if k + 1 < count else 0 for k in range(1, count))]
    return struct.pack(f"<{3 + count}I", 1, count, 1 if names else 0, *chain)


def gnu_table(names):
    """One bucket with all symbols."""
    hashes = [gnu_hash(name) for name in names]
    bloom = 0
    for h in hashes:
        bloom |= 1 << h % 64 | 1 << (h >> 6) % 64
    ends = [h & ~1 | (k + 1 == len(hashes)) for k, h in enumerate(hashes)]
    return struct.pack("<4IQI", 1, 1, 1, 6, bloom, 1 if hashes else 0) + struct.pack(f"<{len(ends)}I", *ends)


def image(symbols=(), needed=(), tables=("sysv",), entries=(), kind=3, memory=None, address=0, thread=None, without=(), chain=None, sections=False, more=()):
    """An image with one segment over the whole file. `entries` are relocations: place, type, symbol and addend."""
    names = [one[0] for one in symbols]
    strings, at = b"\0", {}
    for text in [*names, *needed]:
        if text not in at:
            at[text] = len(strings)
            strings += text.encode() + b"\0"
    headers = 2 + (thread is not None)
    body, places = b"", {}

    def put(name, data):
        nonlocal body
        body += bytes(-len(body) % 8)
        places[name] = 64 + 56 * headers + len(body)
        body += data

    put("symbols", bytes(24) + b"".join(struct.pack("<IBBHQQ", at[name], info, other, section, value, size) for name, section, info, other, value, size in symbols))
    put("strings", strings)
    put("sysv", sysv_table(names, chain))
    put("gnu", gnu_table(names))
    put("entries", b"".join(struct.pack("<QQq", place, index << 32 | number, addend) for place, number, index, addend in entries))
    dynamic = [(NEEDED, at[text]) for text in needed] + [(tag, value) for tag, value in more]
    dynamic += [(STRTAB, address + places["strings"]), (STRSZ, len(strings)), (SYMTAB, address + places["symbols"]), (SYMENT, 24)]
    dynamic += [(HASH, address + places["sysv"])] * ("sysv" in tables) + [(GNU_HASH, address + places["gnu"])] * ("gnu" in tables)
    dynamic += [(RELA, address + places["entries"]), (RELASZ, 24 * len(entries)), (RELAENT, 24)] * bool(entries)
    put("dynamic", b"".join(struct.pack("<QQ", *one) for one in dynamic if one[0] not in without) + bytes(16))
    if sections:
        put("sections", bytes(64) + struct.pack("<IIQQQQIIQQ", 0, 11, 2, address + places["symbols"], places["symbols"], 24 * (len(names) + 1), 0, 1, 8, 24))
    size = 64 + 56 * headers + len(body)
    dynamic_size = 16 * (len([one for one in dynamic if one[0] not in without]) + 1)
    programs = [(LOAD, 7, 0, address, size, memory or size, 4096), (DYNAMIC, 6, places["dynamic"], address + places["dynamic"], dynamic_size, dynamic_size, 8)]
    if thread is not None:
        programs.append((THREAD_LOCAL, 4, thread[0], address + thread[0], 0, thread[1], 8))
    head = b"\x7fELF\2\1\1" + bytes(9) + struct.pack("<HHIQQQIHHHHHH", kind, 62, 1, 0, 64, places.get("sections", 0), 0, 64, 56, headers, 64, 2 * sections, 0)
    return head + b"".join(struct.pack("<IIQQQQQQ", k, flags, offset, start, start, inside, whole, align) for k, flags, offset, start, inside, whole, align in programs) + body


def entry(name, data, base=0, distance=0):
    return {key: value for key, value in (("name", name.encode().hex()), ("bytes", data.hex()), ("base", base), ("distance", distance)) if value}


def asked(images, resolvers=()):
    value = {"images": images}
    if resolvers:
        value["resolvers"] = [{"address": address, "answer": answer} for address, answer in resolvers]
    return json.dumps(value, separators=(",", ":"))


F = symbol("f", section=1, value=0x40)
WANTS = symbol("f")
B, A, C = 0x10000, 0x20000, 0x30000
ROWS = []


def row(comment, images, *says, resolvers=()):
    ROWS.append(f"# {comment}\nspace {images if isinstance(images, str) else asked(images, resolvers)}\n" + "\n".join(f"says {line}" for line in says))


def three_images():
    """The input in which a program needs two libraries, and the second one in the list is needed first."""
    return asked([entry("main", image([WANTS], ["a", "b"])), entry("b", image([F]), B), entry("a", image([F]), A)])


def orders():
    main = entry("main", image([WANTS], ["a", "b"]))
    both = [entry("b", image([F]), B), entry("a", image([F]), A)]
    row("images bound to each other: the first of the order that defines the name", [main, *both], "order 0 2 1", "bind 0 1 2", "bind 2 1 2", "bind 1 1 2")
    row("an image that is needed is not there", [main, both[0]], "not bound Missing image=0 needed=0")
    row("the second entry is counted from 0 too", [main, both[1]], "not bound Missing image=0 needed=1")
    row("no image defines the name; a library's own undefined symbol is not reached", [main, entry("b", image([WANTS]), B), entry("a", image([WANTS]), A)], "not bound Undefined image=0 index=1")
    lib = image([F])
    row("breadth first: what image 1 needs comes after what image 0 needs",
        [entry("m", image((), ["a", "b"])), entry("a", image((), ["c"]), A), entry("b", image(()), B), entry("c", image(()), C)], "order 0 1 2 3")
    row("depth does not count: an image is where it is needed first",
        [entry("m", image((), ["a", "c"])), entry("c", image((), ["b"]), C), entry("b", image(()), B), entry("a", image((), ["b", "c"]), A)], "order 0 3 1 2")
    row("images that need each other, and themselves, and one name twice",
        [entry("m", image((), ["a", "m", "a"])), entry("a", image((), ["b", "a"]), A), entry("b", image((), ["a", "m"]), B)], "order 0 1 2")
    row("of two images with one name the first is needed; an image that none needs is not read",
        [entry("m", image([WANTS], ["a"])), entry("a", lib, A), entry("a", b"", A)], "order 0 1", "bind 0 1 1", "bind 1 1 1")
    row("image 0 has the name that it needs", [entry("a", image((), ["a"])), entry("a", lib, A)], "order 0")
    row("names are compared whole", [entry("m", image((), ["aa"])), entry("a", lib, A)], "not bound Missing image=0 needed=0")
    row("the fault of an image that is needed later comes after a missing one of an earlier image",
        [entry("m", image((), ["a", "b"])), entry("a", b"", A)], "not bound Missing image=0 needed=1")
    row("the second image is opened when its entries are read", [entry("m", image((), ["a"])), entry("a", b"", A)], "not bound Load image=1 NotElf")
    row("a name past the end of the strings", [entry("m", image((), (), more=[(NEEDED, 1000)]))], f"not bound Load image=0 Cut offset={64 + 2 * 56 + 24 + 1000}")


def binds():
    main = entry("m", image([WANTS], ["a", "b"]))
    weak = symbol("f", bind=WEAK)
    row("a weak symbol without a definition", [entry("m", image([weak], ["a"])), entry("a", image([symbol("g", section=1)]), A)], "order 0 1", "bind 0 1 none", "bind 1 1 1")
    row("a weak definition counts as any other", [main, entry("a", image([symbol("f", section=1, bind=WEAK)]), A), entry("b", image([F]), B)],
        "order 0 1 2", "bind 0 1 1", "bind 1 1 1", "bind 2 1 1")
    row("a definition of the program comes first", [entry("m", image([F], ["a"])), entry("a", image([F]), A)], "order 0 1", "bind 0 1 0", "bind 1 1 0")
    for visibility in (1, 2, 3):
        own = symbol("f", section=1, other=visibility)
        row(f"a defined symbol with visibility {visibility} is bound to itself", [main, entry("a", image([F]), A), entry("b", image([own]), B)],
            "order 0 1 2", "bind 0 1 1", "bind 1 1 1", "bind 2 1 2")
    row("the other bits of st_other are no visibility", [main, entry("a", image([F]), A), entry("b", image([symbol("f", section=1, other=0x80)]), B)],
        "order 0 1 2", "bind 0 1 1", "bind 1 1 1", "bind 2 1 1")
    row("an undefined symbol with visibility 3 is looked up", [entry("m", image([symbol("f", other=PROTECTED)], ["a"])), entry("a", image([F]), A)], "order 0 1", "bind 0 1 1", "bind 1 1 1")
    row("a name is looked up in the GNU table, and without one in the System V table", [main, entry("a", image([F], tables=("gnu",)), A), entry("b", image([F]), B)],
        "order 0 1 2", "bind 0 1 1", "bind 1 1 1", "bind 2 1 1")
    row("with both tables in the GNU table; the other one has a cycle",
        [entry("m", image([symbol("g")], ["a"])), entry("a", image([symbol("f", section=1), symbol("g", section=1)], tables=("gnu", "sysv"), chain=[0, 1, 1]), A)],
        "order 0 1", "bind 0 1 1", "bind 1 1 1", "bind 1 2 1")
    row("a chain that does not end", [entry("m", image([symbol("g")], ["a"])), entry("a", image([F, symbol("h", section=1)], chain=[0, 2, 1]), A)],
        "not bound Load image=1 Cycle index=2")
    row("without a hash table an image defines nothing for others", [main, entry("a", image([F], tables=()), A), entry("b", image([F]), B)],
        "order 0 1 2", "bind 0 1 2", "bind 2 1 2")
    row("without a hash table the section headers have the number of symbols", [main, entry("a", image([symbol("f", section=1), symbol("g", section=1, other=PROTECTED)], tables=(), sections=True), A), entry("b", image([F]), B)],
        "order 0 1 2", "bind 0 1 2", "bind 1 1 2", "bind 1 2 1", "bind 2 1 2")
    row("the symbol of a look-up has no section", [main, entry("a", image([WANTS]), A), entry("b", image([F]), B)], "order 0 1 2", "bind 0 1 2", "bind 1 1 2", "bind 2 1 2")
    row("without a symbol table", [entry("m", image([WANTS], without=(SYMTAB,)))], "not bound Load image=0 NoTable tag=6")
    row("without strings", [entry("m", image([WANTS], without=(STRTAB,)))], "not bound Load image=0 NoTable tag=5")
    row("absolute, thread-local and plain definitions are bound alike",
        [entry("m", image([symbol("f"), symbol("t", kind=TLS), symbol("c")], ["a"])),
         entry("a", image([symbol("c", section=ABSOLUTE, value=7), symbol("f", section=1, value=0x40), symbol("t", section=1, kind=TLS, value=8)], thread=(64, 16)), A, -16)],
        "order 0 1", "bind 0 1 1", "bind 0 2 1", "bind 0 3 1", "bind 1 1 1", "bind 1 2 1", "bind 1 3 1")
    chosen = [entry("m", image([WANTS], ["a"])), entry("a", image([symbol("f", section=1, kind=IFUNC, value=0x40)]), A)]
    row("no answer of a resolver", chosen, f"not bound NoAnswer value={A + 0x40}", resolvers=[(A + 0x41, 1)])
    row("the answer of a resolver", chosen, "order 0 1", "bind 0 1 1", "bind 1 1 1", resolvers=[(A + 0x40, 1), (A + 0x40, 2)])
    row("a fault of a later symbol comes after those of earlier ones", [entry("m", image([symbol("f"), symbol("g")], ["a"])), entry("a", image([symbol("f", section=1, kind=IFUNC, value=0x40)]), A)],
        f"not bound NoAnswer value={A + 0x40}")


def loading():
    main = entry("m", image([WANTS], ["a"]))
    lib = image([F])
    taken = entry("m", image([symbol("d", section=1, kind=OBJECT, value=0x1000, size=4)], ["a"], entries=[(0x1000, COPY, 1, 0)], memory=0x1100))
    datum = symbol("d", section=1, kind=OBJECT, value=0x40, size=4)
    row("a copied symbol gets the bytes of a later definition", [taken, entry("a", image([datum]), A)], "order 0 1", "bind 0 1 0", "bind 1 1 0")
    row("a copied symbol without a later definition", [taken, entry("a", image([symbol("e", section=1)]), A)], "not bound Undefined image=0 index=1")
    row("a library copies nothing", [entry("m", image((), ["a"])), entry("a", image([datum], entries=[(0x1000, COPY, 1, 0)], memory=0x1100), A)], "not bound CopyInLibrary image=1 index=1")
    row("copies are looked for before binds", [main, entry("a", image([symbol("g")], entries=[(0x1000, COPY, 1, 0)], memory=0x1100), A)], "not bound CopyInLibrary image=1 index=1")
    row("a copied symbol whose definition is not in memory", [taken, entry("a", image([symbol("d", section=1, kind=OBJECT, value=0x10000, size=4)]), A)],
        f"not bound Load image=1 Unloaded address={A + 0x10000}")
    row("two images at one address", [main, entry("a", lib)], "not bound Overlap address=0")
    row("the end of one image in another", [entry("m", image([WANTS], ["a"], memory=0x1001)), entry("a", lib, 0x1000)], "not bound Overlap address=4096")
    row("binds come before addresses", [entry("m", image([symbol("g")], ["a"])), entry("a", lib)], "not bound Undefined image=0 index=1")
    row("images are loaded from the last to the first", [entry("m", image([WANTS], ["a"], entries=[(0x9000, RELATIVE, 0, 0)])), entry("a", image([F], entries=[(0x8000, RELATIVE, 0, 0)]), A)],
        f"not bound Load image=1 Unloaded address={A + 0x8000}")
    row("an entry of the program that is not in memory", [entry("m", image([WANTS], ["a"], entries=[(0x9000, RELATIVE, 0, 0)])), entry("a", lib, A)], "not bound Load image=0 Unloaded address=36864")
    row("an entry with a symbol that is not there", [entry("m", image([WANTS], ["a"], entries=[(0x40, GLOB_DAT, 9, 0)])), entry("a", lib, A)], "not bound Load image=0 UnknownSymbol index=9")
    row("an entry of a type that is not known", [entry("m", image([WANTS], ["a"], entries=[(0x40, 99, 1, 0)])), entry("a", lib, A)], "not bound Load image=0 UnknownDynamic number=99")
    row("a segment past the last address", [main, entry("a", lib, 2**64 - 16)], "not bound Load image=1 Wraps address=0")


def inputs():
    for comment, text, says in (
        ("an input without images", "{}", "/images"),
        ("no images", '{"images":[]}', "/images"),
        ("images come before resolvers", '{"resolvers":3}', "/images"),
        ("images that are no list", '{"images":{}}', "/images"),
        ("an input that is no object", "[]", ""),
        ("a name that is no hex", '{"images":[{"name":"a"}]}', "/images/0/name"),
        ("bytes that are no hex", '{"images":[{},{"bytes":"0g"}]}', "/images/1/bytes"),
        ("a base below 0", '{"images":[{"base":-1}]}', "/images/0/base"),
        ("a distance past its type", '{"images":[{"distance":9223372036854775808}]}', "/images/0/distance"),
        ("a member that is not known", '{"images":[{"base":0,"tls":0}]}', "/images/0/tls"),
        ("resolvers that are no list", '{"images":[{}],"resolvers":{}}', "/resolvers"),
        ("an answer that is no number", '{"images":[{}],"resolvers":[{"answer":"1"}]}', "/resolvers/0/answer"),
        ("a member of a resolver that is not known", '{"images":[{}],"resolvers":[{},{"value":1}]}', "/resolvers/1/value"),
        ("unknown members come last", '{"a":0,"images":[{}],"resolvers":[{"address":-1}]}', "/resolvers/0/address"),
        ("an unknown member", '{"images":[{}],"resolver":[]}', "/resolver"),
    ):
        row(comment, text, f"not a plan: {says}")
    row("no JSON", '{"images":[{}]', "not a plan: json")
    row("an image without bytes", '{"images":[{}]}', "not bound Load image=0 NotElf")
    row("hex may have capitals", '{"images":[{"bytes":"7F454C46"}]}', "not bound Load image=0 NotElf")


def main():
    for rows in (orders, binds, loading, inputs):
        rows()
    if sys.argv[1:2] == ["--check"]:
        with open(sys.argv[2]) as file:
            table = set(file.read().split("\n\n"))
        missing = [one for one in ROWS if one not in {text.strip("\n") for text in table}]
        for one in missing:
            print(f"not in {sys.argv[2]}: {one.splitlines()[0]}")
        sys.exit(bool(missing))
    print("\n\n".join(ROWS))


if __name__ == "__main__":
    main()
