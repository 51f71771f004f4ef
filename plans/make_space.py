#!/usr/bin/env python3
"""Writes the input of `space` (docs/SPACE.md): the images in these files, the program first. Run it as

    plans/make_space.py main libb.so liba.so | ./space

- An image has the name of its file, by which others need it.
- An executable at fixed addresses has base 0. The others have bases from 2^32 on, one after another.
- The distances of thread-local data from the thread pointer are those that a dynamic linker gives the images in this order ("ELF Handling For
  Thread-Local Storage").
- The resolver of an indirect function in a dynamic symbol table has its own address as its answer: where such a function is does not matter to binds.
"""
import json
import os
import struct
import sys

PAGE = 65536
FIRST = 1 << 32
FIXED, AARCH64, LOAD, DYNAMIC_SYMBOLS, THREAD_LOCAL, INDIRECT_FUNCTION = 2, 183, 1, 11, 7, 10
# bytes from the thread pointer to the first module's data on AArch64
HEADER = 16


def up(number, align):
    return -(-number // max(align, 1)) * max(align, 1)


class Image:
    """What is read of a file (gABI, "ELF Header", "Program Header", "Sections", "Symbol Table")."""

    def __init__(self, path):
        self.name = os.path.basename(path)
        with open(path, "rb") as file:
            self.bytes = file.read()
        self.kind, self.machine = struct.unpack_from("<HH", self.bytes, 16)
        segments_at, sections_at = struct.unpack_from("<QQ", self.bytes, 32)
        segments, = struct.unpack_from("<H", self.bytes, 56)
        sections, = struct.unpack_from("<H", self.bytes, 60)
        self.segments = [struct.unpack_from("<IIQQQQQQ", self.bytes, segments_at + 56 * k) for k in range(segments)]
        self.sections = [struct.unpack_from("<IIQQQQIIQQ", self.bytes, sections_at + 64 * k) for k in range(sections if sections_at else 0)]

    def end(self):
        """The end of its segments in memory."""
        return max((address + memory for kind, _, _, address, _, _, memory, _ in self.segments if kind == LOAD), default=0)

    def thread_local(self):
        """Size and alignment of its thread-local data."""
        return next(((memory, align) for kind, *_, memory, align in self.segments if kind == THREAD_LOCAL), (0, 1))

    def symbols(self):
        """Its dynamic symbols, with their names."""
        for _, kind, _, _, at, size, link, _, _, _ in self.sections:
            if kind != DYNAMIC_SYMBOLS:
                continue
            names = self.sections[link][4]
            for entry in range(at, at + size, 24):
                name, info, other, section, value, length = struct.unpack_from("<IBBHQQ", self.bytes, entry)
                start = names + name
                yield self.bytes[start:self.bytes.index(0, start)].decode(), info, other, section, value, length

    def resolvers(self):
        """The addresses of the resolvers of its indirect functions."""
        return sorted({value for _, info, _, section, value, _ in self.symbols() if info % 16 == INDIRECT_FUNCTION and section})


def bases(images):
    """A base for each image."""
    following = FIRST
    for image in images:
        if image.kind == FIXED:
            yield 0
        else:
            yield following
            following = up(following + image.end(), PAGE)


def distances(images):
    """The distance of each image's thread-local data from the thread pointer."""
    end = HEADER if images and images[0].machine == AARCH64 else 0
    for image in images:
        size, align = image.thread_local()
        if image.machine == AARCH64:
            start = up(end, align)
            yield start
            end = start + size
        else:
            end = up(end + size, align)
            yield -end


def space(images, order=None):
    """The input of `space` for images. `order` has the places of the images in the order in which they are loaded."""
    order = order or range(len(images))
    at = dict(zip(order, distances([images[place] for place in order])))
    placed = list(zip(images, bases(images)))
    return {
        "images": [{"name": image.name.encode().hex(), "bytes": image.bytes.hex(), "base": base, "distance": at.get(place, 0)} for place, (image, base) in enumerate(placed)],
        "resolvers": [{"address": base + value, "answer": base + value} for image, base in placed for value in image.resolvers()],
    }


def main():
    if len(sys.argv) < 2:
        sys.exit("usage: make_space.py IMAGE..")
    json.dump(space([Image(path) for path in sys.argv[1:]]), sys.stdout, separators=(",", ":"))
    print()


if __name__ == "__main__":
    main()
