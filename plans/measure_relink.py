#!/usr/bin/env python3
"""Measures a change beside a whole image, over the layouts of `make`, with one worker.

    plans/measure_relink.py            65,536 groups, and half as many; 10,000 changes of each kind
    plans/measure_relink.py 1000       so many changes

A change gives the code of a group other bytes and another target. The groups are spread over the whole layout. Prints the mean time of a change that is
accepted, and of those that are refused; the bytes that a linked layout keeps beside layout and image, and the most that a change takes. The status is
0 if the mean of those that are accepted, and of those that their group refuses, is at most a thousandth of the whole image, and the images are those of the
layouts after all changes.

The program is `tools/plain_rust/package/examples/measure_relink.rs`, in plain Rust of the sources; it needs `cargo`. The machine should be idle.
"""
import os
import subprocess
import sys

TOP = os.path.dirname(os.path.dirname(os.path.abspath(__file__)))
GROUPS = (32768, 65536)
ROWS = [
    ("write", "write"), ("link", "`Linked::link`"), ("accepted", "a change that is accepted"), ("first", "the same, of the first group"),
    ("last", "the same, of the last group"), ("by_length", "refused for its length"), ("by_group", "refused by its group"),
    ("by_clause", "refused by a clause"),
]


def time_of(nanoseconds):
    return f"{nanoseconds / 1e6:.1f} ms" if nanoseconds >= 1e6 else f"{nanoseconds / 1e3:.2f} us"


def main():
    count = sys.argv[1] if len(sys.argv) > 1 else "10000"
    program = os.path.dirname(subprocess.run([f"{TOP}/tools/plain_rust/build"], stdout=subprocess.PIPE, text=True, check=True).stdout.strip())
    subprocess.run(["cargo", "build", "--release", "--offline", "--quiet", "--example", "measure_relink"], cwd=os.path.dirname(os.path.dirname(program)), check=True)
    found = []
    for groups in GROUPS:
        ran = subprocess.run([f"{program}/examples/measure_relink", str(groups), count], stdout=subprocess.PIPE, text=True, check=True)
        found.append({name: float(number) for name, number in (line.split() for line in ran.stdout.splitlines())})
    print(f"| | {' | '.join(f'{groups:,} groups' for groups in GROUPS)} |\n|---|---|---|")
    for name, text in ROWS:
        print(f"| {text} | {' | '.join(f'{time_of(one[name])}' + (f', 1/{one['write'] / one[name]:,.0f} of `write`' if name not in ('write', 'link') else '') for one in found)} |")
    for name, text in (("image", "bytes of the image"), ("kept", "bytes kept beside layout and image"), ("most", "most bytes that a change takes")):
        print(f"| {text} | {' | '.join(f'{one[name]:,.0f}' for one in found)} |")
    is_fast = all(one[name] * 1000 <= one["write"] for one in found for name in ("accepted", "by_group"))
    is_same = all(one["same"] == 1 for one in found)
    print(f"\nA thousandth at most: {'yes' if is_fast else 'no'}. The images are those of `write`: {'yes' if is_same else 'no'}.")
    sys.exit(not (is_fast and is_same))


if __name__ == "__main__":
    main()
