#!/usr/bin/env python3
"""Makes the Cargo package `wild-image-writer` from the proved sources: make.py [FOLDER] (default: out/wild-image-writer, here).

Contracts and ghost code are erased (erase.py), each crate becomes a module, and the names of Rattle's std and of its libraries
are those of `package/src/shim`. Where a source differs from Rust otherwise, a replacement is listed below; it has to apply.
"""
import re
import sys
from pathlib import Path

from erase import erase

HERE = Path(__file__).resolve().parent
TOP = HERE.parent.parent
PROGRAMS = ('wild_main', 'wild_explain_main')
# Crates with functions for C, which `library` adds.
EXPORTS = ()
TESTS = ('wild_tests', 'wild_tests_low', 'wild_tests_tables', 'wild_tests_images', 'wild_tests_plans', 'wild_tests_answers')
LIBRARIES = ('atomic_table', 'bitflags', 'fast_float', 'hex', 'json', 'rayon', 'serde_json')

# (file, its text, what replaces it)
MENDS = [
    ('wild_symbols/prefix.rs', 'fn drop(self)', 'fn drop(&mut self)'),
    ('wild_symbols/prefix.rs', 'let SymbolTablePrefix { writer, kept } = self;\n        writer.join(kept);',
     'self.writer.join(self.kept);'),
    ('wild_program/words.rs', 'use std::{env, io};', 'use crate::shim::env;\nuse std::io;'),
]


def crates():
    """The crates that the programs, the tests and the functions for C are made of, the lowest first, and the crates of tests."""
    below = {}
    for line in (TOP / 'crates.txt').read_text().splitlines():
        if ':' in line.split('#')[0]:
            name, list_ = line.split(':')
            below[name.split()[0]] = list_.split()
    reached = set(EXPORTS)
    todo = list(PROGRAMS + TESTS + EXPORTS)
    while todo:
        for name in below[todo.pop()]:
            if name in below and name not in reached:
                reached.add(name)
                todo.append(name)
    return [name for name in below if name in reached and name not in TESTS] + list(TESTS)


def rust(source, crate, names):
    """The Rust of a file of the crate `crate`; `names` are the package's crates."""
    text = erase(source)
    text = re.sub(r'\bcrate::', f'crate::{crate}::', text)
    text = re.sub(rf'(?<![:\w])({"|".join(names)})::', r'crate::\1::', text)
    text = re.sub(rf'(?<![:\w])({"|".join(LIBRARIES)})::', r'crate::shim::\1::', text)
    text = re.sub(r'\bstd::(alloc|collections|test|thread)\b', r'crate::shim::\1', text)
    text = re.sub(r'\bstd::(sync::ledger|marker(?=::Brand))\b', 'crate::shim::ledger', text)
    # Every type may be dropped in Rust, and no type has a second form for contracts.
    text = re.sub(r'#\[derive\(([^)]*)\)\]\n', derives, text)
    text = re.sub(r'\s*\+ Drop\b|\bDrop \+\s*|:\s*Drop\b(?=[,>{; \n])', '', text)
    text = re.sub(r'use std::marker::Model;\n|use thiserror::Error;\n', '', text)
    text = re.sub(r'impl(<[^{]*?>)?\s+Model for [^{]*\{\s*\}', '', text)
    # Calls that take an allocator.
    text = re.sub(r'\b(vec!\[|format!\()in ', r'crate::shim::\1', text)
    text = re.sub(r'crate::shim::(vec|format)!', r'crate::shim::\1_in!', text)
    text = re.sub(r'\.(to_vec|to_string|replace)\((?=(?:rt\.)?alloc\b)', r'.try_\1(', text)
    text = re.sub(r'\.sort_by_key\((?=\s*alloc\b)', '.try_sort_by_key(', text)
    text = re.sub(r'\.collect\((?=\s*alloc\b)', '.try_collect_in(', text)
    text = re.sub(r'(?<![:\w])prove!', 'debug_assert!', text)
    text = re.sub(r'\bfn fmt<W: (?:fmt::)?Write>', 'fn fmt', text)
    text = text.replace('Formatter<W>', "Formatter<'_>")
    # Tests take the process that runs them.
    text = re.sub(r'#\[test\]\nfn (\w+)', r'#[test]\nfn \1_holds() {\n    crate::shim::test::run(\1)\n}\n\nfn \1', text)
    text = re.sub(r'\b(assert|assert_eq|panic)!\(rt;\s*', r'\1!(', text)
    # What erasing leaves: an opening brace on a line of its own, and blank lines.
    text = re.sub(r'\n\s*\{\n', ' {\n', text)
    return re.sub(r'\n\s*\n(\s*\n)+', '\n\n', text)


def derives(match):
    kept = [name for name in match[1].replace(' ', '').split(',') if name not in ('', 'Drop', 'Error')]
    return f'#[derive({", ".join(kept)})]\n' if kept else ''


def with_prelude(text):
    """The text with the names of the shim's prelude, after the file's own comment."""
    front = re.match(r'(//![^\n]*\n|\s*\n)*', text).end()
    return text[:front] + 'use crate::shim::prelude::*;\n' + text[front:]


def mended(text, path):
    for file, old, new in MENDS:
        if file == path:
            if text.count(old) != 1:
                sys.exit(f'make.py: {path} does not have once: {old}')
            text = text.replace(old, new)
    return text


def files():
    """The text of each file of the package, by its path."""
    names = crates()
    made = {path.relative_to(HERE / 'package'): path.read_text() for path in (HERE / 'package').rglob('*') if path.is_file()}
    made[Path('tests/rows.txt')] = (TOP / 'crates/wild_tests_answers/stdin').read_text()
    made[Path('tests/smallest.json')] = (TOP / 'plans/smallest.json').read_text()
    for crate in names:
        made[Path('src/lib.rs')] += ('#[cfg(test)]\n' if crate in TESTS else '') + f'pub mod {crate};\n'
        sources = TOP / 'crates' / crate / 'src'
        for source in sources.rglob('*.rt'):
            if source.name == 'main.rt':
                continue
            part = source.relative_to(sources).with_suffix('.rs')
            if part.name == 'lib.rs':
                part = part.with_name('mod.rs')
            text = mended(rust(source.read_text(), crate, names), f'{crate}/{part}')
            made[Path('src', crate, part)] = with_prelude(text)
    return made


def make(folder):
    """Writes the package; files that are as they should be keep their times, so that cargo does not compile them again."""
    made = files()
    for path in (folder / 'src').rglob('*.rs'):
        if path.relative_to(folder) not in made:
            path.unlink()
    for path, text in made.items():
        to = folder / path
        if not to.exists() or to.read_text() != text:
            to.parent.mkdir(parents=True, exist_ok=True)
            to.write_text(text)
    print(f'{folder}: {len(made)} files, {sum(text.count(chr(10)) for text in made.values())} lines')


if __name__ == '__main__':
    make(Path(sys.argv[1]) if len(sys.argv) > 1 else HERE / 'out' / 'wild-image-writer')
