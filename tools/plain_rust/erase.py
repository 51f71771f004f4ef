"""Erases from Rattle source what exists for proofs only: contracts, ghost items and proof attributes. What is left is Rust."""
import re

TOKEN = re.compile(
    r"""(?P<comment>//[^\n]*|/\*.*?\*/)
      | (?P<text>b?"(?:\\.|[^"\\])*" | b?'(?:\\(?:x[0-9a-fA-F]{2}|u\{[^}]*\}|.)|[^'\\\n])')
      | (?P<lifetime>'\w+)
      | (?P<space>\s+)
      | (?P<word>\w+)
      | (?P<mark>.)""",
    re.S | re.X)
CLAUSES = ('requires', 'ensures', 'decreases')


def tokens(source):
    return [(m.lastgroup, m.group()) for m in TOKEN.finditer(source)]


def skip(toks, i, kinds):
    """The index of the first token from `i` on that is of none of these kinds."""
    while i < len(toks) and toks[i][0] in kinds:
        i += 1
    return i


def after_group(toks, i):
    """The index after the bracket that closes the one at `i`."""
    depth = 0
    while True:
        kind, text = toks[i]
        if kind == 'mark' and text in '([{':
            depth += 1
        if kind == 'mark' and text in ')]}':
            depth -= 1
        i += 1
        if depth == 0:
            return i


def after_ghost(toks, i):
    """The index after the ghost item at `i`: it ends with `;` or `,`, or before the bracket that closes what it is in."""
    while i < len(toks):
        kind, text = toks[i]
        if kind == 'mark' and text in ')]}':
            return i
        if kind == 'mark' and text in '([{':
            i = after_group(toks, i)
            continue
        i += 1
        if kind == 'mark' and text in ';,':
            return i
    return i


def after_clause(toks, i):
    """The index after the clause at `i`: a keyword, perhaps `*`, perhaps a name, and braces; `i` itself if it is no clause."""
    j = skip(toks, i + 1, ('space', 'comment'))
    if toks[j] == ('mark', '*'):
        j = skip(toks, j + 1, ('space', 'comment'))
    if toks[j][0] == 'word':
        j = skip(toks, j + 1, ('space', 'comment'))
    return after_group(toks, j) if toks[j] == ('mark', '{') else i


def after_attribute(toks, i):
    """The index after the attribute at `i` if only the prover or the formatter reads it; else `i`."""
    j = i + 1 + (toks[i + 1] == ('mark', '!'))
    if toks[j] == ('mark', '[') and toks[j + 1][1] in ('tactic', 'cycle', 'rattlefmt', 'error'):
        return after_group(toks, j)
    return i


def drop_comment(out):
    """Drops the comment lines directly above what is erased, but not the file's own (`//!`)."""
    while out and (out[-1].isspace() and out[-1].count('\n') < 2 or out[-1].startswith('//') and not out[-1].startswith('//!')):
        out.pop()


def erase(source):
    toks = tokens(source)
    out = []
    i = 0
    while i < len(toks):
        kind, text = toks[i]
        end = i
        if (kind, text) == ('word', 'ghost'):
            end = after_ghost(toks, i)
        elif kind == 'word' and text in CLAUSES:
            end = after_clause(toks, i)
        elif (kind, text) == ('mark', '#'):
            end = after_attribute(toks, i)
            if end != i:
                i = skip(toks, end, ('space',))
                continue
        if end != i:
            drop_comment(out)
            i = end
            continue
        out.append(text)
        i += 1
    return ''.join(out)
