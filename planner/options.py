"""The command line, with options as GNU ld spells them. One that is not known is refused by its name."""
import os
import shlex

from elf import Refused
from machines import MACHINES


def by_spelling(*rows):
    """By each spelling of an option, the attribute that it sets, and to what."""
    return {spelling: row[:-1] for row in rows for spelling in row[-1].split()}


# options that change nothing here: what they require is done anyway, or allows what is not done
WITHOUT_EFFECT = set("""
    --gc-sections --no-gc-sections -O1 -O2 -O0 -EL -X --discard-locals --fatal-warnings --no-fatal-warnings --no-copy-dt-needed-entries --enable-new-dtags --no-undefined-version --no-add-needed
    --fix-cortex-a53-843419 --fix-cortex-a53-835769 --sort-common --warn-common --no-warn-mismatch -nostdlib --no-ld-generated-unwind-info --allow-shlib-undefined --no-allow-shlib-undefined --sysroot=/
""".split())
KEYWORDS = by_spelling(
    ("relro", True, "relro"), ("relro", False, "norelro"), ("execstack", True, "execstack"), ("execstack", False, "noexecstack"), ("no_undefined", True, "defs"),
    ("relr", True, "pack-relative-relocs"), ("relr", False, "nopack-relative-relocs"), ("ignored", True, "now text separate-code noseparate-code nocopyreloc combreloc nodynamic-undefined-weak"),
)
SWITCHES = by_spelling(
    ("shared", True, "-shared --shared -Bshareable"), ("pie", True, "-pie --pie"), ("pie", False, "-no-pie --no-pie"), ("partial", True, "-r --relocatable"), ("symbolic", True, "-Bsymbolic"),
    ("export_dynamic", True, "-E --export-dynamic -export-dynamic"), ("eh_frame_hdr", True, "--eh-frame-hdr"), ("no_undefined", True, "--no-undefined"), ("no_loader", True, "--no-dynamic-linker"),
    ("allow_multiple", True, "--allow-multiple-definition"), ("strip", "all", "-s --strip-all"),
)
# options that hold for the inputs after them
STATES = by_spelling(
    ("static", True, "-static -Bstatic -dn -non_shared"), ("static", False, "-Bdynamic -dy -call_shared"), ("as_needed", True, "--as-needed"), ("as_needed", False, "--no-as-needed"),
    ("whole", True, "--whole-archive"), ("whole", False, "--no-whole-archive"),
)
# options with a word, in the next argument or after `=`; some of one letter have it right after the letter
WORDS = by_spelling(
    ("output", "-o --output"), ("plan_file", "--plan"), ("times", "--times"), ("soname", "-soname --soname -h"), ("rpath", "-rpath --rpath"), ("interpreter", "-dynamic-linker --dynamic-linker -I"),
    ("entry", "-e --entry"), ("folder", "-L --library-path"), ("library", "-l --library"), ("undefined", "-u --undefined"), ("emulation", "-m"), ("keyword", "-z"), ("hash_style", "--hash-style"),
    ("ignored", "-plugin -rpath-link --rpath-link"),
)
ATTACHED = ("-o", "-L", "-l", "-m", "-z")


class Options:
    def __init__(self, words):
        self.output, self.folders, self.inputs, self.undefined, self.hash_style = "a.out", [], [], [], "gnu"
        self.static = self.shared = self.pie = self.partial = self.export_dynamic = self.symbolic = self.allow_multiple = self.eh_frame_hdr = self.relr = self.no_undefined = self.no_loader = False
        self.execstack = self.strip = self.entry = self.soname = self.rpath = self.interpreter = self.build_id = self.plan_file = self.times = None
        self.relro = True
        self.read(self.expand(words))
        if self.entry is None and not self.shared:
            self.entry = b"_start"
        if self.partial:
            self.set_kind("partial")
        elif self.shared:
            self.set_kind("shared")
        else:
            self.set_kind(("static" if self.static or self.pie and self.no_loader else "dynamic") + "_pie" * self.pie)

    def expand(self, words):
        for word in words:
            if word.startswith("@") and os.path.isfile(word[1:]):
                with open(word[1:]) as file:
                    yield from self.expand(shlex.split(file.read()))
            else:
                yield word

    def read(self, words):
        """Inputs are kept as (path or name, static, as needed, whole archive), a group as a list of them."""
        words = iter(words)
        state, states, groups = {"static": False, "as_needed": False, "whole": False}, [], [self.inputs]
        for word in words:
            name, equals, value = word.partition("=")
            if not word.startswith("-") or word == "-":
                groups[-1].append((word, None, *state.values()))
            elif word in STATES:
                state = {**state, STATES[word][0]: STATES[word][1]}
                self.static = self.static or word == "-static"
            elif word == "--push-state":
                states.append(state)
            elif word == "--pop-state":
                state = states.pop()
            elif word in ("--start-group", "-("):
                groups.append([])
                groups[0].append(groups[-1])
            elif word in ("--end-group", "-)"):
                groups.pop()
            elif word in SWITCHES:
                setattr(self, *SWITCHES[word])
            elif word in ("-S", "--strip-debug"):
                self.strip = self.strip or "debug"
            elif name == "--build-id":
                self.set_build_id(value)
            elif name in WORDS or word.startswith(ATTACHED) and not word.startswith(("-map", "-out")):
                if len(word) > 2 and word.startswith(ATTACHED):
                    name, value = word[:2], word[2:]
                elif not equals:
                    value = next(words, None)
                    if value is None:
                        raise Refused(f"option {word} has no argument")
                if WORDS[name][0] == "library":
                    groups[-1].append((None, value, *state.values()))
                else:
                    self.set_word(WORDS[name][0], value)
            elif word not in WITHOUT_EFFECT and name != "-plugin-opt":
                raise Refused(f"option {word} is not known")

    def set_build_id(self, value):
        if value.startswith("0x"):
            self.build_id = bytes.fromhex(value[2:].replace("-", "").replace(":", ""))
        elif value in ("", "sha1"):
            self.build_id = b""
        elif value != "none":
            raise Refused(f"option --build-id={value}")

    def set_word(self, attribute, value):
        if attribute == "folder":
            self.folders.append(value)
        elif attribute == "undefined":
            self.undefined.append(value.encode())
        elif attribute == "rpath" and self.rpath is not None:
            self.rpath = b":".join(dict.fromkeys([*self.rpath.split(b":"), value.encode()]))
        elif attribute == "hash_style" and value not in ("gnu", "sysv", "both"):
            raise Refused(f"option --hash-style={value}")
        elif attribute == "emulation" and not any(value in machine.emulations for machine in MACHINES.values()):
            raise Refused(f"option -m {value}")
        elif attribute == "keyword":
            if value not in KEYWORDS:
                raise Refused(f"option -z {value} is not known")
            setattr(self, *KEYWORDS[value])
        else:
            setattr(self, attribute, value.encode() if attribute in ("soname", "rpath", "interpreter", "entry") else value)

    def set_kind(self, kind):
        self.kind = kind
        self.moves = kind in ("static_pie", "dynamic_pie", "shared")
        self.has_loader = kind in ("dynamic", "dynamic_pie", "shared")
        self.has_dynamic = kind not in ("static", "partial")
        self.static = kind in ("static", "static_pie")
        self.relr = self.relr and self.moves
