"""What the two machines have apart from each other: sorts of relocation types, and a few numbers.

A sort says what a reference of the type needs of its symbol (x86-64 psABI, "Relocation Types"; aaelf64, "Relocation types").
"""
from typing import NamedTuple

# an address of 8 bytes, of fewer; a distance; a call; a slot; a slot that `relax` saves; thread-local references; a size
WHOLE, NARROW, DISTANCE, CALL, SLOT, RELAXED, OFFSET_SLOT, PAIR, OWN_PAIR, DESCRIPTOR, SIZE = range(1, 12)


class Machine(NamedTuple):
    sorts: dict
    page: int
    number: int
    image_base: int
    own_property: int  # GNU_PROPERTY_.._FEATURE_1_AND: what all inputs have
    other_property: int  # GNU_PROPERTY_X86_ISA_1_NEEDED: what any input needs
    emulations: tuple
    branches: tuple  # types of branches that may use a thunk
    tiny: dict = {}  # types of the tiny code model, which the writer does not know, and their names


def sorts(**types):
    return {number: globals()[name] for name, numbers in types.items() for number in numbers}


X86_64 = Machine(
    sorts(
        WHOLE=[1], NARROW=[10, 11, 12, 14], DISTANCE=[2, 13, 15, 24, 25], CALL=[4, 31], SLOT=[3, 9, 27, 28, 43], RELAXED=[41, 42], OFFSET_SLOT=[22, 44], PAIR=[19],
        OWN_PAIR=[20], DESCRIPTOR=[34, 45], SIZE=[32, 33],
    ),
    4096, 62, 0x400000, 0xC0000002, 0xC0008002, ("elf_x86_64",), (),
)
AARCH64 = Machine(
    sorts(
        WHOLE=[257], NARROW=[258, 259, *range(263, 270), 277, 278, 284, 285, 286, 299], DISTANCE=[260, 261, 262, 273, 274, 275, 276], CALL=[279, 280, 282, 283, 314],
        SLOT=[311, 312, 313], OFFSET_SLOT=[541, 542], PAIR=[513, 514], DESCRIPTOR=[562, 563, 564],
    ),
    65536, 183, 0x400000, 0xC0000000, 0, ("aarch64linux", "aarch64elf"), (282, 283),
    {309: "GOT_LD_PREL19", 512: "TLSGD_ADR_PREL21", 543: "TLSIE_LD_GOTTPREL_PREL19", 560: "TLSDESC_LD_PREL19", 561: "TLSDESC_ADR_PREL21"},
)
MACHINES = {"x86_64": X86_64, "aarch64": AARCH64}
