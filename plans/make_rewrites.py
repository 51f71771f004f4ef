#!/usr/bin/env python3
"""Writes rewrites.json: has the system's compiler make an object of rewrites.c, and lays it out as a static position-independent
executable whose instructions are rewritten. Run it as

    plans/make_rewrites.py > plans/rewrites.json
    plans/make_rewrites.py SOURCE.c > plan.json

The layout is that of make_slots.py without a slot: a linker knows where each symbol is, and that every reference of the program is one of
those that it can do without. It is told the number `length`, as by the option `--defsym=length=28`.
"""
from make_hello import source_of, spelled
from make_pie import compiled
from make_slots import ADDRESS_SLOT, ANY_MODULE, OFFSET_SLOT, OWN_PAIR, plan

NUMBERS = {"length": 28}


def with_numbers(symbols):
    for symbol in symbols:
        if number := NUMBERS.get(bytes.fromhex(symbol["name"]).decode()):
            symbol |= {"place": "absolute", "value": number, "flags": ["ABSOLUTE", *symbol["flags"]], "resolution": {"raw_value": number}}


if __name__ == "__main__":
    source = compiled(source_of("rewrites.c"), f"{ANY_MODULE} -fno-plt -foptimize-sibling-calls")
    it = plan(source, ADDRESS_SLOT | {OFFSET_SLOT, OWN_PAIR})
    it["options"]["relax"] = True
    with_numbers(it["symbols"])
    print(spelled(it))
