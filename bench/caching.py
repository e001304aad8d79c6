#!/usr/bin/env python3
"""Measures what cached responses save, as ratios within one run.

One image, with a manifest of signatures that has many layers, is pulled at 1000 moments of one minute from a registry in
memory. What each later pull takes is reported in multiples of the first one's time, for a client that caches and for one that does not.
"""
import json
import sys
import tempfile

from figures import Figure, page
from run import PROGRAM, measured, rows

MOMENTS, LAYERS = 1000, 100


def case_of(make, moments, caching):
    payloads = [make.payload({"number": number}) for number in range(LAYERS)]
    signatures = make.manifest("{}", [make.signed(p) for p in payloads])
    shelf = make.shelf_of({"v1": make.digest(make.IMAGE), make.TAG: make.digest(signatures)}, [make.IMAGE, signatures], ["{}", make.CONTENT, *payloads])
    return make.case(None, [payloads[-1]], shelf=shelf, caching=caching, moments=[100 + place * 59 // moments for place in range(moments)])


def timed(make, moments, caching):
    with tempfile.NamedTemporaryFile("w") as case:
        case.write(case_of(make, moments, caching))
        case.flush()
        time, memory, written = measured([PROGRAM, "pull"], case.name)
    if written.decode().count("\nok ") != moments:
        raise SystemExit("the image is not pulled at each moment")
    return time


def figures():
    make = rows()
    for caching, named in [(True, "that caches"), (False, "that does not")]:
        first = timed(make, 1, caching)
        later = (timed(make, MOMENTS, caching) - first) / (MOMENTS - 1)
        yield Figure(f"a later one of {MOMENTS} pulls in one minute by a client {named}", later / first, "the first")


if __name__ == "__main__":
    sys.exit(page(figures))
