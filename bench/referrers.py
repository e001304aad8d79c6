#!/usr/bin/env python3
"""Measures how the search grows with the referrers of an image, as a ratio within one run.

A registry in memory lists 100 and then 1000 referrers of one bundle each. The time of the
longer list is reported in multiples of ten times that of the shorter: 1.0 is linear growth.
"""
import json
import sys
import tempfile

from figures import Figure, page
from run import PROGRAM, measured, rows

SHORT, LONG = 100, 1000


def bundles_of(make, count):
    """Bundles that sign the same statement, and differ in a member that no reader inspects."""
    first, signed = make.bundle(make.digest(make.IMAGE))
    return [json.dumps(dict(json.loads(first), number=number)) for number in range(count)], signed


def case_of(make, count):
    bundles, signed = bundles_of(make, count)
    referrers = [make.refers(content) for content in bundles]
    listed = make.index_of(*[make.descriptor(make.MANIFEST, referrer) for referrer in referrers])
    named = make.digest(make.IMAGE)
    shelf = make.shelf_of({"v1": named}, [make.IMAGE, *referrers], ["{}", make.CONTENT, *bundles], referrers={named: listed})
    return make.case(None, shelf=shelf, signatures=[{"key": "k1", "message": make.digest(signed), "signature": "sig1"}]), bundles[0]


def timed(stdin):
    with tempfile.NamedTemporaryFile("w") as case:
        case.write(stdin)
        case.flush()
        return measured([PROGRAM, "pull"], case.name)


def figures():
    make = rows()
    times = {}
    for count in (SHORT, LONG):
        stdin, stands = case_of(make, count)
        times[count], _, written = timed(stdin)
        if written.decode().split("\n")[-2] != "signature " + make.digest(stands):
            raise SystemExit("the image is not pulled")
    growth = times[LONG] / times[SHORT] / (LONG / SHORT)
    yield Figure(f"a search among {LONG} referrers", growth, f"{LONG // SHORT} among {SHORT}", 1.2)


if __name__ == "__main__":
    sys.exit(page(figures))
