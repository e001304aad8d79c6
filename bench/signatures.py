#!/usr/bin/env python3
"""Measures how the search grows with the layers of a signature manifest, as a ratio within one run.

A manifest has 100 and then 1000 signature layers of four kilobytes each, of which the last one alone satisfies the policy.
The time of the longer one is reported in multiples of ten times that of the shorter: 1.0 is linear growth. Each layer has a signature of its
own: the table of a case hashes a message once for each row that has its key and its signature.
"""
import sys
import tempfile

from figures import Figure, page
from run import PROGRAM, measured, rows

SHORT, LONG = 100, 1000


def case_of(make, count):
    payloads = [make.payload({"n": str(n), "filling": "x" * 4096}) for n in range(count)]
    signed = [make.signed(p, f"sig{n}") for n, p in enumerate(payloads)]
    rows = [{"key": "k1", "message": make.digest(p), "signature": f"sig{n}"} for n, p in enumerate(payloads)]
    answers, asked = make.search(make.manifest("{}", signed), payloads)
    answers += make.served(make.IMAGE) + make.served("{}") + make.served(make.CONTENT)
    last = [{"annotations": {"n": str(count - 1)}}]
    return make.case(answers, (), last, signatures=rows), asked


def timed(stdin):
    with tempfile.NamedTemporaryFile("w") as case:
        case.write(stdin)
        case.flush()
        return measured([PROGRAM, "pull"], case.name)


def figures():
    make = rows()
    times = {}
    for count in (SHORT, LONG):
        stdin, asked = case_of(make, count)
        times[count], _, written = timed(stdin)
        if not written.decode().startswith("\n".join(["moment 100"] + asked)):
            raise SystemExit("the requests are not those that the case asks for")
    growth = times[LONG] / times[SHORT] / (LONG / SHORT)
    yield Figure(f"a signature manifest of {LONG} layers", growth, f"{LONG // SHORT} of {SHORT}", 1.2)


if __name__ == "__main__":
    sys.exit(page(figures))
