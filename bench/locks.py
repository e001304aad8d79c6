#!/usr/bin/env python3
"""Measures the check of a lock file of 1000 entries: in multiples of `canon` over the same bytes, in ten checks of 100, and the bytes held for each byte."""
import json
import os
import sys
import tempfile

from figures import Figure, page
from run import PROGRAM, measured

HERE = os.path.dirname(os.path.abspath(__file__))
INPUT = os.path.join(HERE, "../tests/rows/locks/a_bundle_that_holds/stdin")
ENTRIES = 1000


def locks(count):
    """A check of `count` entries, each of another image with the same documents, and the lock file."""
    with open(INPUT) as file:
        given = json.load(file)
    lock = json.loads(given["lock"])
    entry = lock["entries"][0]
    name, _, tag = entry["image"].rpartition(":")
    lock["entries"] = [entry | {"image": f"{name}{number:06d}:{tag}"} for number in range(count)]
    text = json.dumps(lock, ensure_ascii=False, sort_keys=True, separators=(",", ":"))
    return json.dumps(given | {"lock": text}), text


def timed(word, text, wanted):
    with tempfile.NamedTemporaryFile("w") as file:
        file.write(text)
        file.flush()
        time, memory, written = measured([PROGRAM, word], file.name)
    if not written.startswith(wanted):
        raise SystemExit(f"{word} wrote {written[:100]!r}")
    return time, memory


def figures():
    whole, text = locks(ENTRIES)
    check, _ = timed("lockcheck", whole, b"lock holds")
    parts = 10 * timed("lockcheck", locks(ENTRIES // 10)[0], b"lock holds")[0]
    canon, _ = timed("canon", text, b"{")
    yield Figure(f"the check of a lock file of {ENTRIES} entries", check / canon, "canon over it", 4)
    yield Figure("the same", check / parts, f"ten checks of {ENTRIES // 10}", 1.2)
    # Both hold more than the process that measures, below which nothing can be measured.
    long, short = locks(4 * ENTRIES)[0], locks(2 * ENTRIES)[0]
    held = timed("lockcheck", long, b"lock holds")[1] - timed("lockcheck", short, b"lock holds")[1]
    yield Figure("its memory", held / (len(long) - len(short)), "bytes held for each byte of the input", 5)


if __name__ == "__main__":
    sys.exit(page(figures))
