#!/usr/bin/env python3
"""Measures pushes to a registry that keeps nothing, and lists of tags.

A blob of 256 MiB: its push in multiples of copying its pieces once, and the bytes held beside what a push of 4 MiB holds.
An image of 1000 layers: in ten pushes of one of 100. A list of 100000 tags: in ten lists of 10000, and the bytes held
for each of its bytes.
"""
import os
import sys

from figures import Figure, page
from run import in_turns

HERE = os.path.dirname(os.path.abspath(__file__))
PROGRAM = os.path.join(HERE, "../crates/timed_calls/out/timed_calls")
TAG = len('"1.22.333-slim",')


def timed(*words):
    """The time and the memory of each of these words with its count."""
    ways = [[PROGRAM, word, str(count)] for word, count in words]
    return [(time, memory) for time, memory, _ in in_turns(ways, os.devnull)]


def figures():
    (_, least), (push, memory), (copy, _) = timed(("push", 4), ("push", 256), ("copy", 256))
    yield Figure("a push of a blob of 256 MiB", push / copy, "copying it once", 1.3)
    yield Figure("its memory", (memory - least) / (1 << 20), "MiB held beside what one of 4 MiB holds", 1)
    (many, _), (few, _) = timed(("layers", 1000), ("layers", 100))
    yield Figure("a push of an image of 1000 layers", many / (10 * few), "ten of 100", 1.2)
    (long, held), (short, less) = timed(("tags", 100), ("tags", 10))
    yield Figure("a list of 100000 tags", long / (10 * short), "ten of 10000", 1.1)
    yield Figure("its memory", (held - less) / (90 * 1000 * TAG), "bytes held for each of its bytes", 4)


if __name__ == "__main__":
    sys.exit(page(figures))
