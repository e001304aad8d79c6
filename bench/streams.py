#!/usr/bin/env python3
"""Measures how long a blob of 256 MiB takes to be streamed, in runs of hashing the same bytes, and what it holds beside what a blob of 1 MiB does."""
import hashlib
import os
import sys

from figures import Figure, page
from run import in_turns

HERE = os.path.dirname(os.path.abspath(__file__))
PROGRAM = os.path.join(HERE, "../crates/timed_calls/out/timed_calls")


def timed(count, *words):
    """The time and the memory of each of these words over `count` MiB."""
    digest = hashlib.sha256()
    for _ in range(count):
        digest.update(b"a" * (1 << 20))
    ways = [[PROGRAM, word, str(count), "sha256:" + digest.hexdigest()] for word in words]
    return [(time, memory) for time, memory, _ in in_turns(ways, os.devnull)]


def figures():
    (_, least), = timed(1, "stream")
    (stream, memory), (plain, _) = timed(256, "stream", "hash")
    yield Figure("a blob of 256 MiB as a stream", stream / plain, "hashing the same bytes", 1.3)
    yield Figure("its memory", (memory - least) / (1 << 20), "MiB held beside what one of 1 MiB holds", 1)


if __name__ == "__main__":
    sys.exit(page(figures))
