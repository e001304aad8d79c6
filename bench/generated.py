#!/usr/bin/env python3
"""Measures the pull of a generated image of a thousand layers: in ten pulls of one of a hundred, and in runs of hashing the
bytes of its layers once.
"""
import os
import sys
import tempfile

from figures import Figure, page
from run import PROGRAM, measured

LAYERS = 1000


def layers():
    """The bytes of the layers: the text `layer I` and a line feed, a thousand times each."""
    for place in range(LAYERS):
        yield f"layer {place}\n".encode() * 1000


def pulled(count):
    """The time and the memory of a pull of `count` layers."""
    time, memory, written = measured([PROGRAM, "gen", str(count)], os.devnull)
    lines = written.decode().split("\n")
    if lines[:2] != [f"requests {19 + 2 * count}", f"layers {count}"] or not lines[2].startswith("ok sha256:"):
        raise SystemExit(f"gen {count} wrote other lines")
    return time, memory


def figures():
    small, _ = pulled(LAYERS // 10)
    large, memory = pulled(LAYERS)
    with tempfile.NamedTemporaryFile() as file:
        size = sum(file.write(layer) for layer in layers())
        file.flush()
        hashed, _, _ = measured(["sha256sum"], file.name)
    yield Figure(f"a pull of {LAYERS} generated layers", large / (10 * small), f"ten of {LAYERS // 10}", 1.1)
    yield Figure("the same", large / hashed, "hashing their bytes once")
    yield Figure("its memory", memory / size, "bytes held for each of their bytes")


if __name__ == "__main__":
    sys.exit(page(figures))
