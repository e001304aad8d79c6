#!/usr/bin/env python3
"""Measures `pull` on texts of many small values that are not cases, in bytes held at once for each byte of the text."""
import os
import subprocess
import sys
import tempfile

from figures import Figure, page

HERE = os.path.dirname(os.path.abspath(__file__))
PROGRAM = os.environ.get("PROGRAM") or os.path.join(HERE, "../crates/pull_program/out/pull_program")
SIZE = 64 << 20
UNREADABLE = 3


def numbers():
    return b"[0" + b",0" * (SIZE // 2 - 2) + b"]"


def members():
    named, length, count = [b'{"a":0'], 6, 0
    while length < SIZE - 20:
        named.append(b',"b%d":0' % count)
        length += len(named[-1])
        count += 1
    return b"".join(named) + b"}"


def held(text):
    """The most memory in bytes while it is refused."""
    with tempfile.NamedTemporaryFile() as case:
        case.write(text)
        case.flush()
        run = subprocess.run([sys.executable, os.path.join(HERE, "held.py"), case.name, PROGRAM, "pull"], stderr=subprocess.PIPE, check=True)
    _, memory, status = run.stderr.split()[-3:]
    if int(status) != UNREADABLE:
        raise SystemExit(f"pull ended with {int(status)}")
    return int(memory)


def figures():
    for name, text in (("[0,0,..]", numbers()), ('{"a":0,"b0":0,..}', members())):
        yield Figure(f"{name} of 64 MiB, refused as no case", held(text) / len(text), "bytes held at once for each byte", 4)


if __name__ == "__main__":
    sys.exit(page(figures))
