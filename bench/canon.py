#!/usr/bin/env python3
"""Measures `canon` on generated JSON that is deep, wide or full of strings, each by itself.

Time is that of the processor. It is reported as a ratio to a program that reads the same text by the kit's `serde_json` and
prints it in the same run, and as the growth from an eighth of the text to the whole, divided by 8. If the environment
variable `PEER` names the program of bench/peer, it is compared with that too. The last line says what nesting costs:
the same long text inside many objects, in multiples of it inside one.
"""
import json
import os
import subprocess
import sys
import tempfile

from figures import Figure, page

HERE = os.path.dirname(os.path.abspath(__file__))
PROGRAM = os.environ.get("PROGRAM") or os.path.join(HERE, "../crates/pull_program/out/pull_program")
PLAIN = os.path.join(HERE, "../crates/timed_calls/out/timed_calls")
PEER = os.environ.get("PEER")
MEGABYTES = 32
RUNS = 5
NESTED = 120


def deep(place):
    """Objects in arrays, 60 of each, one in the other."""
    return '{"next":[' * 60 + str(place) + "]}" * 60


def wide(place):
    """An object of many members that are not in order."""
    return "{" + ",".join(f'"{(name * 7919 + place) % 10007:05d}":{name}' for name in range(1000)) + "}"


def strings(place):
    """A long text with escapes and letters that are not ASCII."""
    return json.dumps(("letter \u00e4 \U0001f600 \n " + str(place)) * 40, ensure_ascii=False)


def text_of(item, size):
    items, length = [], 0
    while length < size:
        items.append(item(len(items)))
        length += len(items[-1].encode()) + 1
    return "[" + ",".join(items) + "]"


def once(words, path):
    """The time of one run."""
    with open(path, "rb") as stdin:
        process = subprocess.Popen(words, stdin=stdin, stdout=subprocess.DEVNULL)
        _, status, usage = os.wait4(process.pid, 0)
    if status != 0:
        raise SystemExit(f"{words[0]} ended with {status}")
    return usage.ru_utime + usage.ru_stime


def seconds(ways, path):
    """The least time of some runs of each way, in turns."""
    return [min(times) for times in zip(*([once(words, path) for words in ways] for _ in range(RUNS)))]


def check(text, path):
    """Python's sorted names are in the order of their units, since all are ASCII, and it escapes what RFC 8785 escapes."""
    with open(path, "rb") as stdin:
        written = subprocess.run([PROGRAM, "canon"], stdin=stdin, stdout=subprocess.PIPE, check=True).stdout
    wanted = json.dumps(json.loads(text), sort_keys=True, separators=(",", ":"), ensure_ascii=False) + "\n"
    if written.decode() != wanted:
        raise SystemExit("the text is not the canonical one")


def measured(item, size, ways):
    """The time of each of these ways over a text of about this size."""
    with tempfile.NamedTemporaryFile("w", encoding="utf-8") as stored:
        text = text_of(item, size)
        stored.write(text)
        stored.flush()
        check(text, stored.name)
        return seconds(ways, stored.name)


def inside(depth, size):
    """The time over a long text inside this many objects, one in the other."""
    with tempfile.NamedTemporaryFile("w", encoding="utf-8") as stored:
        stored.write('{"next":' * depth + json.dumps("x" * size) + "}" * depth)
        stored.flush()
        return seconds([[PROGRAM, "canon"]], stored.name)[0]


def figures():
    canon, plain, peer = [PROGRAM, "canon"], [PLAIN, "json"], [[PEER]] if PEER else []
    for item in (deep, wide, strings):
        name, size = f"canon of {MEGABYTES} MB, {item.__name__}", MEGABYTES * 1000000
        small, = measured(item, size // 8, [canon])
        large, read, *others = measured(item, size, [canon, plain, *peer])
        yield Figure(name, large / read, "reading and printing it by serde_json", 1.2)
        yield from (Figure(name, large / other, "the Rust crates", 1) for other in others)
        yield Figure(name, large / small / 8, "eight of an eighth", 1.1)
    size = MEGABYTES * 1000000 // 2
    nested = inside(NESTED, size) / inside(1, size)
    yield Figure(f"canon of a text inside {NESTED} objects", nested, "the same inside one", 1.2)


if __name__ == "__main__":
    sys.exit(page(figures))
