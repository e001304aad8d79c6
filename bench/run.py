#!/usr/bin/env python3
"""Measures the program on an image with a large layer, as ratios within one run.

Time is reported in runs of `sha256sum` over the same bytes, and memory in bytes held at once for each byte of the case.
"""
import importlib.util
import os
import subprocess
import sys
import tempfile

# Nothing is left beside the recorded cases.
sys.dont_write_bytecode = True

from figures import Figure, page  # noqa: E402

HERE = os.path.dirname(os.path.abspath(__file__))
PROGRAM = os.environ.get("PROGRAM") or os.path.join(HERE, "../crates/pull_program/out/pull_program")
MEGABYTES = (24, 48)
RUNS = 5


def rows():
    spec = importlib.util.spec_from_file_location("make", os.path.join(HERE, "../tests/rows/make.py"))
    make = importlib.util.module_from_spec(spec)
    spec.loader.exec_module(make)
    return make


def large_case(size):
    make = rows()
    make.CONTENT = "0123456789abcdef" * (size // 16)
    make.IMAGE, make.TAG = make.image_of(make.CONTENT)
    make.NAMED = make.answer(None, make.digest(make.IMAGE))
    return make.base_case()


def once(words, path):
    """The time of a run in seconds, its memory in bytes, and what was written."""
    run = subprocess.run([sys.executable, os.path.join(HERE, "held.py"), path, *words], capture_output=True, check=True)
    seconds, held, status = run.stderr.split()[-3:]
    if int(status) != 0:
        raise SystemExit(f"{words[0]} ended with {int(status)}")
    return float(seconds), int(held), run.stdout


def in_turns(ways, path):
    """Of each of these ways, each run some times in turns: the least time, the most memory, and what was written."""
    runs = zip(*([once(words, path) for words in ways] for _ in range(RUNS)))
    return [(min(times), max(memory), written[-1]) for times, memory, written in (zip(*turns) for turns in runs)]


def measured(words, path):
    """The same of one way."""
    return in_turns([words], path)[0]


def report(size):
    stdin, lines = large_case(size << 20)
    with tempfile.NamedTemporaryFile("w") as case:
        case.write(stdin)
        case.flush()
        (pulled, memory, written), (hashed, _, _) = in_turns([[PROGRAM, "pull"], ["sha256sum"]], case.name)
    if written.decode() != "".join(f"{line}\n" for line in lines):
        raise SystemExit("the report is not the one that the case asks for")
    yield Figure(f"a pull of a case with a layer of {size} MiB", pulled / hashed, "sha256sum over the case", 1.3)
    yield Figure("its memory", memory / len(stdin), "bytes held at once for each byte of the case", 2)


def figures():
    for size in MEGABYTES:
        yield from report(size)


if __name__ == "__main__":
    sys.exit(page(figures))
