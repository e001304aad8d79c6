#!/usr/bin/env python3
"""Measures how long a bundle of 32 MB takes to be read, and what it holds, as ratios within one run.

Memory is reported in bytes held at once for each byte of the bundle, the bundle itself among them, and time as the growth, both from
a quarter of its size, divided by 4. Both sizes hold more than the process that measures, below which nothing can be measured.
"""
import base64
import json
import os
import sys
import tempfile

from figures import Figure, page
from run import measured

HERE = os.path.dirname(os.path.abspath(__file__))
PROGRAM = os.path.join(HERE, "../crates/timed_calls/out/timed_calls")
SOURCE = "b94d27b9934d3e08a52e52d7da7dabfac484efe37a5380ee9088f7ace2efcde9"
BYTES = 32 << 20


def spelled(text):
    return base64.b64encode(text.encode()).decode()


def bundle(size):
    """A bundle of about this many bytes, most of which are what its statement says of the image."""
    predicate = {"lines": [f"line {number:010}" for number in range(size * 3 // 4 // 18)]}
    statement = {"_type": "https://in-toto.io/Statement/v1", "subject": [{"digest": {"sha256": SOURCE}}], "predicateType": "https://example.com/lines", "predicate": predicate}
    envelope = {"payload": spelled(json.dumps(statement, separators=(",", ":"))), "payloadType": "application/vnd.in-toto+json", "signatures": [{"sig": spelled("sig1")}]}
    return json.dumps({"mediaType": "application/vnd.dev.sigstore.bundle.v0.3+json", "dsseEnvelope": envelope, "verificationMaterial": {}})


def read(size):
    """The time, the memory and the length of a bundle of about this size."""
    text = bundle(size)
    with tempfile.NamedTemporaryFile("w") as case:
        case.write(text)
        case.flush()
        time, memory, written = measured([PROGRAM, "bundle"], case.name)
    if written.decode() != spelled("sig1"):
        raise SystemExit("the bundle is not read")
    return time, memory, len(text)


def figures():
    short, least, quarter = read(BYTES // 4)
    long, memory, length = read(BYTES)
    held = (memory - least) / (length - quarter)
    yield Figure(f"a bundle of {BYTES >> 20} MiB", held, "bytes held at once for each of its bytes", 3)
    yield Figure("its time", long / short / 4, "four of a quarter", 1.1)


if __name__ == "__main__":
    sys.exit(page(figures))
