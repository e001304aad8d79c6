#!/usr/bin/env python3
"""Measures how long a manifest of many layers takes to be read and written back by its table.

Time is reported in runs of the same program that reads and prints it as plain JSON, within one run, and as the growth to eight
times the layers, divided by 8.
"""
import json
import os
import sys
import tempfile

from figures import Figure, page
from run import in_turns

HERE = os.path.dirname(os.path.abspath(__file__))
PROGRAM = os.path.join(HERE, "../crates/timed_calls/out/timed_calls")
LAYERS = 10000


def descriptor(media_type, number, size):
    return {"mediaType": media_type, "digest": f"sha256:{number:064x}", "size": size}


def manifest(count):
    layers = [descriptor("application/vnd.oci.image.layer.v1.tar+gzip", number, 1000 + number) for number in range(count)]
    config = descriptor("application/vnd.oci.image.config.v1+json", count, 7023)
    media_type = "application/vnd.oci.image.manifest.v1+json"
    return {"schemaVersion": 2, "mediaType": media_type, "config": config, "layers": layers}


def compared(count):
    """The times by the table and as plain JSON of a manifest of this many layers."""
    text = json.dumps(manifest(count), separators=(",", ":"))
    with tempfile.NamedTemporaryFile("w") as case:
        case.write(text)
        case.flush()
        (documents, _, written), (plain, _, printed) = in_turns([[PROGRAM, "documents"], [PROGRAM, "json"]], case.name)
    if written != printed or json.loads(written) != manifest(count):
        raise SystemExit("the manifest is not written back")
    return documents, plain


def figures():
    documents, plain = compared(LAYERS)
    more, _ = compared(8 * LAYERS)
    ratio = documents / plain
    yield Figure(f"a manifest of {LAYERS} layers, read and written", ratio, "reading and printing plain JSON")
    yield Figure(f"one of {8 * LAYERS}", more / documents / 8, "eight of it", 1.1)


if __name__ == "__main__":
    sys.exit(page(figures))
