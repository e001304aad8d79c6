#!/usr/bin/env python3
"""Prints the figures of all scripts in one page, each a ratio within one run, with its goal beside it.

    page.py [NAME ..]       those of the scripts NAME.py alone

The exit status is 1 if a goal is missed by more than a tenth (those lines have a `!`) or a script fails, else 0.
"""
import importlib
import sys

# Nothing is left beside the recorded cases.
sys.dont_write_bytecode = True

from figures import page  # noqa: E402

SCRIPTS = [
    "run", "refused", "canon", "documents", "signatures", "referrers", "caching",
    "bundles", "streams", "pushes", "generated", "reviews", "locks", "pulls", "copies", "webhooks",
]


def measures(names):
    """The measures of these scripts, under their names."""
    for name in names:
        yield importlib.import_module(name).figures


if __name__ == "__main__":
    unknown = [name for name in sys.argv[1:] if name not in SCRIPTS]
    sys.exit(f"page.py: no script {', '.join(unknown)}" if unknown else page(*measures(sys.argv[1:] or SCRIPTS)))
