#!/usr/bin/env python3
"""Writes what `fault_tables` has to print for the base case, from the rules alone: which of its requests may fail, and what
the pull then comes to. A fault while the body of an answer is read is one of its request.
"""
import os
import sys

sys.dont_write_bytecode = True
import make

CRATE = os.path.join(make.HERE, "../../crates/fault_tables")

NAMED = make.digest(make.IMAGE)
APP = f"{make.REGISTRY}/app"
TAG = f"{APP}:{make.TAG}"
WHOLE = 21
# The pull of the generated image if nothing responds: the probe's fault is ignored, and the digest refuses the pull.
UNANSWERED = [
    "moment 100",
    "GET http://localhost:5000/v2/",
    "HEAD http://localhost:5000/v2/gen/manifests/v1",
    'refused RegistryFetchManifestError "localhost:5000/gen:v1" TransportFault',
]
# The requests whose bodies are read, counted from 1, and those of them whose body is empty: a HEAD, and the lists of
# referrers that the shelf does not have.
BODIES = [2, 4, 6, 8, 10, 13, 15, 17, 19, 21]
EMPTY = [2, 13, 15]


def quoted(text):
    return f'"{text}"'


def unsatisfied(called, requests):
    """The tag was refused, and the referrers are still asked for."""
    cause = f"skipped Source Tag Refused {called} {quoted(TAG)} TransportFault"
    return requests, [f"refused Unsatisfied {quoted(NAMED)}", cause]


def outcome(line):
    """How many requests are made where this one fails, and what the pull comes to."""
    image = make.image_lines(make.payload())
    if line == 2:
        return 2, [f"refused RegistryFetchManifestError {quoted(APP + ':v1')} TransportFault"]
    if line == 4:
        return unsatisfied("RegistryPullManifestError", 9)
    if line in (6, 8, 10):
        return unsatisfied("RegistryPullError", line + 5)
    if line in (17, 19, 21):
        return line, [f"refused RegistryPullError {quoted(f'{APP}@{NAMED}')} TransportFault"]
    return {11: 17, 13: 19}.get(line, WHOLE), image


def lines_of(label, number, line):
    requests, lines = outcome(line)
    return [f"{label} {number}", f"requests {requests}", *lines]


def main():
    lines = [f"requests {WHOLE}", *make.image_lines(make.payload())]
    for line in range(1, WHOLE + 1):
        lines += lines_of("send", line - 1, line)
    # A body is a piece and its end; of an empty one there is the end alone.
    calls = [line for line in BODIES for _ in range(1 if line in EMPTY else 2)]
    for number, line in enumerate(calls + [0]):
        lines += lines_of("piece", number, line)
    lines += UNANSWERED
    case = make.case(None, [make.payload()], shelf=make.base_shelf())
    for name, text in [("stdin", case), ("stdout", "".join(f"{line}\n" for line in lines))]:
        with open(os.path.join(CRATE, name), "w", encoding="utf-8") as file:
            file.write(text)


if __name__ == "__main__":
    main()
