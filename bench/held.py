#!/usr/bin/env python3
"""Runs a program once, and reports how much time of the processor it took and how much memory it held.

    held.py STDIN WORD ..      what the program writes is passed on; the last line on standard error is `SECONDS BYTES STATUS`

It is a program of its own so that it is small: the memory that a process is said to have held is at least what its parent held when it was made.
"""
import os
import subprocess
import sys


def main():
    with open(sys.argv[1], "rb") as stdin:
        process = subprocess.Popen(sys.argv[2:], stdin=stdin)
        _, status, usage = os.wait4(process.pid, 0)
    print(f"{usage.ru_utime + usage.ru_stime} {usage.ru_maxrss * 1024} {os.waitstatus_to_exitcode(status)}", file=sys.stderr)


if __name__ == "__main__":
    main()
