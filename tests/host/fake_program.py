#!/usr/bin/python3
"""A `pull_program lockcheck` that believes almost everything: a text that is JSON with sorted names is a lock file, and holds if a signature is valid."""
import json
import sys

given = json.load(sys.stdin)
try:
    lock = json.loads(given["lock"])
except ValueError:
    lock = None
if lock is None:
    print("lock refused Unreadable")
elif json.dumps(lock, ensure_ascii=False, sort_keys=True, separators=(",", ":")) != given["lock"]:
    print("lock refused NotCanonical")
elif lock["entries"] and not given["case"].get("signatures"):
    print(f'lock fails "{lock["entries"][0]["image"]}"')
else:
    print("lock holds")
    sys.exit(0)
sys.exit(1)
