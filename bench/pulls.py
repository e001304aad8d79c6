#!/usr/bin/python3
"""Measures `roksnaep pull` from a registry on this machine, in rounds with `skopeo copy` of the same image to a layout: the middle of five ratios, and the memory.

    pulls.py [PART OF A NAME ..]
"""
import contextlib
import os
import random
import shutil
import statistics
import subprocess
import sys
import tempfile
import time
import zlib
from pathlib import Path

sys.dont_write_bytecode = True
TOP = Path(__file__).resolve().parent.parent
sys.path += [str(TOP / "tests")]
from figures import Figure, page  # noqa: E402
from registry import Registry, ephemeral, make_layout, ran, sign  # noqa: E402

MIB, ROUNDS = 1 << 20, 5
# of an image: its layers in MiB, and the greatest ratio that is wanted
IMAGES = {"one of 256": ([256], 1.5), "four of 64": ([64] * 4, 1.25), "sixteen of 16": ([16] * 16, 1.25), "eight of 128": ([128] * 8, 1.15), "200 of 1": ([1] * 200, 1.0)}
MOST = 128  # MiB
# so that Python does not compile the command each time, as it does not once it is installed
ENVIRONMENT = {name: value for name, value in os.environ.items() if name != "PYTHONDONTWRITEBYTECODE"}


def stored(chance, size):
    """Bytes by chance as a gzip file that is not compressed."""
    packer = zlib.compressobj(0, zlib.DEFLATED, 31)
    return packer.compress(chance.randbytes(size - size // 5000 - 64)) + packer.flush()


def held(process):
    """The memory of a process and its children, in MiB: of a page that some of them share each holds its part."""
    folder = Path(f"/proc/{process}")
    children = [child for path in folder.glob("task/*/children") for child in path.read_text().split()]
    shares = dict(line.split(":", 1) for line in (folder / "smaps_rollup").read_text().splitlines()[1:])
    return int(shares["Pss"].split()[0]) / 1024 + sum(held(child) for child in children)


def timed(*words):
    """The seconds of a run."""
    began = time.monotonic()
    subprocess.run(words, stdout=subprocess.DEVNULL, env=ENVIRONMENT, check=True)
    return time.monotonic() - began


def most_held(*words):
    """The most memory of all processes of a run together."""
    most, run = 0.0, subprocess.Popen(words, stdout=subprocess.DEVNULL, env=ENVIRONMENT)
    while run.poll() is None:
        with contextlib.suppress(OSError, LookupError, ValueError):
            most = max(most, held(run.pid))
        time.sleep(0.02)
    if run.returncode:
        raise SystemExit(f"{words[0]} ended with {run.returncode}")
    return most


def measured(folder, name, sizes):
    """The middle of the ratios, and the most memory."""
    registry, chance = Registry(folder / "registry"), random.Random(name)
    try:
        key, public = ephemeral(folder, "ours")
        named = make_layout(folder / "image", [stored(chance, size * MIB) for size in sizes])
        ran("skopeo", "copy", "--quiet", "--preserve-digests", "--dest-tls-verify=false", f"oci:{folder / 'image'}", f"docker://{registry.place}/image:v1")
        sign(registry.place, "image", named["digest"], key)
        pull, ratios = [TOP / "bin/roksnaep", "pull", f"{registry.place}/image:v1", "--key", public, "--out"], []
        most = most_held(*pull, folder / "first")
        for _ in range(ROUNDS):
            ours = timed(*pull, folder / "ours")
            theirs = timed("skopeo", "copy", "--quiet", "--src-tls-verify=false", f"docker://{registry.place}/image:v1", f"oci:{folder / 'theirs'}")
            ratios.append(ours / theirs)
            for made in ("ours", "theirs"):
                shutil.rmtree(folder / made)
        return statistics.median(ratios), most
    finally:
        registry.stop()


def figures(parts=()):
    for name, (sizes, goal) in IMAGES.items():
        if parts and not any(part in name for part in parts):
            continue
        with tempfile.TemporaryDirectory(prefix="roksnaep-pulls-") as folder:
            ratio, most = measured(Path(folder), name, sizes)
        yield Figure(f"the pull of an image of {name} MiB", ratio, "skopeo copy of it", goal)
        yield Figure("its memory", most, "MiB held by the command and its cores", MOST)


if __name__ == "__main__":
    sys.exit(page(lambda: figures(sys.argv[1:])))
