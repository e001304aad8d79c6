#!/usr/bin/python3
"""Measures `roksnaep copy` between registries on this machine, in rounds with `roksnaep pull` and `skopeo copy` of the same image, and a second copy."""
import contextlib
import random
import shutil
import statistics
import sys
import tempfile
from pathlib import Path

sys.dont_write_bytecode = True
from figures import Figure, page  # noqa: E402
from pulls import MIB, MOST, ROUNDS, TOP, most_held, stored, timed  # noqa: E402
from registry import Registry, ephemeral, make_layout, ran, sign  # noqa: E402

SIZES = [64] * 4  # MiB


def a_round(folder, source, public):
    """The seconds of a pull, of skopeo's copy, of a copy and of a second one; each target is a new registry."""
    times = [timed(TOP / "bin/roksnaep", "pull", f"{source}/image:v1", "--key", public, "--out", folder / "pulled")]
    shutil.rmtree(folder / "pulled")
    with target(folder) as place:
        theirs = ["skopeo", "copy", "--quiet", "--src-tls-verify=false", "--dest-tls-verify=false"]
        times.append(timed(*theirs, f"docker://{source}/image:v1", f"docker://{place}/image:v1"))
    with target(folder) as place:
        return *times, *(timed(*copied(source, place, public)) for _ in range(2))


def copied(source, place, public):
    return TOP / "bin/roksnaep", "copy", f"{source}/image:v1", f"{place}/image:v1", "--key", public


@contextlib.contextmanager
def target(folder):
    registry = Registry(folder / "target")
    try:
        yield registry.place
    finally:
        registry.stop()
        shutil.rmtree(folder / "target")


def figures():
    with tempfile.TemporaryDirectory(prefix="roksnaep-copies-") as name:
        folder, chance = Path(name), random.Random("copies")
        registry = Registry(folder / "registry")
        try:
            key, public = ephemeral(folder, "ours")
            named = make_layout(folder / "image", [stored(chance, size * MIB) for size in SIZES])
            ran("skopeo", "copy", "--quiet", "--preserve-digests", "--dest-tls-verify=false", f"oci:{folder / 'image'}", f"docker://{registry.place}/image:v1")
            sign(registry.place, "image", named["digest"], key)
            rounds = [a_round(folder, registry.place, public) for _ in range(ROUNDS)]
            with target(folder) as place:
                most = most_held(*copied(registry.place, place, public))
        finally:
            registry.stop()
    yield Figure("a copy of an image of four of 64 MiB", statistics.median(first / pulled for pulled, _, first, _ in rounds), "the pull of it", 2)
    yield Figure("the same", statistics.median(first / theirs for _, theirs, first, _ in rounds), "skopeo copy of it", 2)
    yield Figure("a second copy of it", statistics.median(second / first for _, _, first, second in rounds), "the first one", 0.2)
    yield Figure("its memory", most, "MiB held by the command and its cores", MOST)


if __name__ == "__main__":
    sys.exit(page(figures))
