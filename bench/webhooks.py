#!/usr/bin/python3
"""Measures `roksnaep admit` over a registry on this machine: a Pod of three images, whose images no core has decided before and then again, 32 reviews at once, and
what the cores hold after many."""
import contextlib
import os
import statistics
import sys
import tempfile
import time
from concurrent.futures import ThreadPoolExecutor
from pathlib import Path
from types import SimpleNamespace

sys.dont_write_bytecode = True
from figures import Figure, page  # noqa: E402
from pulls import ROUNDS  # noqa: E402
from admissions import rule_of, signed, webhook  # noqa: E402
from registry import Registry, ephemeral, ran  # noqa: E402

MANY = 10_000


def seconds(server, images):
    """How long a review of these images takes, over a connection that is open."""
    with contextlib.closing(server.connection()) as connection:
        server.ask(connection, "/validate", "no-rule.test/x:v1")
        began = time.monotonic()
        assert server.ask(connection, "/validate", *images)["allowed"]
        return time.monotonic() - began


def in_a_row(server, images, count):
    with contextlib.closing(server.connection()) as connection:
        for place in range(count):
            assert server.ask(connection, "/validate", images[place % len(images)])["allowed"]


def held(server, images, count):
    """MiB held by the cores after this many reviews by four clients."""
    with ThreadPoolExecutor(4) as pool:
        list(pool.map(lambda _: in_a_row(server, images, count // 4), range(4)))
    return sum(server.cores().values())


def at_once(server, image):
    with ThreadPoolExecutor(32) as pool:
        return max(pool.map(lambda _: seconds(server, [image]), range(32)))


def figures():
    with tempfile.TemporaryDirectory(prefix="roksnaep-admissions-") as name:
        folder = Path(name)
        key, public = ephemeral(folder, "ours")
        registry = Registry(folder / "registry")

        def push(layout, image):
            ran("skopeo", "copy", "--quiet", "--preserve-digests", "--dest-tls-verify=false", f"oci:{layout}", f"docker://{registry.place}/{image}")
        live = SimpleNamespace(folder=folder, key=key, public=public, place=registry.place, push=push, environment=dict(os.environ))
        try:
            images = [signed(live, f"app-{place}")[0] for place in range(3)]
            cold, warm = [], []
            for place in range(ROUNDS):
                with webhook(live, f"hook-{place}", [rule_of(live, registry.place)], "--jobs", "1") as server:
                    cold.append(seconds(server, images))
                    warm.append(seconds(server, images))
            with webhook(live, "busy", [rule_of(live, registry.place)], "--jobs", "4") as server:
                longest = at_once(server, images[0])
                few = held(server, images, 100)
                began = time.monotonic()
                many = held(server, images, MANY)
                each = (time.monotonic() - began) / MANY
                most = max(server.cores().values())
        finally:
            registry.stop()
    yield Figure("a review of three images", statistics.median(cold), "seconds", 0.5)
    yield Figure("the same images again", statistics.median(warm), "seconds", 0.1)
    yield Figure("32 reviews at once by four cores", longest, "seconds, the longest", 5)
    yield Figure(f"{MANY} reviews in a row by four clients", 1000 * each, "milliseconds each")
    yield Figure("the four cores after them", many / few, "what they held after 100", 1.1)
    yield Figure("a core after them", most, "MiB held", 64)


if __name__ == "__main__":
    sys.exit(page(figures))
