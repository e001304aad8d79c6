#!/usr/bin/env python3
"""Measures how the time of an admission review grows with the number of its images, as a ratio within one run.

A Pod of 100 images is reviewed over a registry in memory whose image has a layer of 1 MiB, and ten times one of 10.
"""
import sys
import tempfile

from figures import Figure, page
from run import PROGRAM, measured, rows

SIZE, IMAGES = 1 << 20, 100


def review_of(make, images):
    image, tag = make.image_of("x" * SIZE)
    payload = make.payload(image=image)
    signatures = make.manifest("{}", [make.signed(payload)])
    shelf = make.shelf_of({"v1": make.digest(image), tag: make.digest(signatures)}, [image, signatures], ["{}", "x" * SIZE, payload])
    settings = make.review_settings(shelf=shelf, signatures=[{"key": "k1", "message": make.digest(payload), "signature": "sig1"}])
    containers = [make.container(f"c{number}", f"{make.REGISTRY}/app:v1") for number in range(images)]
    return make.compact({"settings": settings, "review": make.admission(containers)})


def timed(make, images):
    with tempfile.NamedTemporaryFile("w") as case:
        case.write(review_of(make, images))
        case.flush()
        time, memory, written = measured([PROGRAM, "review"], case.name)
    if b'"allowed":true' not in written:
        raise SystemExit("an image is denied")
    return time, memory


def figures():
    make = rows()
    whole, held = timed(make, IMAGES)
    parts = sum(timed(make, IMAGES // 10)[0] for _ in range(10))
    yield Figure(f"a review of {IMAGES} images of {SIZE >> 20} MiB", whole / parts, f"ten of {IMAGES // 10}", 1.2)
    yield Figure("its memory", held / (1 << 20), "MiB held")


if __name__ == "__main__":
    sys.exit(page(figures))
