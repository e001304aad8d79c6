#!/usr/bin/python3
"""Tests of blobs by cores side by side: which ranges they get, what goes on where it broke off, and what is remembered for all of them."""
import json
import os
import re
import shutil
import time
import unittest

from support import CONFIG, IMAGE, LAYERS, MANIFEST, WithFolder, digest_of, manifest_of, registry

from host.blobs import beginning, parsed, ranges, refused_layer

LARGE = os.urandom(3 << 20)
OTHER = manifest_of(CONFIG, [LARGE, LAYERS[0]])
DOCUMENTS = {"/v2/app/manifests/v1": OTHER, f"/v2/app/manifests/{digest_of(OTHER)}": OTHER, f"/v2/app/blobs/{digest_of(LARGE)}": LARGE}


def ranged(handler, content, wrong=0):
    """The answer to a request with a range, or of the whole."""
    found = re.fullmatch(r"bytes=(\d+)-", handler.headers.get("range", ""))
    if not found:
        return handler.answer(200, content)
    start = int(found[1])
    if start >= len(content):
        return handler.answer(416, b"")
    return handler.answer(206, content[start:], [("Content-Range", f"bytes {start + wrong}-{len(content) - 1}/{len(content)}")])


def breaking(way, count=1):
    """A large layer whose first answers break off in the middle."""
    seen = []

    def answered(handler):
        seen.append(handler.headers.get("range"))
        if len(seen) <= count:
            start = int((seen[-1] or "=0-").split("=")[1][:-1]) if way is ranged else 0
            handler.answer(206 if start else 200, LARGE[start:start + (1 << 20)], [("Content-Length", str(len(LARGE) - start)), *([("Content-Range", f"bytes {start}-{len(LARGE) - 1}/{len(LARGE)}")] if start else [])])
            handler.close_connection = True
            return None
        return way(handler, LARGE)
    return answered, seen


class Parts(unittest.TestCase):
    def test_ranges(self):
        for sizes, told in (([5], [(0, 1)]), ([1, 900], [(0, 2)]), ([1, 900, 900], [(0, 2), (2, 3)]), ([10] * 3, [(0, 1), (1, 2), (2, 3)]), ([0, 0, 0], [(0, 3)]), ([20, *[1600] * 4], [(0, 2), (2, 3), (3, 4), (4, 5)]),
                            ([1, 50, 900, 3, 3], [(2, 3), (0, 2), (3, 5)])):
            self.assertEqual([(span.start, span.stop) for span in ranges(sizes)], told, sizes)
        found = ranges([1000, *[1 << 20] * 200])
        self.assertEqual(sorted(at for span in found for at in span), list(range(201)))
        self.assertLess(len(found), 20)

    def test_where_a_range_begins(self):
        for text, begins in (("bytes 5-9/10", 5), ("bytes 0-9/*", 0), (f"bytes {'9' * 5000}-9/10", None), (f"bytes 5-{'9' * 5000}/{'9' * 5000}", 5), ("bytes \u0665-9/10", None),
                             ("bytes -5-9/10", None), ("bytes */10", None), ("", None), ({"base64": "w6k="}, None)):
            self.assertEqual(beginning({"frame": "answer", "status": 206, "headers": [["content-range", text]]}), begins, text)

    def test_manifests_that_no_frame_has(self):
        self.assertEqual(parsed(MANIFEST), json.loads(MANIFEST))
        for text in (b'{"a":1.5}', b'{"a":1e3}', b'{"a":"' + b"x" * (1 << 20) + b'"}'):
            self.assertRaises(ValueError, parsed, text)

    def test_conditions_on_layers(self):
        for layers, told in ([], "PullNoLayersError"), ([LAYERS[0]], 'IncompatibleLayerMediaTypeError "a/b"'):
            refused = refused_layer("r/app:v1", json.loads(manifest_of(CONFIG, layers, "a/b")), ["c/d"])
            self.assertEqual(refused, {"frame": "refused", "report": f'refused RegistryPullError "r/app:v1" {told}\n'})
        self.assertIsNone(refused_layer("r/app:v1", json.loads(manifest_of(CONFIG, LAYERS, "a/b")), ["a/b"]))


class Broken(WithFolder):
    def pulled(self, way, count=1, documents=DOCUMENTS):
        answered, seen = breaking(way, count)
        with registry(documents=documents, **{"_blobs_" + digest_of(LARGE): answered}) as (place, handler):
            status, _, err = self.pull(place)
        return status, err, seen

    def test_a_blob_that_broke_off_goes_on(self):
        for way in ranged, lambda handler, content: handler.answer(200, content):
            status, err, seen = self.pulled(way)
            self.assertEqual((status, err, len(seen)), (0, "", 2))
            self.assertRegex(seen[1], r"bytes=10\d{5}-")
            self.assertEqual((self.folder / "out/image/blobs/sha256" / digest_of(LARGE)[7:]).read_bytes(), LARGE)
            self.assertEqual(self.blobs("out/image"), {digest_of(x)[7:] for x in (OTHER, CONFIG, LARGE, LAYERS[0])})
            self.setUp()

    def test_a_registry_that_answers_another_range(self):
        status, err, seen = self.pulled(lambda handler, content: ranged(handler, content, 7))
        self.assertEqual((status, err, len(seen), seen[2]), (0, "", 3, None))

    def test_a_registry_that_gives_other_bytes(self):
        """What is put together does not have the digest: it is requested once more from the start, and no more."""
        status, err, seen = self.pulled(lambda handler, content: ranged(handler, content[:-1] + b"x"))
        self.assertEqual((status, len(seen), "has the digest" in err, self.left()), (1, 3, True, []))

    def test_a_registry_that_always_breaks_off(self):
        status, err, seen = self.pulled(lambda handler, content: None, 99)
        self.assertEqual((status, "the connection failed" in err, self.left()), (1, True, []))
        self.assertLessEqual(len(seen), 5)

    def test_a_killed_run_is_gone_on_with(self):
        """Its folder is taken over: what came whole is not requested again, and the rest by its range."""
        def stalled(handler):
            handler.answer(200, LARGE[:1 << 21], [("Content-Length", str(len(LARGE)))])
            time.sleep(20)

        with registry(documents=DOCUMENTS, **{"_blobs_" + digest_of(LARGE): stalled}) as (place, handler):
            started = self.start("pull", f"{place}/app:v1", "--key", str(self.key), "--out", "out/image")
            until = time.monotonic() + 30
            while time.monotonic() < until and sum(path.stat().st_size for path in (self.folder / "out").rglob("*") if path.is_file()) < 1 << 20:
                time.sleep(0.05)
            time.sleep(0.5)
            started.kill()
            started.communicate()
        self.assertEqual(len(self.left()), 1)
        with registry(documents=DOCUMENTS, **{"_blobs_" + digest_of(LARGE): lambda handler: ranged(handler, LARGE)}) as (place, handler):
            status, _, err = self.pull(place)
            self.assertEqual((status, err, self.left()), (0, "", ["image"]))
            asked = [(path.rpartition("/")[2], headers.get("range")) for _, path, headers in handler.seen if "/blobs/" in path]
            self.assertRegex(dict(asked)[digest_of(LARGE)], r"bytes=\d{6,}-")
        self.assertEqual(self.blobs("out/image"), {digest_of(x)[7:] for x in (OTHER, CONFIG, LARGE, LAYERS[0])})

    def test_a_left_file_that_is_not_of_the_blob(self):
        """Longer than the blob, as long with other bytes, or a part of other bytes: it is requested from the start."""
        left = self.folder / "out" / ".image-0123456789ab/blobs/sha256"
        for size in (len(LAYERS[1]) + 1, 1 << 43, len(LAYERS[1]), 1000):
            left.mkdir(parents=True)
            for mark in range(3):
                with open(left / f".{digest_of(LAYERS[1])[7:]}-{mark}", "wb") as file:
                    file.truncate(size)
            with registry() as (place, _):
                status, _, err = self.pull(place)
            self.assertEqual((status, err, self.left()), (0, "", ["image"]), size)
            self.assertEqual(self.blobs("out/image"), {digest_of(x)[7:] for x in (MANIFEST, CONFIG, *LAYERS)})
            shutil.rmtree(self.folder / "out")

    def test_a_folder_of_others_is_not_taken_over(self):
        (self.folder / "out" / ".image-0123456789ab/blobs/sha256").mkdir(parents=True)
        os.chmod(self.folder / "out" / ".image-0123456789ab", 0o777)
        with registry() as (place, _):
            self.assertEqual(self.pull(place)[0], 0)
        self.assertEqual(self.left(), [".image-0123456789ab", "image"])


class Tokens(WithFolder):
    def test_answers_are_remembered(self):
        """`/v2/` and the token service are asked once for all cores, and once more after a 401."""
        given, refused, valid = [], [], set()

        def challenge(handler):
            if handler.path == "/v2/":
                return handler.answer(401, b"", [("WWW-Authenticate", f'Bearer realm="http://{place}/token",service="x"')])
            return handler.usual()

        def token(handler):
            given.append(f"Bearer t{len(given)}")
            valid.add(given[-1])
            return handler.answer(200, json.dumps({"token": given[-1][7:], "expires_in": 300}).encode())

        def guarded(handler):
            if expires and len(handler.seen) > 9 and not refused:
                valid.clear()
            if handler.headers.get("authorization") not in valid:
                refused.append(handler.path)
                return handler.answer(401, b"")
            return handler.usual()

        manifest = manifest_of(CONFIG, blobs := [os.urandom(50_000) for _ in range(32)])
        documents = {"/v2/app/manifests/v1": manifest} | {f"/v2/app/blobs/{digest_of(x)}": x for x in blobs}
        for expires in (False, True):
            for kept in (given, refused, valid):
                kept.clear()
            with registry(documents=documents, _token=token, _blobs_=guarded, _v2_=challenge) as (place, handler):
                status, _, err = self.pull(place, out=f"out{expires}")
                self.assertEqual((status, err), (0, ""))
                self.assertTrue(len(refused) <= 4 and (len(refused) > 0) == expires, refused)
                self.assertTrue(len(given) <= 4 * (1 + expires), given)  # cores that begin together
                self.assertLessEqual(sum(path == "/v2/" for _, path, _ in handler.seen), len(given))
            self.assertEqual(self.blobs(f"out{expires}"), {digest_of(x)[7:] for x in (manifest, CONFIG, *blobs)})


if __name__ == "__main__":
    unittest.main()
