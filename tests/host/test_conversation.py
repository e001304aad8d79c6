#!/usr/bin/python3
"""Tests of what is recorded of a search, of which blobs may be long, and of which are kept or read again."""
import json
import os
import unittest
from unittest import mock

from support import CONFIG, LAYERS, MANIFEST, WithFolder, digest_of

from host.conversation import Exchanges
from host.core import Core
from host.layout import Layout

BASE, BLOB = "https://r.io/v2/", "https://r.io/v2/app/blobs/"


class Registry:
    """Answers by URL, and the blob that was named to it with each."""
    base, statuses, failure = BASE, {}, ""

    def __init__(self, answers):
        self.answers, self.blob, self.named, self.left = answers, "", {}, b""

    def reply(self, frame, body=()):
        if frame["frame"] == "request":
            self.named[frame["url"]] = self.blob
            status, self.left = self.answers.get(frame["url"], (404, b""))
            return {"frame": "answer", "status": status, "headers": []}, b""
        piece, self.left = self.left[:7], self.left[7:]
        return ({"frame": "piece", "bytes": len(piece)}, piece) if piece else ({"frame": "end"}, b"")


class Conversation(WithFolder):
    def setUp(self):
        super().setUp()
        self.layout = Layout(self.folder / "image", "oci", None)
        self.addCleanup(self.layout.close)

    def exchanges(self, answers, signed=True):
        made = Exchanges(Registry(answers), self.layout)
        if signed:
            made.searched(True)
        return made

    def get(self, exchanges, url, pieces=99, method="GET", headers=()):
        answer, _ = exchanges.reply({"frame": "request", "method": method, "url": url, "headers": list(headers)})
        body = b""
        while method == "GET" and pieces and (got := exchanges.reply({"frame": "more"}))[0]["frame"] == "piece":
            body, pieces = body + got[1], pieces - 1
        return answer["status"], body

    def test_which_blobs_may_be_long(self):
        digest, other = digest_of(CONFIG), digest_of(LAYERS[0])
        answers = {BLOB + digest: (307, b""), "https://cdn.io/x": (200, CONFIG), BLOB + other: (404, b""), "https://elsewhere.io/v2/app/blobs/" + digest: (200, LAYERS[0])}
        exchanges = self.exchanges(answers)
        for url, blob in ((BASE, ""), (BLOB + digest, digest), ("https://cdn.io/x", digest), (BASE + "app/manifests/v1", ""), ("https://cdn.io/y", ""), (BASE + "blobs/x", ""),
                          (BASE + "app/blobs/x/y", ""), (BASE + "app/referrers/" + digest, ""), (BLOB + other, other), ("https://elsewhere.io/v2/app/blobs/" + digest, other)):
            self.get(exchanges, url)
            self.assertEqual(exchanges.registry.named[url], blob, url)
        self.assertEqual(self.layout.find(digest).read_bytes(), CONFIG)
        self.assertEqual(self.layout.find(other).read_bytes(), LAYERS[0])  # where its descriptor led to
        self.assertEqual(self.get(exchanges, "HTTPS://R.IO/v2/app/manifests/v1")[0], 404)
        for signed in (False, True):
            exchanges = self.exchanges({BLOB + digest_of(MANIFEST): (200, MANIFEST)}, signed=False)
            exchanges.searched(signed)
            self.get(exchanges, BLOB + digest_of(MANIFEST), 1)
            self.assertEqual(exchanges.registry.named[BLOB + digest_of(MANIFEST)], digest_of(MANIFEST) if signed else "")

    def test_blobs_are_kept_if_they_are_whole(self):
        digest = digest_of(CONFIG)
        for body, pieces, found in ((CONFIG, 2, False), (CONFIG[:-1], 99, False), (CONFIG, 99, True)):
            exchanges = self.exchanges({BLOB + digest: (200, body)})
            self.get(exchanges, BLOB + digest, pieces)
            self.assertEqual((exchanges.kept, self.layout.find(digest) is not None), (int(pieces == 99), found))
        exchanges = self.exchanges({})
        self.assertEqual(self.get(exchanges, BLOB + digest), (200, CONFIG))  # read, and not requested
        self.assertEqual(exchanges.registry.named, {})
        self.assertEqual(self.get(exchanges, BLOB + digest, method="HEAD")[0], 404)

    def test_what_is_recorded(self):
        """Of a search manifests and blobs, also those that redirects lead to; no lists, no tokens; and nothing of the image."""
        answers = {BASE + "app/manifests/a": (200, b"manifest"), BLOB + digest_of(CONFIG): (307, b""), "https://cdn.io/x": (200, b"blob"), BASE: (401, b"challenge"),
                   "https://auth.io/token": (200, b"token"), BASE + "app/referrers/a": (200, b"list"), BASE + "app/manifests/b": (200, b"image")}
        exchanges = self.exchanges(answers, signed=False)
        for url in list(answers)[:-1]:
            self.get(exchanges, url)
        exchanges.searched(True)
        self.get(exchanges, BASE + "app/manifests/b")
        self.assertEqual([bytes(body) for body in exchanges.bodies if body], [b"manifest", b"blob"])
        self.assertEqual(self.left("image"), [])

    def test_accepted_credentials(self):
        for status, headers, accepted in ((200, [["Authorization", "Bearer t"]], True), (401, [["Authorization", "Bearer t"]], False), (200, [["accept", "x"]], False)):
            exchanges = self.exchanges({BASE + "app/manifests/a": (status, b"")})
            self.get(exchanges, BASE + "app/manifests/a", headers=headers)
            self.assertEqual(exchanges.accepted, accepted)


class LastFrames(WithFolder):
    def last(self, script):
        """The last frame of a core that is this script, and with which status the core ended."""
        path = self.folder / "core"
        path.write_text(f"#!/bin/sh\n{script}\n")
        path.chmod(0o755)
        with mock.patch.dict(os.environ, {"ROKSNAEP_CORE": str(path)}):
            core = Core()
        try:
            frame = core.read()
            try:
                return core.ended(frame), core.process.poll()
            except ValueError:
                return None, core.end()
        finally:
            core.close()

    def test_last_frames_count_with_their_status(self):
        says, frame = "echo '{\"frame\":\"pulled\"}'", {"frame": "pulled"}
        self.assertEqual(self.last(says), (frame, 0))
        self.assertEqual(self.last(f"{says}; exec sleep 0.2"), (frame, 0))
        for frame, fits in (({"frame": "refused", "report": ""}, 1), ({"frame": "checked", "verdict": "documents"}, 1), ({"frame": "lock", "verdict": "fails"}, 1),
                            ({"frame": "checked", "verdict": "holds"}, 0), ({"frame": "copied"}, 0), ({"frame": "carried", "digest": "d", "state": "there"}, 0)):
            for status in (0, 1):
                self.assertEqual(self.last(f"echo '{json.dumps(frame)}'; exit {status}"), (frame if status == fits else None, status), frame)
        for script, status in ((f"{says}; exit 1", 1), (f"{says}; exit 6", 6), (f"{says}; kill -SEGV $$", -11), (f"{says}; {says}", 0), (f"{says}; head -c 9000000 /dev/zero", -9)):
            with mock.patch("host.core.LEAVES", 1):
                self.assertEqual(self.last(script), (None, status), script)
        with mock.patch("host.core.LEAVES", 0.1):
            self.assertEqual(self.last(f"{says}; exec sleep 60"), (None, -9))


if __name__ == "__main__":
    unittest.main()
