#!/usr/bin/python3
"""Tests of copies between two registries on loopback, over a core that believes almost everything: whose rules hold, what is said, and what is left."""
import base64
import contextlib
import fcntl
import hashlib
import http.server
import json
import os
import re
import signal
import sys
import threading
import time
import unittest
import unittest.mock
import urllib.parse

from support import CONFIG, IMAGE, LAYERS, MANIFEST, MANIFEST_TYPE, TOP, WithFolder, digest_of, registry
from test_blobs import ranged

sys.path.append(str(TOP / "tests"))
from registry import chunked_body  # noqa: E402

from host.copies import Sides
from host.core import Core
from host.network import Network
from host.places import Access


LARGE = LAYERS[1]
ABSENT = b'{"errors":[{"code":"MANIFEST_UNKNOWN","message":"manifest unknown"}]}'


class Target(http.server.BaseHTTPRequestHandler):
    """A registry that takes what is pushed."""
    protocol_version = "HTTP/1.1"

    def answer(self, status, *headers):
        self.send_response(status)
        for name, value in {"Content-Length": "0", **dict(headers)}.items():
            self.send_header(name, value)
        self.end_headers()

    def handled(self):
        kept, path, is_chunked = type(self), self.path.partition("?")[0], self.headers.get("transfer-encoding") == "chunked"
        body = chunked_body(self.rfile) if is_chunked else self.rfile.read(int(self.headers.get("content-length", 0)))
        kept.seen.append((self.command, path, dict(self.headers)))
        self.body = body
        for part, way in kept.ways.items():
            if f"{self.command} {path}".startswith(part):
                return way(self)
        return self.usual()

    def usual(self):
        kept, path, body = type(self), self.path.partition("?")[0], self.body
        if path == "/v2/":
            return self.answer(200)
        if self.command == "GET":
            found = kept.documents.get(path)
            self.answer(200 if found else 404, ("Content-Type", json.loads(found).get("mediaType", "") if found else "application/json"), ("Content-Length", str(len(found or ABSENT))))
            return self.wfile.write(found or ABSENT)
        if self.command == "HEAD":
            return self.answer(200, ("Docker-Content-Digest", digest_of(kept.documents[path]))) if path in kept.documents else self.answer(404)
        if self.command == "POST":
            kept.uploads.append(b"")
            return self.answer(202, ("Location", f"{path}{len(kept.uploads) - 1}?state=x"))
        if self.command == "PATCH":
            kept.uploads[int(path.rpartition("/")[2])] += body
            return self.answer(202, ("Location", f"{path}?state=y"))
        digest = re.search("digest=([^&]*)", urllib.parse.unquote(self.path))
        content = kept.uploads[int(path.rpartition("/")[2])] + body if digest else body
        kept.documents[path.rpartition("uploads/")[0] + digest[1] if digest else path] = content
        return self.answer(201, ("Location", "/x"), *([("OCI-Subject", "sha256:x")] if kept.lists else []))

    do_HEAD = do_GET = do_POST = do_PATCH = do_PUT = handled

    def log_message(self, *_):
        pass


@contextlib.contextmanager
def target(lists=False, **ways):
    handler = type("Handler", (Target,), {"documents": {}, "uploads": [], "seen": [], "lists": lists, "ways": {k.replace("_", " ", 1).replace("_", "/"): v for k, v in ways.items()}})
    server = http.server.ThreadingHTTPServer(("127.0.0.1", 0), handler)
    server.handle_error = lambda *_: None
    threading.Thread(target=server.serve_forever, args=[0.05], daemon=True).start()
    try:
        yield f"localhost:{server.server_port}", handler
    finally:
        server.shutdown()
        server.server_close()


def blobs_of(handler):
    """The digests of the blobs that a target has, each of which it was given."""
    found = {path.rpartition("/")[2]: content for path, content in handler.documents.items() if "/blobs/" in path}
    assert all(digest_of(content) == digest for digest, content in found.items())
    return {*found}


class Copies(WithFolder):
    def copy(self, source, to, *words, **more):
        return self.run_it("copy", f"{source}/app:v1", f"{to}/copy:v1", "--key", str(self.key), *words, **more)

    def test_copies_an_image(self):
        with registry(documents=self.signed()) as (source, handler), target() as (to, other):
            status, out, err = self.copy(source, to)
            self.assertEqual((status, err), (0, ""))
            self.assertEqual(out, f"copied {source}/app:v1 to {to}/copy:v1: {digest_of(MANIFEST)}, signed by {digest_of(self.signature[2])} ({self.key})\n")
            self.assertEqual({name: content for name, content in other.documents.items() if "/blobs/" in name},
                             {f"/v2/copy/blobs/{digest_of(x)}": x for x in (*IMAGE[1:], *self.signature[1:])})
            self.assertEqual(other.documents["/v2/copy/manifests/v1"], MANIFEST)
            puts = [path for command, path, _ in other.seen if command == "PUT"]
            self.assertEqual(puts[-2:], ["/v2/copy/manifests/v1", f"/v2/copy/manifests/{digest_of(MANIFEST).replace(':', '-')}.sig"])
            self.assertTrue(all(path.startswith(("/v2/app/", "/v2/")) for _, path, _ in handler.seen) and all(path.startswith("/v2/") and "/app/" not in path for _, path, _ in other.seen))
            other.seen.clear()
            handler.seen.clear()
            told = json.loads(self.copy(source, to, "--json")[1])
            self.assertEqual((told["outcome"], told["target"], set(told["there"])), ("copied", f"{to}/copy:v1", {digest_of(x) for x in IMAGE[1:]}))
            self.assertTrue(told["sentence"].endswith("; 3 of 3 blobs were there already, and not pulled"), told["sentence"])
            self.assertFalse([path for _, path, _ in handler.seen if path.endswith(tuple(map(digest_of, IMAGE[1:])))])

    def test_some_blobs_are_there(self):
        with registry(documents=self.signed()) as (source, handler), target() as (to, other):
            other.documents[f"/v2/copy/blobs/{digest_of(LAYERS[1])}"] = LAYERS[1]
            status, out, err = self.copy(source, to)
            self.assertEqual((status, err, out.endswith("; 1 of 3 blobs were there already, and not pulled\n")), (0, "", True), out)
            self.assertFalse([path for _, path, _ in handler.seen if path.endswith(digest_of(LAYERS[1]))])

    def broken_off(self, way, breaks=1, goes_on=True):
        """A copy whose larger layer breaks off so often, each time after a mebibyte more: its status, what it said, the ranges that were requested, and how many uploads were begun."""
        seen = []

        def broken(at):
            seen.append(at.headers.get("range"))
            if len(seen) > breaks:
                return way(at)
            begin, end = int((seen[-1] if goes_on and seen[-1] else "bytes=0-")[6:-1]), len(LARGE)
            more = [("Content-Range", f"bytes {begin}-{end - 1}/{end}")] if begin else []
            at.answer(206 if begin else 200, LARGE[begin:begin + (1 << 20)], [("Content-Length", str(end - begin)), *more])
            at.close_connection = True
            return None
        with registry(documents=self.signed(), **{"_blobs_" + digest_of(LARGE): broken}) as (source, _), target() as (to, other):
            status, _, err = self.copy(source, to)
            self.assertEqual(("/v2/copy/manifests/v1" in other.documents, digest_of(LARGE) in blobs_of(other)), (not status, not status), err)
            return status, err, seen, len(other.uploads)

    def test_a_blob_that_breaks_off_at_the_source(self):
        """Its bytes go on into the same upload, by a range if the registry takes it. There are five requests for a blob at most."""
        for way, count in ((lambda at: ranged(at, LARGE), 2), (lambda at: at.usual(), 2), (lambda at: ranged(at, LARGE, 7), 3)):
            status, err, seen, uploads = self.broken_off(way)
            self.assertEqual((status, err, len(seen), uploads), (0, "", count, 5))
            self.assertRegex(seen[1], r"bytes=10\d{5}-")
        self.assertEqual(self.broken_off(lambda at: ranged(at, LARGE), 2)[::3], (0, 5))
        status, err, seen, _ = self.broken_off(lambda at: at.usual(), 99, False)
        self.assertEqual((status, "the connection failed" in err, len(seen)), (1, True, 5), err)

    def test_a_blob_that_begins_anew(self):
        """If the source refuses the rest, as after a token ended, or if what was put together is another blob."""
        def refused(at):
            return at.answer(401, b"") if at.headers.get("range") else at.usual()

        def other(at):
            return ranged(at, LARGE[:-1] + b"x") if at.headers.get("range") else at.usual()

        for way in refused, other:
            status, err, seen, uploads = self.broken_off(way)
            self.assertEqual((status, err, len(seen), uploads), (0, "", 3, 6))
        status, err, seen, _ = self.broken_off(lambda at: at.answer(401, b""))
        self.assertEqual((status, "needs credentials" in err, len(seen)), (1, True, 4), err)
        status, err, seen, _ = self.broken_off(lambda at: at.answer(200, LARGE[:-1] + b"x"))
        self.assertEqual((status, "has the digest" in err, len(seen)), (1, True, 3), err)

    def test_a_token_of_the_target_that_ends(self):
        """What was pushed with it is begun anew, once."""
        for count, wanted in ((1, 0), (99, 1)):
            seen = []
            with registry(documents=self.signed()) as (source, _), target(**{"PATCH_": lambda at: at.answer(401) if seen.append(at.path) or len(seen) <= count else at.usual()}) as (to, other):
                status, _, err = self.copy(source, to)
                self.assertEqual((status, "/v2/copy/manifests/v1" in other.documents, "needs credentials" in err), (wanted, not wanted, bool(wanted)), err)

    def test_a_core_that_ends(self):
        for fake, wanted in (("carry 4", 4), ("carry 6", 6), ("carry 3", 3), ("blobs 4", 4), ("blobs 6", 6), ("blobs 0", 4)):
            with registry(documents=self.signed()) as (source, _), target() as (to, other):
                status, _, err = self.copy(source, to, fake=fake)
                self.assertEqual((status, err.count("\n"), "/v2/copy/manifests/v1" in other.documents, blobs_of(other)), (wanted, 1, False, set()), err)

    def test_a_last_frame_that_the_status_does_not_fit(self):
        """Of what pulls a blob, nothing is at the target; of what pushes one, no tag; of what copies, nobody says that it was copied."""
        for word, status, wanted in (("copy", 1, 4), ("copy", -9, 4), ("copy", 6, 6), ("carry", 1, 4), ("carry", -9, 4), ("blobs", 1, 4), ("blobs", -9, 4)):
            with registry(documents=self.signed()) as (source, _), target() as (to, other):
                ended, out, err = self.copy(source, to, fake=f"last {status} {word}")
                self.assertEqual((ended, out, err.count("\n"), "/v2/copy/manifests/v1" in other.documents), (wanted, "", 1, word == "copy"), (word, status, err))
                self.assertTrue(err.startswith(f"failed {source}/app:v1: "), err)
                self.assertFalse(word == "blobs" and blobs_of(other))
        for word, status, wanted in (("copy", 0, 4), ("copy", 1, 1), ("carry", 0, 4), ("carry", 1, 1)):
            way = {"HEAD_/v2/copy/manifests" if word == "copy" else "PATCH_": lambda at: at.answer(500)}
            with registry(documents=self.signed()) as (source, _), target(**way) as (to, other):
                ended, out, err = self.copy(source, to, fake=f"last {status} {word}")
                self.assertEqual((ended, out, err.startswith("refused "), other.documents), (wanted, "", wanted == 1, {}), (word, status, err))

    def test_a_tag_that_is_there(self):
        with registry(documents=self.signed()) as (source, _), target() as (to, other):
            other.documents["/v2/copy/manifests/v1"] = another = json.dumps({"mediaType": MANIFEST_TYPE}).encode()
            status, _, err = self.copy(source, to)
            self.assertEqual((status, f"{to}/copy:v1 is there already, with the digest {digest_of(another)}" in err), (1, True), err)
            self.assertLessEqual({command for command, _, _ in other.seen}, {"GET", "HEAD"})
            self.assertEqual(self.copy(source, to, "--replace")[0], 0)
            self.assertEqual(other.documents["/v2/copy/manifests/v1"], MANIFEST)

    def test_a_signature_tag_that_is_there(self):
        """Other signatures under the signature tag refuse the copy, before anything is sent; the same signature does not."""
        with registry(documents=self.signed()) as (source, _), target() as (to, other):
            self.assertEqual(self.copy(source, to)[0], 0)
            tag = f"{digest_of(MANIFEST).replace(':', '-')}.sig"
            own = other.documents[f"/v2/copy/manifests/{tag}"]
            self.assertEqual(self.copy(source, to)[0], 0)
            other.documents[f"/v2/copy/manifests/{tag}"] = another = own + b" "
            other.seen.clear()
            status, _, err = self.copy(source, to)
            self.assertEqual((status, f"{to}/copy:{tag} is there already, with the digest {digest_of(another)}" in err), (1, True), err)
            self.assertLessEqual({command for command, _, _ in other.seen}, {"GET", "HEAD"})
            self.assertEqual(self.copy(source, to, "--replace")[0], 0)
            self.assertEqual(other.documents[f"/v2/copy/manifests/{tag}"], own)

    def test_what_is_refused_leaves_no_tag(self):
        for way in (lambda at: at.answer(500), lambda at: setattr(at, "close_connection", True)):
            with registry(documents=self.signed()) as (source, _), target(**{"PATCH_": way}) as (to, other):
                status, _, err = self.copy(source, to)
                self.assertEqual((status, err.count("\n")), (1, 1), err)
                self.assertNotIn("/v2/copy/manifests/v1", other.documents)
        with registry(documents=self.signed(), **{"_blobs_" + digest_of(LAYERS[0]): lambda at: at.answer(200, b"other bytes")}) as (source, _), target() as (to, other):
            status, _, err = self.copy(source, to)
            self.assertEqual((status, "has the digest" in err), (1, True), err)
            self.assertNotIn("/v2/copy/manifests/v1", other.documents)
            self.assertNotIn(digest_of(b"other bytes"), blobs_of(other))  # though the core would commit them under their own digest
        with registry(documents=self.signed(), **{"_blobs_" + digest_of(LARGE): lambda at: at.answer(200, LARGE + b"x")}) as (source, _), target() as (to, other):
            status, _, err = self.copy(source, to)
            self.assertEqual((status, "longer than the limit" in err, len(blobs_of(other)) < 3), (1, True, True), err)
        with registry(documents=self.signed()) as (source, _), target() as (to, other):
            status, _, err = self.copy(source, to, "--type", "a/b", fake="ends 6")
            self.assertEqual((status, other.seen), (6, []))

    def test_credentials_of_each(self):
        """Neither registry sees those of the other, from a file or from standard input."""
        pairs = [base64.b64encode(text).decode() for text in (b"a:one", b"b:two")]
        for by_file in (True, False):
            with registry(documents=self.signed()) as (source, handler), target() as (to, other):
                (self.folder / "config.json").write_text(json.dumps({"auths": {source: {"auth": pairs[0]}, to: {"auth": pairs[1]}}} if by_file else {}))
                words = [] if by_file else ["--username", "a", "--target-username", "b", "--password-stdin"]
                self.assertEqual(self.copy(source, to, *words, stdin="" if by_file else "one\ntwo\n")[0], 0)
                for seen, pair in ((handler.seen, pairs[0]), (other.seen, pairs[1])):
                    found = {value for _, _, headers in seen for name, value in headers.items() if name.lower() == "authorization"}
                    self.assertEqual(found, {f"Basic {pair}"})
        for words, stdin in ((["--username", "a"], "x"), (["--target-username", "b"], "x"), (["--username", "a", "--target-username", "b", "--password-stdin"], "one\n")):
            self.assertEqual(self.copy("localhost:1", "localhost:2", *words, stdin=stdin)[0], 2)

    def test_a_stopped_copy(self):
        with registry(documents=self.signed()) as (source, _), target(**{"PATCH_": lambda at: time.sleep(20)}) as (to, other):
            started = self.start("copy", f"{source}/app:v1", f"{to}/copy:v1", "--key", str(self.key))
            while not any(command == "PATCH" for command, _, _ in other.seen):
                time.sleep(0.05)
            started.send_signal(signal.SIGINT)
            self.assertEqual((started.communicate(timeout=15)[1], started.returncode), (f"stopped {source}/app:v1: by SIGINT\n", 4))
            self.assertNotIn("/v2/copy/manifests/v1", other.documents)


    def test_digests_that_no_core_carries(self):
        """skopeo gets these blobs in a layout that no file of is left, with the credentials of the target alone."""
        digest = f"sha512:{hashlib.sha512(LARGE).hexdigest()}"
        manifest = MANIFEST.replace(digest_of(LARGE).encode(), digest.encode())
        documents = self.signed(manifest) | {"/v2/app/manifests/v1": manifest, f"/v2/app/manifests/{digest_of(manifest)}": manifest, f"/v2/app/blobs/{digest}": LARGE}
        program, pair = self.folder / "bin/skopeo", base64.b64encode(b"b:two").decode()
        for folder in program.parent, self.folder / "tmp":
            folder.mkdir()
        with registry(documents=documents) as (source, _), target() as (to, other):
            (self.folder / "config.json").write_text(json.dumps({"auths": {to: {"auth": pair}}}))
            kept = f"find $TMPDIR -type f > {self.folder}/found; cat $TMPDIR/*/auth.json > {self.folder}/auth; echo $* > {self.folder}/words"
            for script, told in ((kept, f"the target does not have {digest}"), ("echo 'time=x msg=\"no space\"' >&2; exit 1", "were not pushed to {to}/copy:v1: no space")):
                program.write_text(f"#!/bin/sh\n{script}\n")
                program.chmod(0o755)
                status, _, err = self.copy(source, to, env={"PATH": f"{program.parent}:{os.environ['PATH']}", "TMPDIR": str(self.folder / "tmp")})
                self.assertEqual((status, told.format(to=to) in err, "/v2/copy/manifests/v1" in other.documents, self.left("tmp")), (1, True, False, []), err)
            self.assertEqual(blobs_of(other), {digest_of(CONFIG), digest_of(LAYERS[0])})
            self.assertIn(f"blobs/sha512/{digest[7:]}\n", (self.folder / "found").read_text())
            self.assertEqual(json.loads((self.folder / "auth").read_text()), {"auths": {to: {"auth": pair}}})
            self.assertRegex((self.folder / "words").read_text(), f" --preserve-digests oci:.* docker://{to}/copy@{digest_of(manifest)}\n")


class Descriptors(WithFolder):
    def test_a_core_reads_its_blob_as_number_3(self):
        """Whatever has this number keeps it, and nobody else has the end that the bytes are written to."""
        path, kept = self.folder / "core", fcntl.fcntl(os.open(self.key, os.O_RDONLY), fcntl.F_DUPFD, 9)
        path.write_text("#!/bin/sh\nexec cat <&3\n")
        path.chmod(0o755)
        with unittest.mock.patch.dict(os.environ, {"ROKSNAEP_CORE": str(path)}):
            for is_taken in True, False, True:
                if is_taken:
                    os.dup2(kept, 3)
                else:
                    os.close(3)
                core, other = Core(False, True), Core(False, True)
                core.blob.write(b"{}\n")
                core.blob.close()
                self.assertEqual((core.read(), core.end(), other.process.poll()), ({}, 0, None))
                other.close()
                self.assertEqual(os.path.exists("/proc/self/fd/3") and os.path.samefile("/proc/self/fd/3", self.key), is_taken)


class Both(unittest.TestCase):
    def test_whose_rules_hold(self):
        """A request is held to the rules of the side that was named, and answers are remembered for each alone."""
        with registry() as (source, handler), target() as (to, other):
            sides = Sides(Network(Access(source, True), timeout=2), Network(Access(to, True), timeout=2), [])

            def asked(place, path="/v2/", method="GET", body=b""):
                frame = {"frame": "request", "method": method, "url": f"http://{place}{path}", "headers": []} | ({"bytes": len(body)} if body else {})
                return sides.reply(frame, [body])[0].get("status")

            self.assertEqual((asked(source, "/v2/app/manifests/v1"), asked(to)), (200, None))
            self.assertIn("http is for the registry alone", sides.failure)
            sides.turn("target")
            self.assertEqual((asked(to), asked(source)), (200, None))
            self.assertEqual((asked(to, "/v2/copy/manifests/x", "PUT", b"x"), sides.pushed), (201, [False]))
            other.lists = True
            self.assertEqual((asked(to, "/v2/copy/manifests/x", "PUT", b"x"), sides.beside().pushed), (201, [False, True]))
            sides.turn("source")
            self.assertEqual((asked(source), sides.base, len(other.seen)), (404, f"http://{source}/v2/", 3))
            self.assertRaises(KeyError, sides.turn, "elsewhere")
            self.assertEqual(set(sides.statuses), {f"http://{source}/v2/app/manifests/v1", f"http://{source}/v2/", f"http://{to}/v2/", f"http://{to}/v2/copy/manifests/x"})


if __name__ == "__main__":
    unittest.main(warnings="ignore")  # pycurl duplicates a socket that it is given, and drops it
