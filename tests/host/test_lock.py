#!/usr/bin/python3
"""Tests of lock files over a core and a program that believe almost everything: what is written, checked offline, and pulled."""
import json
import os
import resource
import unittest

from support import LAYERS, MANIFEST, WithFolder, digest_of, manifest_of, openssl, registry

from host.lock import text_of, whole


class Locks(WithFolder):
    def lock(self, *references, **more):
        return self.run_it("lock", *references, "--key", str(self.key), **more)

    def check(self, *words, key=None, **more):
        return self.run_it("lockcheck", *words, "--key", str(key or self.key), **more)

    def test_locks_checks_and_pulls(self):
        with registry(documents=self.signed()) as (place, handler):
            image, file = f"{place}/app:v1", self.folder / "roksnaep.lock"
            self.assertEqual(self.lock(image), (0, "locked 1 image in roksnaep.lock\n", ""))
            self.assertFalse([path for _, path, _ in handler.seen if digest_of(LAYERS[0]) in path])
            entry, = json.loads(file.read_text())["entries"]
            self.assertEqual((entry["image"], entry["digest"], entry["first"]), (image, digest_of(MANIFEST), MANIFEST.decode()))
            self.assertEqual((entry["signature"]["kind"], entry["signature"]["content"]), ("payload", self.signature[2].decode()))
            self.assertEqual(file.read_text(), text_of([entry]))
            moved = manifest_of(b"{}", [b"another layer"])
            handler.documents["/v2/app/manifests/v1"] = moved
            del handler.documents[f"/v2/app/manifests/{digest_of(MANIFEST).replace(':', '-')}.sig"]
            handler.seen.clear()
            self.assertEqual(self.check(image), (0, "checked roksnaep.lock: 1 image, signed as required\n", ""))
            self.assertEqual(handler.seen, [])
            status, out, err = self.pull(place, "--lock", "roksnaep.lock")
            self.assertEqual((status, err), (0, ""))
            self.assertTrue(out.startswith(f"pulled {image} to out/image: {digest_of(MANIFEST)}, signed by "), out)
            self.assertFalse([path for _, path, _ in handler.seen if "/manifests/" in path])
            for content in (MANIFEST, *LAYERS):
                self.assertIn(digest_of(content)[7:], self.blobs("out/image"))

    def test_refuses_another_key(self):
        with registry(documents=self.signed()) as (place, _):
            self.assertEqual(self.lock(f"{place}/app:v1")[0], 0)
        openssl("ecparam", "-name", "prime256v1", "-genkey", "-noout", "-out", self.folder / "other")
        openssl("ec", "-in", self.folder / "other", "-pubout", "-out", self.folder / "other.pub")
        status, _, err = self.check(key=self.folder / "other.pub")
        self.assertEqual(status, 1)
        self.assertTrue(err.startswith(f"refused roksnaep.lock: {place}/app:v1: no signature of {digest_of(MANIFEST)} matches the given keys"), err)

    def test_a_verdict_that_the_status_does_not_fit(self):
        """Neither that a lock holds nor that it fails counts then, and no file is written."""
        file = self.folder / "roksnaep.lock"
        with registry(documents=self.signed()) as (place, _):
            for word in ("documents", "lockcheck"):
                ended, out, err = self.lock(f"{place}/app:v1", fake=f"last 1 {word}")
                self.assertEqual((ended, out, "the core ended unexpectedly" in err, file.exists()), (4, "", True, False), err)
            self.assertEqual(self.lock(f"{place}/app:v1")[0], 0)
            for status in (1, -9):
                ended, out, err = self.check(fake=f"last {status} lockcheck")
                self.assertEqual((ended, out, err), (4, "", f"stopped roksnaep.lock: the core ended unexpectedly, with the status {status}\n"))
            ended, out, err = self.pull(place, "--lock", "roksnaep.lock", fake="last -9 lockcheck")
            self.assertEqual((ended, out, self.left()), (4, "", []), err)
            openssl("ecparam", "-name", "prime256v1", "-genkey", "-noout", "-out", self.folder / "other")
            openssl("ec", "-in", self.folder / "other", "-pubout", "-out", self.folder / "other.pub")
            for status, wanted in (1, 1), (0, 4), (-9, 4):
                self.assertEqual(self.check(key=self.folder / "other.pub", fake=f"last {status} lockcheck")[:2], (wanted, ""))

    def test_refuses_what_was_edited(self):
        file = self.folder / "roksnaep.lock"
        with registry(documents=self.signed()) as (place, _):
            self.assertEqual(self.lock(f"{place}/app:v1")[0], 0)
        text = file.read_text()
        for edited, told in ((text + "\n", "was edited: it is not the text that `roksnaep lock` writes; write it anew: roksnaep lock"),
                             ("{", "is not a lock file; write it anew: roksnaep lock")):
            file.write_text(edited)
            status, out, err = self.check()
            self.assertEqual((status, out), (1, ""))
            self.assertIn(told, err)
        file.write_bytes(b"\xff")
        self.assertIn("is not a lock file", self.check()[2])
        file.write_text(text)
        self.assertEqual(self.check(f"{place}/other:v1")[::2], (1, f"refused roksnaep.lock: it has no entry for {place}/other:v1; add one: roksnaep lock\n"))
        status, _, err = self.run_it("pull", f"{place}/other:v1", "--key", str(self.key), "--lock", "roksnaep.lock")
        self.assertEqual((status, err), (1, f"refused {place}/other:v1: roksnaep.lock has no entry for it; add one: roksnaep lock\n"))
        file.unlink()
        self.assertEqual(self.check()[::2], (2, "roksnaep: there is no lock file roksnaep.lock; write one: roksnaep lock\n"))

    def test_what_is_not_read(self):
        file = self.folder / "roksnaep.lock"
        for make in (os.mkfifo, os.mkdir, lambda path: path.symlink_to("/dev/zero"), lambda path: (path.touch(), os.truncate(path, (64 << 20) + 1))):
            make(file)
            self.assertEqual(self.check()[::2], (2, "roksnaep: roksnaep.lock is not a regular file of at most 67108864 bytes; replace it by one\n"))
            file.rmdir() if file.is_dir() else file.unlink()

    def test_a_full_disk(self):
        """The old file stays, and nothing else."""
        (self.folder / "roksnaep.lock").write_text("old")
        with registry(documents=self.signed()) as (place, handler):
            status, out, err = self.lock(f"{place}/app:v1", env={"PYTHONDONTWRITEBYTECODE": "1"}, preexec_fn=lambda: resource.setrlimit(resource.RLIMIT_FSIZE, (100, 100)))
            self.assertEqual((status, out), (5, ""))
            self.assertEqual(err, f"failed {place}/app:v1: roksnaep.lock could not be written (File too large), and is as it was; make room for it, or choose another --lock\n")
            self.assertEqual(((self.folder / "roksnaep.lock").read_text(), self.left(".")), ("old", ["private", "public", "roksnaep.lock"]))
            handler.seen.clear()
            (self.folder / "pipe").symlink_to("/dev/null")
            for path in (".", "absent/x", "pipe"):
                status, _, err = self.lock(f"{place}/app:v1", "--lock", path)
                self.assertEqual((status, err), (2, f"roksnaep: {path} cannot be written; choose another --lock\n"))
            self.assertEqual(handler.seen, [])

    def test_a_refused_image_leaves_the_old_file(self):
        file = self.folder / "roksnaep.lock"
        file.write_text("old")
        with registry(documents=self.signed()) as (place, _):
            status, _, err = self.lock(f"{place}/app:v1", f"{place}/app:none")
        self.assertEqual((status, file.read_text(), sorted(path.name for path in self.folder.iterdir())), (1, "old", ["private", "public", "roksnaep.lock"]))
        self.assertTrue(err.startswith(f"refused {place}/app:none: "), err)

    def test_a_core_that_ends(self):
        with registry(documents=self.signed()) as (place, _):
            self.assertEqual(self.lock(f"{place}/app:v1")[0], 0)
        for status, told in ((3, "failed roksnaep.lock: the reference is invalid, or --platform is not OS/ARCH; write registry/name:tag"),
                             (6, "failed roksnaep.lock: out of memory; run it with more"), (7, "stopped roksnaep.lock: the core ended unexpectedly, with the status 7")):
            self.assertEqual(self.check(fake=f"ends {status}")[::2], (4 if status == 7 else status, f"{told}\n"))

    def test_documents_that_no_line_has(self):
        long = json.dumps(json.loads(MANIFEST) | {"annotations": {"a": "x" * 600_000}}).encode()
        with registry(documents=self.signed(long) | {"/v2/app/manifests/v1": long}) as (place, _):
            status, _, err = self.lock(f"{place}/app:v1")
        self.assertEqual((status, self.left(".")), (1, ["private", "public"]))
        self.assertTrue(err.startswith(f"refused {place}/app:v1: {place}/app:v1: its documents are longer than a line of the core (1 MiB), and cannot be locked; "), err)

    def test_whole_references(self):
        for reference, text in (("app", "docker.io/library/app:latest"), ("team/app:v1", "docker.io/team/app:v1"), ("localhost:5000/app", "localhost:5000/app:latest"),
                                ("localhost/app:v1@sha256:00", "localhost/app:v1@sha256:00"), ("localhost/app@sha256:00", "localhost/app@sha256:00")):
            self.assertEqual(whole(reference), text)


if __name__ == "__main__":
    unittest.main()
