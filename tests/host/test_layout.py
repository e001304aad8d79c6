#!/usr/bin/python3
"""Tests of what is written, and of what is read again: layouts, archives, signatures beside images, and `check`."""
import json
import os
import shutil
import subprocess
import tarfile
import unittest
from pathlib import Path
from unittest import mock

from support import CONFIG, IMAGE, LAYERS, MANIFEST, TOP, WithFolder, digest_of, manifest_of, registry

import host.layout
from host.checks import refusal
from host.core import fits
from host.layout import Layout, Stored
from host.refusals import Refusals


class Places(WithFolder):
    def test_what_is_there_is_not_replaced(self):
        (self.folder / "out/image").mkdir(parents=True)
        (self.folder / "file").write_text("x")
        (self.folder / "dangling").symlink_to("absent")
        with registry() as (place, handler):
            self.assertEqual(self.pull(place)[0], 0)
            asked = len(handler.seen)
            for out, told in (("out/image", "is not empty"), ("out", "is not empty"), ("file", "exists, and is not replaced"), ("dangling", "exists, and is not replaced"), (".", "is not empty")):
                status, _, err = self.pull(place, out=out)
                self.assertEqual(status, 2, out)
                self.assertIn(told, err)
            self.assertEqual(len(handler.seen), asked)
            self.assertEqual(self.blobs("out/image"), {digest_of(x)[7:] for x in IMAGE})

    def test_folders_that_are_there_are_written_into(self):
        """The current folder, and a link to an empty folder, as a mount point would be, whose name cannot be taken by a rename."""
        for name in ("here", "linked"):
            (self.folder / name).mkdir()
        (self.folder / "link").symlink_to("linked")
        with registry() as (place, _):
            self.assertEqual(self.pull(place, out="link")[0], 0)
            words = [TOP / "bin/roksnaep", "pull", f"{place}/app:v1", "--key", self.key, "--out", "."]
            self.assertEqual(subprocess.run(words, cwd=self.folder / "here", env=self.environment(), capture_output=True, timeout=60).returncode, 0)
        for name in ("here", "linked"):
            self.assertEqual(self.left(name), ["blobs", "index.json", "oci-layout"])
            self.assertEqual(self.blobs(name), {digest_of(x)[7:] for x in IMAGE})
        self.assertTrue((self.folder / "link").is_symlink())

    def test_a_folder_that_cannot_be_written(self):
        with registry() as (place, handler):
            for out in ("/proc/none/image", "/dev/null/image", "x" * 250):
                status, _, err = self.pull(place, out=out)
                self.assertEqual((status, err.count("\n")), (2, 1), err)
            self.assertEqual(handler.seen, [])

    def test_parents_that_were_made_are_removed(self):
        with registry(_blobs_=lambda h: h.answer(500, b"")) as (place, _):
            self.assertEqual(self.pull(place, out="a/b/c/image")[0], 1)
            (self.folder / "d").mkdir()
            self.assertEqual(self.pull(place, out="d/e/image")[0], 1)
            self.assertEqual((self.left("."), self.left("d")), (["d", "private", "public"], []))

    def test_a_blob_that_broke_off_does_not_stay(self):
        layout = Layout(self.folder / "image", "oci", None)
        for content in (CONFIG, LAYERS[0]):
            with layout.create(host.layout.blob_name(digest_of(content))) as file:
                file.write(content[:5])
        layout.add(digest_of(CONFIG), [CONFIG])
        layout.manifest = {"digest": digest_of(CONFIG)}
        layout.finish("r.io/app:v1", digest_of(CONFIG), {})
        layout.place()
        self.assertEqual(self.blobs("image"), {digest_of(CONFIG)[7:]})
        self.assertEqual((self.folder / "image/blobs/sha256" / digest_of(CONFIG)[7:]).read_bytes(), CONFIG)

    def test_files_and_folders_are_synced(self):
        done = []
        with mock.patch.object(host.layout, "sync", done.append):
            layout = Layout(self.folder / "image", "oci", None)
            layout.add(digest_of(CONFIG), [CONFIG])
            layout.manifest = {"digest": digest_of(CONFIG)}
            layout.finish("r.io/app:v1", digest_of(CONFIG), {})
            layout.place()
        self.assertEqual({str(path.relative_to(self.folder)).replace(layout.work.name, "W") for path in done},
                         {"W", "W/blobs", "W/blobs/sha256", f"W/blobs/sha256/{digest_of(CONFIG)[7:]}", "W/index.json", "W/oci-layout", "."})

    def test_a_folder_with_links_is_not_gone_on_with(self):
        """A hidden folder may have come with an archive or a checkout: nothing is written, or removed, where its links lead."""
        kept, left = self.folder / "kept", self.folder / ".image-0123456789ab"
        (kept / "sub").mkdir(parents=True)
        (kept / "sub/file").write_text("mine")
        names = [f"blobs/sha256/{mark}{digest_of(content)[7:]}{end}" for content in IMAGE for mark, end in (("", ""), *((".", f"-{place}") for place in range(3)))]
        with registry(documents=self.signed()) as (place, _):
            for links, make in (({"blobs": kept}, Path.symlink_to), ({"index.json": kept / "new"}, Path.symlink_to),
                                (dict.fromkeys(names, kept / "sub/file"), Path.symlink_to), (dict.fromkeys(names, kept / "sub/file"), Path.hardlink_to)):
                for name, target in links.items():
                    (left / name).parent.mkdir(parents=True, exist_ok=True)
                    make(left / name, target)
                self.assertEqual(self.pull(place, out="image")[0], 0)
                self.assertEqual({str(path): path.read_text() for path in kept.rglob("*") if path.is_file()}, {str(kept / "sub/file"): "mine"})
                self.assertEqual(self.blobs("image"), {digest_of(x)[7:] for x in IMAGE + self.signature})
                shutil.rmtree(self.folder / "image")
                shutil.rmtree(left)

    def test_a_place_that_appears_meanwhile(self):
        for form in ("oci", "oci-archive"):
            layout = Layout(self.folder / form, form, None)
            layout.manifest = {"digest": digest_of(CONFIG)}
            layout.finish("r.io/app:v1", digest_of(CONFIG), {})
            (self.folder / form).write_text("mine")
            with self.assertRaises(OSError):
                layout.place()
            layout.close()
            self.assertEqual((self.folder / form).read_text(), "mine")
        self.assertEqual(self.left("."), ["oci", "oci-archive", "private", "public"])

    def test_digests_are_not_paths(self):
        layout = Layout(self.folder / "image", "oci", None)
        for digest in ("sha256:../../x", "x", "", "sha256:", "sha256:AB", "../x:ab", "sha256:ab\n"):
            with self.assertRaises(OSError, msg=digest):
                layout.add(digest, [b""])
        layout.close()
        self.assertEqual(self.left("."), ["private", "public"])


class Outputs(WithFolder):
    def test_archives(self):
        names = {"oci-layout", "index.json"} | {f"blobs/sha256/{digest_of(x)[7:]}" for x in IMAGE}
        with registry() as (place, _):
            for form, tag, tags, more in (("oci-archive", [], None, set()), ("docker-archive", [], [f"{place}/app:v1"], {"manifest.json"}), ("docker-archive", ["--tag", "my/app:2"], ["my/app:2"], {"manifest.json"})):
                out = f"out/{form}{len(tag)}.tar"
                self.assertEqual(self.pull(place, "--format", form, *tag, out=out)[0], 0)
                with tarfile.open(self.folder / out) as archive:
                    self.assertEqual(set(archive.getnames()), names | more)
                    self.assertEqual(archive.extractfile(f"blobs/sha256/{digest_of(LAYERS[1])[7:]}").read(), LAYERS[1])
                    if more:
                        self.assertEqual(json.load(archive.extractfile("manifest.json")), [{"Config": f"blobs/sha256/{digest_of(CONFIG)[7:]}", "RepoTags": tags, "Layers": [f"blobs/sha256/{digest_of(x)[7:]}" for x in LAYERS]}])
            self.assertEqual(self.left(), ["docker-archive0.tar", "docker-archive2.tar", "oci-archive0.tar"])
            self.assertEqual(self.pull(place, "--format", "oci-archive", out="out/oci-archive0.tar")[0], 2)
        with registry(_blobs_=lambda h: h.answer(500, b"")) as (place, _):
            self.assertEqual(self.pull(place, "--format", "oci-archive", out="other/image.tar")[0], 1)
            self.assertEqual(self.left("."), ["out", "private", "public"])

    def test_into_a_layout_that_is_there(self):
        """What is there is reused, if it is intact, and other images stay."""
        other = manifest_of(CONFIG, [LAYERS[1], b"another layer"])
        documents = {"/v2/app/manifests/v2": other, f"/v2/app/blobs/{digest_of(b'another layer')}": b"another layer"}
        with registry(documents=documents) as (place, handler):
            self.assertEqual(self.pull(place, "--tag", "one")[0], 0)
            file = self.folder / "out/image/blobs/sha256" / digest_of(LAYERS[1])[7:]
            kept = file.stat()
            handler.seen.clear()
            status, _, err = self.run_it("pull", f"{place}/app:v2", "--key", str(self.key), "--out", "out/image", "--tag", "two")
            self.assertEqual((status, err), (0, ""))
            self.assertEqual([path for method, path, _ in handler.seen if "/blobs/" in path], [f"/v2/app/blobs/{digest_of(b'another layer')}"])
            self.assertEqual((file.stat().st_ino, file.stat().st_mtime_ns), (kept.st_ino, kept.st_mtime_ns))
            file.write_bytes(b"damaged")
            self.assertEqual(self.run_it("pull", f"{place}/app:v2", "--key", str(self.key), "--out", "out/image", "--tag", "two")[0], 0)
            self.assertEqual(file.read_bytes(), LAYERS[1])
            index = json.loads((self.folder / "out/image/index.json").read_text())
            self.assertEqual([(m["digest"], m["annotations"]["org.opencontainers.image.ref.name"]) for m in index["manifests"]], [(digest_of(MANIFEST), "one"), (digest_of(other), "two")])
            self.assertEqual(self.left("out/image"), ["blobs", "index.json", "oci-layout"])
            for text in ("[]", "{}", '{"manifests":[7]}', '{"manifests":7}', "x"):
                (self.folder / "out/image/index.json").write_text(text)
                status, _, err = self.pull(place, "--tag", "two")
                self.assertEqual((status, "is not an OCI image layout" in err), (2, True), err)

    def test_a_failure_leaves_a_layout_as_it_was(self):
        with registry() as (place, _):
            self.assertEqual(self.pull(place, "--tag", "one")[0], 0)
        before = {path: path.read_bytes() for path in self.folder.rglob("*") if path.is_file()}
        other = manifest_of(CONFIG, [b"new layer", b"absent"])
        with registry(documents={"/v2/app/manifests/v1": other, f"/v2/app/blobs/{digest_of(b'new layer')}": b"new layer"}) as (place, _):
            self.assertEqual(self.pull(place, "--tag", "two")[0], 1)
        self.assertEqual({path: path.read_bytes() for path in self.folder.rglob("*") if path.is_file()}, before)
        self.assertEqual(self.left("out/image"), ["blobs", "index.json", "oci-layout"])

    def test_a_file_of_another_size_is_not_read(self):
        """One of many GiB would take hours to be hashed."""
        with registry(documents=self.signed()) as (place, _):
            self.assertEqual(self.pull(place, "--tag", "one")[0], 0)
            for content in (MANIFEST, LAYERS[1], self.signature[2]):
                os.truncate(self.folder / "out/image/blobs/sha256" / digest_of(content)[7:], 1 << 43)
            self.assertEqual(self.pull(place, "--tag", "two")[0], 0)
        self.assertEqual(self.run_it("check", "out/image", "--tag", "two", "--key", str(self.key))[0], 0)

    def test_one_pull_at_a_time(self):
        with registry() as (place, _):
            self.assertEqual(self.pull(place, "--tag", "one")[0], 0)
            layout = Layout(self.folder / "out/image", "oci", "x")
            status, _, err = self.pull(place, "--tag", "two")
            self.assertEqual(status, 2)
            self.assertIn("unavailable", err)
            layout.close()


class Check(WithFolder):
    def check(self, *words, **more):
        return self.run_it("check", "out/image", "--key", str(self.key), *words, **more)

    def test_decides_a_layout_again(self):
        with registry(documents=self.signed()) as (place, _):
            self.assertEqual(self.pull(place)[0], 0)
        self.assertEqual(self.blobs("out/image"), {digest_of(x)[7:] for x in IMAGE + self.signature})
        status, out, err = self.check()
        self.assertEqual((status, err), (0, ""))
        self.assertEqual(out, f"checked out/image: {digest_of(MANIFEST)}, signed by {digest_of(self.signature[2])} ({self.key})\n")
        self.assertEqual(self.check("--json", "--deadline", "5")[0], 0)
        (self.folder / "other").write_text((self.folder / "public").read_text())
        self.setUpOther()
        status, _, err = self.run_it("check", "out/image", "--key", "other")
        self.assertEqual(status, 1)
        self.assertIn("refused out/image: no signature of", err)
        self.assertEqual(self.check("--tag", "absent")[0], 2)
        file = self.folder / "out/image/blobs/sha256" / digest_of(LAYERS[0])[7:]
        file.write_bytes(b"x")
        status, _, err = self.check()
        self.assertEqual((status, err), (1, f"refused out/image: the blob {digest_of(LAYERS[0])} is missing, or is not the one that the manifest names; pull the image again\n"))
        file.unlink()
        status, out, err = self.check("--json")
        self.assertEqual((status, err, digest_of(LAYERS[0]) in json.loads(out)["sentence"]), (1, "", True))
        (self.folder / "out/image/blobs/sha256" / digest_of(self.signature[0])[7:]).unlink()
        self.assertEqual(self.check()[0], 1)

    def test_cores_that_get_blobs(self):
        """How a core ends over a range is how the check ends; documents that no line has are checked as a pull is."""
        with registry(documents=self.signed()) as (place, _):
            self.assertEqual(self.pull(place)[0], 0)
        for fake, told in ("check 6", (6, "out of memory")), ("check 4", (4, "the core ended unexpectedly")), ("blobs 6", (0, "")):
            status, _, err = self.check(fake=fake)
            self.assertEqual((status, told[1] in err), (told[0], True), err)
        self.assertEqual(self.check(fake="ends 3")[::2], (1, "refused out/image: its index.json has an annotation (dev.roksnaep.reference or dev.roksnaep.signed-digest) that names no image; pull the image again\n"))
        word = {"frame": "check", "entry": {"first": "x" * (1 << 20)}}
        self.assertEqual((fits(word), fits(word | {"entry": {}})), (False, True))
        self.assertIn("its documents do not hold", Refusals({}, "").sentence("image", refusal({"frame": "checked", "verdict": "documents"})["report"]))

    def setUpOther(self):
        subprocess.run("openssl ecparam -name prime256v1 -genkey -noout | openssl ec -pubout -out other", shell=True, check=True, cwd=self.folder, capture_output=True)

    def test_the_image_that_a_layout_gives(self):
        """What other programs take from a layout is what `index.json` names; those in Go ignore the case of members."""
        other = manifest_of(CONFIG, [LAYERS[0]])
        with registry(documents=self.signed()) as (place, _):
            self.assertEqual(self.pull(place)[0], 0)
        (self.folder / "out/image/blobs/sha256" / digest_of(other)[7:]).write_bytes(other)
        file = self.folder / "out/image/index.json"
        index = json.loads(file.read_text())
        entry, = index["manifests"]
        others = [entry | {"digest": digest_of(other), "size": len(other)}]
        file.write_text(json.dumps(index | {"manifests": others}))
        status, out, err = self.check()
        self.assertEqual((status, out), (1, ""))
        self.assertTrue(err.startswith(f"refused out/image: its index.json names {digest_of(other)}, and the image that was signed is {digest_of(MANIFEST)}; "), err)
        for changed in (index | {"Manifests": others}, index | {"manife\u017fts": others}, index | {"manifests": [entry | {"Digest": digest_of(other)}]},
                        index | {"manifests": [entry | {"annotations": {"a": "\ud800"}}]},
                        index | {"manifests": [{{"annotations": "Annotations"}.get(name, name): value for name, value in others[0].items()}, entry]}):
            file.write_text(json.dumps(changed))
            self.assertEqual(self.check()[0], 2)
            with registry() as (place, _):
                self.assertEqual(self.pull(place, "--tag", "two")[0], 2)
        file.write_text(f'{{"manifests":{json.dumps(others)},{json.dumps(index)[1:]}')
        self.assertEqual(self.check()[0], 2)

    def test_what_is_not_a_regular_file(self):
        """Nothing is waited for, and nothing fills the memory."""
        def sparse(path):
            path.touch()
            os.truncate(path, 1 << 43)

        with registry(documents=self.signed()) as (place, _):
            self.assertEqual(self.pull(place)[0], 0)
        blobs = [self.folder / "out/image/blobs/sha256" / digest_of(content)[7:] for content in (MANIFEST, CONFIG, LAYERS[0], *self.signature[::2])]
        for path in (self.folder / "out/image/index.json", self.folder / "out/image/oci-layout", *blobs):
            path.rename(self.folder / "kept")
            for make, undo in ((os.mkfifo, os.unlink), (os.mkdir, os.rmdir), (sparse, os.unlink), (lambda path: path.symlink_to("/dev/zero"), os.unlink)):
                make(path)
                status, out, err = self.check()
                self.assertEqual((status, out, err.count("\n")), (1 if path in blobs else 2, "", 1), (path, err))
                undo(path)
            (self.folder / "kept").rename(path)
        self.assertEqual(self.check()[0], 0)

    def test_layouts_that_are_not(self):
        for text in (None, "x", "[]", '{"manifests":[]}', '{"manifests":[{}]}', '{"manifests":[{"digest":"../x"}]}', '{"manifests":[{"digest":7}]}',
                     '{"manifests":[{"digest":"sha256:ab","annotations":7}]}'):
            (self.folder / "out/image").mkdir(parents=True, exist_ok=True)
            (self.folder / "out/image/oci-layout").write_text('{"imageLayoutVersion":"1.0.0"}')
            if text:
                (self.folder / "out/image/index.json").write_text(text)
            status, _, err = self.check()
            self.assertEqual((status, err.count("\n"), "object" in err), (2, 1, False), (text, err))

    def test_a_policy_needs_the_reference(self):
        with registry(documents=self.signed()) as (place, _):
            self.assertEqual(self.pull(place)[0], 0)
            (self.folder / "policy.json").write_text(json.dumps({"version": 1, "rules": [{"images": place, "keys": ["public"]}]}))
            self.assertEqual(self.run_it("verify", f"{place}/app:v1", "--policy", "policy.json")[0], 0)
        status, _, err = self.run_it("check", "out/image", "--policy", "policy.json")
        self.assertEqual((status, "--reference" in err), (2, True))
        self.assertEqual(self.run_it("check", "out/image", "--policy", "policy.json", "--reference", f"{place}/app:v1")[0], 0)
        status, _, err = self.run_it("check", "out/image", "--policy", "policy.json", "--reference", "r.io/app:v1")
        self.assertEqual((status, err.startswith("refused out/image: r.io/app:v1 is covered by no rule")), (1, True), err)

    def test_referrers(self):
        """A bundle among the referrers is kept as one."""
        bundle = manifest_of(b"{}", [b'{"bundle":1}'], "application/vnd.dev.sigstore.bundle.v0.3+json")
        layout = Layout(self.folder / "image", "oci", None)
        layout.manifest = {"mediaType": "m", "digest": digest_of(MANIFEST), "size": len(MANIFEST)}
        layout.add(digest_of(MANIFEST), [MANIFEST])
        layout.finish("r.io:5000/app:v1@sha256:ab", digest_of(MANIFEST), {"tag": [], "referrers": [[bundle, b"{}", b'{"bundle":1}']]})
        layout.place()
        stored = Stored(self.folder / "image", None)
        self.assertEqual(stored.reference, f"r.io:5000/app@{digest_of(MANIFEST)}")

        def asked(path):
            answer, _ = stored.reply({"frame": "request", "method": "GET", "url": f"https://r.io:5000/v2/{path}", "headers": []})
            return answer["status"], stored.reply({"frame": "more"})[1], stored.reply({"frame": "more"})[0]

        self.assertEqual(asked(""), (200, b"", {"frame": "end"}))
        self.assertEqual(asked(f"app/manifests/{digest_of(MANIFEST)}"), (200, MANIFEST, {"frame": "end"}))
        self.assertEqual(asked(f"app/manifests/{digest_of(MANIFEST).replace(':', '-')}.sig")[:2], (404, b""))
        status, content, _ = asked(f"app/referrers/{digest_of(MANIFEST)}")
        self.assertEqual([entry["digest"] for entry in json.loads(content)["manifests"]], [digest_of(bundle)])
        for name in ("manifests/v1", "blobs/../../index.json", "blobs/sha256:..", "manifests/sha256:ab", "blobs/.."):
            self.assertEqual(asked(f"app/{name}")[:2], (404, b""), name)


if __name__ == "__main__":
    unittest.main()
