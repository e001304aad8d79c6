#!/usr/bin/python3 -B
"""Which program runs, and how a released one is verified: over trees made here."""
import hashlib
import lzma
import os
import stat
import sys
import tempfile
import unittest
from pathlib import Path
from unittest import mock

sys.path.insert(0, str(Path(__file__).resolve().parent.parent.parent))

from host import release  # noqa: E402

PROGRAM = b"#!/bin/sh\necho released\n"
KIT = "kit 1"


class Release(unittest.TestCase):
    def setUp(self):
        folder = tempfile.TemporaryDirectory()
        self.addCleanup(folder.cleanup)
        self.top = Path(folder.name) / "top"
        self.cache = Path(folder.name) / "cache"
        for name, text in {"crates.txt": "# a comment\nlow: serde_json\npull_program: low\nroksnaep_core low: low\nother: low\n", "HANDLES": "none\n",
                           "crates/low/src/lib.rt": "low", "crates/low/proofs/Low.antt": "", "crates/low/README.md": "", "crates/other/src/lib.rt": "",
                           "crates/pull_program/src/main.rt": "", "crates/roksnaep_core/src/main.rt": ""}.items():
            self.put(name, text.encode())
        environment = {name: value for name, value in os.environ.items() if name != "ROKSNAEP_CORE"} | {"XDG_CACHE_HOME": str(self.cache)}
        for patch in (mock.patch.multiple(release, TOP=self.top, DIST=self.top / "dist"), mock.patch.dict(os.environ, environment, clear=True)):
            patch.start()
            self.addCleanup(patch.stop)

    def put(self, name, content):
        path = self.top / name
        path.parent.mkdir(parents=True, exist_ok=True)
        path.write_bytes(content)
        return path

    def release(self):
        packed = lzma.compress(PROGRAM)
        self.put("dist/roksnaep-core-x86_64.xz", packed)
        self.put("dist/SOURCES", f"{release.sources(KIT)} {KIT}\n".encode())
        self.put("dist/SHA256SUMS", f"{hashlib.sha256(packed).hexdigest()}  roksnaep-core-x86_64.xz\n".encode())

    def test_nothing_is_there(self):
        with self.assertRaisesRegex(ValueError, "there is no roksnaep-core here; build it"):
            release.program("roksnaep-core")

    def test_the_order(self):
        """The one that is named, else the installed one, else the one that was built here, else the released one."""
        self.release()
        self.assertEqual(release.program("roksnaep-core")[1], "released")
        built = self.put("crates/roksnaep_core/out/roksnaep_core", b"")
        self.assertEqual(release.program("roksnaep-core"), (built, "built here"))
        installed = self.put("bin/roksnaep-core", b"")
        self.assertEqual(release.program("roksnaep-core"), (installed, "installed"))
        with mock.patch.dict(os.environ, ROKSNAEP_CORE="/absent"):
            self.assertEqual(release.program("roksnaep-core"), (Path("/absent"), "named by ROKSNAEP_CORE"))

    def test_a_released_program_is_unpacked_once(self):
        self.release()
        path, _ = release.program("roksnaep-core")
        self.assertEqual((path.read_bytes(), stat.S_IMODE(path.stat().st_mode)), (PROGRAM, 0o755))
        self.assertEqual([path], [found for found in self.cache.rglob("*") if found.is_file()])
        (self.top / "dist/roksnaep-core-x86_64.xz").write_bytes(b"")
        self.assertEqual(release.program("roksnaep-core")[0], path)

    def test_a_cache_that_cannot_be_written(self):
        self.release()
        with mock.patch("os.fsync", side_effect=OSError(28, "No space left on device")), self.assertRaisesRegex(OSError, r"could not be written \(No space left on device\); make room"):
            release.program("roksnaep-core")
        self.assertEqual([], [found for found in self.cache.rglob("*") if found.is_file()])
        self.cache.rename(self.cache.with_name("other"))
        self.cache.write_text("")
        with self.assertRaisesRegex(OSError, r"could not be written \(Not a directory\); make room"):
            release.program("roksnaep-core")

    def test_the_processor(self):
        """The program for x86-64-v3 is taken where it is released, and where every processor has what it needs."""
        self.release()
        wide = lzma.compress(b"#!/bin/sh\necho wide\n")
        needed = " ".join(sorted(release.V3))
        cpuinfo = self.put("cpuinfo", f"processor: 0\nflags\t\t: fpu {needed}\n\nprocessor: 1\nflags\t\t: fpu {needed}\n".encode())
        older = self.put("older", f"processor: 0\nflags\t\t: fpu {needed}\n\nprocessor: 1\nflags\t\t: fpu sse4_2\n".encode())
        self.assertEqual((release.has_v3(cpuinfo), release.has_v3(older), release.has_v3(self.put("empty", b""))), (True, False, False))
        self.assertEqual(release.unpacked("roksnaep-core", True).read_bytes(), PROGRAM)
        self.put("dist/roksnaep-core-x86_64_v3.xz", wide)
        with (self.top / "dist/SHA256SUMS").open("a") as sums:
            sums.write(f"{hashlib.sha256(wide).hexdigest()}  roksnaep-core-x86_64_v3.xz\n")
        self.assertEqual(release.unpacked("roksnaep-core", True).read_bytes(), b"#!/bin/sh\necho wide\n")
        self.assertEqual(release.unpacked("roksnaep-core", False).read_bytes(), PROGRAM)

    def test_a_wrong_checksum_is_refused(self):
        self.release()
        file = self.top / "dist/roksnaep-core-x86_64.xz"
        file.write_bytes(lzma.compress(b"#!/bin/sh\necho other\n"))
        with self.assertRaisesRegex(ValueError, "does not have its checksum in SHA256SUMS; restore both"):
            release.program("roksnaep-core")
        self.assertFalse(self.cache.exists())

    def test_sources(self):
        """The checksum is over the programs' crates and their lines alone, and over the kit."""
        first = release.sources(KIT)
        for name in ("crates/other/src/lib.rt", "crates/low/README.md"):
            self.put(name, b"changed")
        self.assertEqual(release.sources(KIT), first)
        self.assertNotEqual(release.sources("kit 2"), first)
        for name in ("crates/low/src/lib.rt", "crates/low/proofs/Low.antt", "crates/low/specs/New.antt", "HANDLES"):
            with self.subTest(name):
                before = release.sources(KIT)
                self.put(name, b"changed")
                self.assertNotEqual(release.sources(KIT), before)

    def test_what_is_said(self):
        self.release()
        self.assertRegex(release.described("roksnaep-core"), r"^/.*/roksnaep-core \(released, of these sources\)$")
        self.put("crates/low/src/lib.rt", b"changed")
        self.assertRegex(release.described("roksnaep-core"), r" \(released, of older sources than these\)$")
        self.put("bin/roksnaep-core", b"")
        self.assertRegex(release.described("roksnaep-core"), r" \(installed\)$")


if __name__ == "__main__":
    unittest.main()
