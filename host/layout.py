"""Images on disk: written beside their place and moved there once they are whole; and read again, in place of a registry."""
import contextlib
import copy
import fcntl
import glob
import hashlib
import io
import itertools
import json
import os
import re
import shutil
import stat
import sys
from pathlib import Path
from typing import Any, BinaryIO, Iterable

from host.core import PIECE, Frame, framed
from host.files import LONGEST, opened, read_json

DIGEST = re.compile(r"([a-z0-9]+(?:[+._-][a-z0-9]+)*):([0-9a-f]+)")  # OCI image specification, "Digests"
NAME, OURS, BUNDLE = "org.opencontainers.image.ref.name", "dev.roksnaep.", "application/vnd.dev.sigstore.bundle"
MEMBERS = {name.casefold(): name for name in ("manifests", "mediaType", "digest", "size", "annotations", "platform", "data", "urls")}
MANIFEST, INDEX = "application/vnd.oci.image.manifest.v1+json", "application/vnd.oci.image.index.v1+json"


def blob_name(digest: str) -> str:
    match = DIGEST.fullmatch(digest)
    if not match:
        raise OSError(f"the digest {digest} cannot name a file")
    return f"blobs/{match[1]}/{match[2]}"


def digest_of(content: bytes) -> str:
    return f"sha256:{hashlib.sha256(content).hexdigest()}"


def sync(path: Path) -> None:
    """Has the bytes of a file, or the names in a folder, on the disk."""
    number = os.open(path, os.O_RDONLY)
    os.fsync(number)
    os.close(number)


def sync_all(paths: list[Path]) -> None:
    """The same of all of them: of many side by side, since a disk does some in the time of one."""
    if len(paths) < 32:
        for path in paths:
            sync(path)
    else:
        from multiprocessing.pool import ThreadPool  # which takes a while
        with ThreadPool(4) as pool:
            pool.map(sync, paths, 1)


def read_index(folder: Path) -> dict[str, Any]:
    """The index of an OCI image layout, each entry with annotations; ValueError if the folder is not one."""
    try:
        if "imageLayoutVersion" not in read_json(folder / "oci-layout"):
            raise ValueError("its oci-layout has no imageLayoutVersion")
        index: dict[str, Any] = read_json(folder / "index.json")
        if any(MEMBERS.get(name.casefold(), name) != name for one in (index, *index["manifests"]) for name in one):
            raise ValueError("its index.json has a member in another case, which other programs read")
        for entry in index["manifests"]:
            entry["annotations"] = {name: str(text) for name, text in (entry.get("annotations") or {}).items()}
            blob_name(entry["digest"])
        return index
    except (OSError, ValueError) as error:
        raise ValueError(f"{folder} is not an OCI image layout ({error})") from None
    except (LookupError, TypeError, AttributeError):
        raise ValueError(f"{folder} is not an OCI image layout (a member of its index.json or oci-layout is missing, or has another type)") from None


def is_ours(folder: Path) -> bool:
    """Whether it is a folder that nobody else can write to."""
    found = folder.lstat()
    return stat.S_ISDIR(found.st_mode) and found.st_uid == os.geteuid() and not found.st_mode & 0o022


def is_closed(folder: Path) -> bool:
    """Whether no link leads out of it, as one that came with an archive or a checkout may: it has folders, and files with one name."""
    found = [path.lstat() for path in folder.rglob("*")]
    return all(stat.S_ISDIR(one.st_mode) or stat.S_ISREG(one.st_mode) and one.st_nlink == 1 for one in found)


def lock(folder: Path) -> bool:
    """Locks a folder until the command ends, unless another one has it."""
    number = os.open(folder, os.O_RDONLY)
    with contextlib.suppress(BlockingIOError):
        fcntl.flock(number, fcntl.LOCK_EX | fcntl.LOCK_NB)
        return True
    os.close(number)
    return False


class Layout:
    """An image that is being written to `work`, a hidden folder beside its place, or in it (`home`) if that is a folder already.

    A folder that a killed run left is gone on with: what it has is read again, and held to its digests.
    """

    def __init__(self, target: Path, form: str, tag: str | None) -> None:
        self.target, self.form, self.tag, self.manifest, self.names = target, form, tag, dict[str, Any](), set[str]()
        self.index: dict[str, Any] = {"schemaVersion": 2, "mediaType": INDEX, "manifests": []}
        self.home = target.resolve() if form == "oci" and target.is_dir() else None
        if self.home and any(self.home.iterdir()):
            if not tag:
                raise OSError(f"{target} is not empty; choose another --out, or give a --tag to add the image to an OCI image layout")
            fcntl.flock(os.open(self.home, os.O_RDONLY), fcntl.LOCK_EX | fcntl.LOCK_NB)  # until the command ends
            self.index = read_index(self.home)
        elif not self.home and os.path.lexists(target):
            raise OSError(f"{target} exists, and is not replaced; choose another --out")
        parent = self.home or target.absolute().parent
        self.made = [path for path in (parent, *parent.parents) if not path.exists()]
        name = f".{'' if self.home else target.name}-"
        left = [path for path in parent.glob(f"{glob.escape(name)}{'[0-9a-f]' * 12}") if is_ours(path)] if parent.is_dir() else []
        self.work = next((path for path in left if lock(path) and is_closed(path)), None) or parent / f"{name}{os.urandom(6).hex()}"
        try:
            if self.work not in left:
                self.work.mkdir(parents=True)
                lock(self.work)
            for path in self.work.iterdir():
                if path.is_file():  # which is written anew
                    path.unlink()
        except OSError:
            self.close()
            raise

    def close(self) -> None:
        """Removes what is not in its place, and the folders that were made for it and are empty."""
        shutil.rmtree(self.work, ignore_errors=True)
        with contextlib.suppress(OSError):
            for path in self.made:
                path.rmdir()

    def find(self, digest: str, size: int | None = None) -> Path | None:
        """The file of a blob that exists already, if its bytes have this digest. One of another size, if that is known, is not read."""
        for path in (folder / blob_name(digest) for folder in (self.work, self.home) if folder):
            if path.is_file() and size in (None, path.stat().st_size):
                with open(path, "rb") as file:
                    if hashlib.file_digest(file, path.parent.name).hexdigest() == path.name:
                        return path
        return None

    def create(self, name: str) -> BinaryIO:
        """A file to write. A blob may be truncated: `find` sees whether it has its digest, and it stays only if it is added."""
        (self.work / name).parent.mkdir(parents=True, exist_ok=True)
        return open(self.work / name, "wb")

    def hidden(self, digest: str, mark: str) -> Path:
        """Where a blob is written until the core has said that it has its digest; the mark is of the core that it is for."""
        path = self.work / blob_name(digest)
        path.parent.mkdir(parents=True, exist_ok=True)
        return path.with_name(f".{path.name}-{mark}")

    def keep(self, digests: Iterable[str], mark: str) -> None:
        """Gives blobs their names, since the core has said so of their bytes."""
        for digest in digests:
            with contextlib.suppress(FileNotFoundError):  # it existed before
                self.hidden(digest, mark).rename(self.work / blob_name(digest))
            self.names.add(blob_name(digest))

    def put(self, name: str, pieces: Iterable[bytes]) -> None:
        with self.create(name) as file:
            file.writelines(pieces)

    def add(self, digest: str, pieces: Iterable[bytes], size: int | None = None) -> None:
        """A document or a blob. One that exists already is not written again."""
        self.names.add(blob_name(digest))
        if not self.find(digest, size):
            self.put(blob_name(digest), pieces)

    def finish(self, reference: str, signed: str, signatures: dict[str, list[list[bytes]]]) -> None:
        """Writes the signatures (of each its manifest and its blobs) by where they were found, and what names the image; then has all on the disk."""
        notes = {NAME: self.tag or reference, f"{OURS}reference": reference, f"{OURS}signed-digest": signed}
        for source, manifests in signatures.items():
            notes[OURS + source] = " ".join(digest_of(documents[0]) for documents in manifests)
            for content in itertools.chain(*manifests):
                self.add(digest_of(content), [content], len(content))
        others = [entry for entry in self.index["manifests"] if entry["annotations"].get(NAME) != notes[NAME]]
        self.put("oci-layout", [b'{"imageLayoutVersion":"1.0.0"}'])
        self.put("index.json", [json.dumps(self.index | {"manifests": [*others, self.manifest | {"annotations": notes}]}).encode()])
        if self.form == "docker-archive":  # as docker save writes it: a layout with one file more
            manifest, name = json.loads((self.work / blob_name(self.manifest["digest"])).read_bytes()), reference.partition("@")[0]
            config, *layers = (blob_name(blob["digest"]) for blob in (manifest["config"], *manifest["layers"]))
            tag = self.tag or (name if ":" in name.rpartition("/")[2] else f"{name}:latest")
            self.put("manifest.json", [json.dumps([{"Config": config, "RepoTags": [tag], "Layers": layers}]).encode()])
        for path in (self.work / "blobs").glob("*/*"):
            if str(path.relative_to(self.work)) not in self.names:
                path.unlink()
        files = sorted(path for path in self.work.rglob("*") if path.is_file())
        if self.form != "oci":
            import tarfile  # which takes a while, and only this needs
            with tarfile.open(self.work / "archive", "w") as archive:
                for path in files:
                    archive.add(path, path.relative_to(self.work))
        sync_all([*self.work.rglob("*"), self.work])

    def place(self) -> None:
        """Moves it to its place, the index last, so that it names nothing that is missing."""
        if self.home:
            for path in sorted(self.work.rglob("*"), key=lambda path: path.name == "index.json"):
                if path.is_file():
                    place = self.home / path.relative_to(self.work)
                    place.parent.mkdir(parents=True, exist_ok=True)
                    path.rename(place)
                    sync(place.parent)
        elif os.path.lexists(self.target):
            raise OSError(f"{self.target} exists now, and is not replaced")
        else:
            (self.work if self.form == "oci" else self.work / "archive").rename(self.target)
        sync(self.work.parent)


class Stored:
    """A layout that answers as the registry that its image came from, so that the core decides it again with no network."""

    def __init__(self, folder: Path, tag: str | None) -> None:
        entries = [entry for entry in read_index(folder)["manifests"] if tag in (None, entry["annotations"].get(NAME))]
        if len(entries) != 1:
            raise ValueError(f"{folder} has {len(entries)} images{f' named {tag}' if tag else ''}; name one by --tag")
        notes, self.folder, self.manifest = entries[0]["annotations"], folder, entries[0]["digest"]
        self.digest = notes.get(f"{OURS}signed-digest", self.manifest)
        self.reference = re.sub("(:[^/]*)?(@.*)?$", "", notes.get(f"{OURS}reference", "localhost/image")) + f"@{self.digest}"
        self.tagged, self.referrers = ([digest for digest in dict.fromkeys(notes.get(OURS + source, "").split()) if self.path(digest).is_file()]
                                       for source in ("tag", "referrers"))
        self.statuses, self.failure, self.base, self.blob = dict[str, int](), "", "", ""
        self.body: BinaryIO = io.BytesIO()

    def beside(self) -> "Stored":
        """The same, for another core."""
        made = copy.copy(self)
        made.body = io.BytesIO()
        return made

    def ahead(self) -> None: ...

    def reply(self, frame: Frame, body: Iterable[bytes] = ()) -> tuple[Frame, bytes]:
        if frame["frame"] == "more":
            return framed(self.body.read(PIECE))
        *_, kind, name = frame["url"].split("/")
        if name.endswith(".sig") and self.tagged:
            name = self.tagged[0]
        path, status, self.body = self.path(name), 200, io.BytesIO()
        if kind == "referrers":
            entries = [{"mediaType": MANIFEST, "digest": digest, "size": self.path(digest).stat().st_size} for digest in self.referrers]
            self.body = io.BytesIO(json.dumps({"schemaVersion": 2, "mediaType": INDEX, "manifests": entries}).encode())
        elif name:
            try:
                self.body = opened(path, sys.maxsize if self.blob else LONGEST)
            except (FileNotFoundError, NotADirectoryError):
                status = 404
            except OSError as error:
                self.failure = str(error)
                return {"frame": "failed"}, b""
        self.statuses[frame["url"]] = status
        return {"frame": "answer", "status": status, "headers": []}, b""

    def path(self, name: str) -> Path:
        return self.folder / (blob_name(name) if DIGEST.fullmatch(name) else "absent")
