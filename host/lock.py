"""Lock files: entries from the frames of an image's documents, and their check, which the core decides."""
import contextlib
import json
import subprocess
import tempfile
import time
from pathlib import Path
from typing import Any, Iterable, Iterator

from host.conversation import Exchanges, Sent, converse
from host.core import Core, Frame, fits
from host.files import read, replace
from host.layout import BUNDLE, MANIFEST, Layout, Stored, digest_of
from host.network import Network
from host.places import repository_of
from host.refusals import Refusals
from host.release import program
from host.rules import Rule
from host.signatures import Signatures
from host.terminal import ENDS, End

Entry = dict[str, Any]
LONGEST = 64 << 20  # bytes of a lock file, as pull_program reads one
# of a signature layer: its media type, and where the search finds it
KINDS = {"payload": ("application/vnd.dev.cosign.simplesigning.v1+json", "tag"), "bundle": (f"{BUNDLE}.v0.3+json", "referrers")}
REFUSED = {"Unreadable": "is not a lock file", "NotCanonical": "was edited: it is not the text that `roksnaep lock` writes",
           "Order": "was edited: its entries are not in order"}


def canonical(value: Any) -> str:
    return json.dumps(value, ensure_ascii=False, sort_keys=True, separators=(",", ":"))


def whole(reference: str) -> str:
    """The reference with its registry, and with its tag unless it has a digest."""
    name, at, digest = reference.partition("@")
    tag = name.rpartition("/")[2].partition(":")[2] or ("" if at else "latest")
    return repository_of(reference) + (f":{tag}" if tag else "") + at + digest


def entry_of(reference: str, accepted: list[str], sent: Sent, end: Frame) -> Entry:
    """The entry of an image; ValueError if a document is not UTF-8."""
    head, content = sent["signature"]
    signature = {"annotations": head["annotations"], "content": content.decode(), "kind": head["kind"], "oci_digest": head["digest"]}
    return {"accepted": accepted, "digest": end["digest"], "first": sent.get("index", sent["manifest"])[1].decode(), "image": whole(reference),
            "manifest": sent["manifest"][1].decode(), "manifest_digest": end["manifest"], "signature": signature}


def text_of(entries: list[Entry]) -> str:
    return canonical({"entries": entries, "version": 1})


def stored(folder: Path, entry: Entry) -> Stored:
    """The documents of an entry as a layout, which answers as the registry that they came from."""
    layout, signature = Layout(folder / "image", "oci", None), entry["signature"]
    content, (media_type, source) = signature["content"].encode(), KINDS[signature["kind"]]
    layer = {"mediaType": media_type, "digest": signature["oci_digest"], "size": len(content), "annotations": signature["annotations"]}
    config = {"mediaType": "application/vnd.oci.image.config.v1+json", "digest": digest_of(b"{}"), "size": 2}
    document = canonical({"schemaVersion": 2, "mediaType": MANIFEST, "config": config, "layers": [layer]}).encode()
    layout.manifest = {"mediaType": MANIFEST, "digest": entry["manifest_digest"], "size": len(entry["manifest"].encode())}
    for digest, text in ((entry["digest"], entry["first"]), (entry["manifest_digest"], entry["manifest"]), (signature["oci_digest"], signature["content"])):
        layout.add(digest, [text.encode()])
    layout.finish(entry["image"], entry["digest"], {source: [[document, b"{}", content]]})
    layout.place()
    return Stored(folder / "image", None)


def unread(text: str) -> str:
    """Why the text is not a lock file; empty if it is one."""
    case = {"reference": "localhost/image:lock", "accepted": [], "moments": [0], "answers": [], "keys": [], "constraints": [{"annotations": {}}], "signatures": [], "vouched": []}
    path, which = program("pull_program")
    done = subprocess.run([path, "lockcheck"], input=json.dumps({"case": case, "lock": text}).encode(), capture_output=True)
    if done.returncode not in (0, 1):
        raise End(4, f"{path} ({which}) ended with the status {done.returncode}")
    words = done.stdout.decode().split()
    return words[2] if words[1] == "refused" else ""


def holds(entry: Entry, settings: Frame, signatures: Signatures) -> bool:
    """Whether the core says that a lock of the entry holds. It asks about signatures, and sends no request."""
    core = Core()

    def answer(frame: Frame, body: Iterator[bytes]) -> bool:
        if frame["frame"] == "lock":
            return True
        core.write(signatures.reply(frame, b"".join(body)))
        return False

    end = core.talk({"frame": "lockcheck", "lock": text_of([entry]), "settings": settings}, answer)
    if end["frame"] == "ended":
        status = end["status"]
        raise End(status if status in ENDS else 4, ENDS.get(status, f"the core ended unexpectedly, with the status {status}"))
    return bool(end["verdict"] == "holds")


class Lock:
    """A lock file that was read: its entries, by the whole texts of their references."""

    def __init__(self, name: str, text: str) -> None:
        if cause := unread(text):
            raise End(1, f"{name} {REFUSED[cause]}; write it anew: roksnaep lock")
        self.entries: dict[str, Entry] = {entry["image"]: entry for entry in json.loads(text)["entries"]}

    def check(self, entry: Entry, rule: Rule, platform: str | None) -> None:
        """Ends the command unless the image is locked under the rule, as the core decides."""
        settings: Frame = {"frame": "documents", "accepted": entry["accepted"], "reference": "localhost/image:lock", "protocol": "https", "auth": "anonymous",
                           "platform": platform or {"digest": entry["manifest_digest"]}, "moment": int(time.time())} | rule.settings()
        if not fits({"lock": text_of([entry]), "settings": settings}):
            raise End(1, f"{entry['image']}: its documents are longer than a line of the core (1 MiB), and cannot be locked; pull it without a lock file")
        if not holds(entry, settings, Signatures(rule)):
            failure = failure_of(entry, settings, rule)
            why = f"its image is not one for {platform}; choose another --platform" if platform and not failure else "its entry was edited; lock it again"
            raise End(1, failure.removeprefix("refused ") or f"{entry['image']}: {why}")


def failure_of(entry: Entry, settings: Frame, rule: Rule) -> str:
    """Why a pull of the entry's documents is refused, as a sentence; empty if it is not."""
    signatures = Signatures(rule)
    with tempfile.TemporaryDirectory() as folder, contextlib.suppress(OSError, LookupError):  # a digest that names no file
        registry = stored(Path(folder), entry)
        settings |= {"reference": registry.reference, "platform": {"digest": entry["manifest_digest"]}}
        end = converse(Core(), settings, Exchanges(registry, None), signatures)
        if end["frame"] == "refused":
            return Refusals(registry.statuses, registry.failure, signatures.why).sentence(entry["image"], end["report"])
    return ""


def read_lock(path: Path) -> Lock:
    """The lock file of this name. One that is missing is an error of usage."""
    if not path.exists():
        raise ValueError(f"there is no lock file {path}; write one: roksnaep lock")
    try:
        return Lock(str(path), read(path, LONGEST).decode())
    except UnicodeDecodeError:
        raise End(1, f"{path} {REFUSED['Unreadable']}; write it anew: roksnaep lock") from None


def write_lock(path: Path, text: str) -> None:
    """Writes the file; else it stays as it was."""
    try:
        replace(path, text.encode(), 0o644)
    except OSError as error:
        raise End(5, f"{path} could not be written ({error.strerror}), and is as it was; make room for it, or choose another --lock") from None


class Pinned:
    """The documents of an entry in place of the registry's, and the network for blobs and tokens: no tag is asked, and no signature searched."""

    def __init__(self, network: Network, entry: Entry) -> None:
        self.network, self.folder, self.is_stored, self.blob = network, tempfile.TemporaryDirectory(), False, ""
        self.stored = stored(Path(self.folder.name), entry)
        self.base, self.statuses = network.base, network.statuses

    @property
    def failure(self) -> str:
        return self.network.failure

    def beside(self) -> Network:
        """What answers for the blobs, of which the entry has none."""
        return self.network.beside()

    def ahead(self) -> None: ...

    def reply(self, frame: Frame, body: Iterable[bytes] = ()) -> tuple[Frame, bytes]:
        if frame["frame"] == "request":
            *_, kind, name = frame["url"].partition("?")[0].split("/")
            self.is_stored = kind in ("manifests", "referrers") or kind == "blobs" and self.stored.path(name).is_file()
        self.network.blob = self.blob
        return self.stored.reply(frame) if self.is_stored else self.network.reply(frame)
