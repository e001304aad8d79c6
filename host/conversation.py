"""The conversation with the core: its frames are answered until one says how the pull ended."""
import json
import re
from typing import BinaryIO, Iterable, Iterator, Protocol
from urllib.parse import urlsplit

from host.core import PIECE, Core, Frame, framed
from host.layout import BUNDLE, Layout, blob_name, digest_of
from host.signatures import Signatures

BLOB, RECORDED = re.compile(r"/v2/.+/blobs/(sha\d+:[0-9a-f]+)"), 64 << 20

Sent = dict[str, tuple[Frame, bytes]]  # the frames of an `index`, a `manifest` and a `signature`, each with its bytes


class Answered(Protocol):
    """How requests were answered: the last status of each URL, and why one failed last."""

    @property
    def statuses(self) -> dict[str, int]: ...

    @property
    def failure(self) -> str: ...


class Registry(Answered, Protocol):
    """What answers requests: the network, a layout, or both."""
    blob: str

    @property
    def base(self) -> str: ...

    def reply(self, frame: Frame, body: Iterable[bytes] = ()) -> tuple[Frame, bytes]: ...

    def ahead(self) -> None: ...


class Exchanges:
    """What the core asks of a registry. The documents of the search are recorded; blobs of the image are kept in the layout, or read there."""
    last = "pulled"  # the frame that says that it was done

    def __init__(self, registry: Registry, layout: Layout | None) -> None:
        self.registry, self.layout, self.digest = registry, layout, ""
        self.sent: Sent = {}  # the documents that the core sent
        self.is_search, self.is_signed, self.is_document = True, False, False
        self.bodies, self.held, self.accepted, self.kept = [bytearray()], 0, False, 0
        self.file: BinaryIO | None = None
        self.download: BinaryIO | None = None

    def answer(self, core: Core, frame: Frame, body: Iterator[bytes], signatures: Signatures) -> bool:
        """Replies to a frame. Whether it is the last one."""
        layout = self.layout
        match frame["frame"]:
            case "request" | "more":
                core.write(*self.reply(frame, body))
            case "verify" | "judge":
                reply = signatures.reply(frame, b"".join(body))
                self.searched(bool(reply.get("valid") or reply.get("vouched")))
                core.write(reply)
            case "document" | "signature":
                kind, content = frame["kind"] if frame["frame"] == "document" else "signature", b"".join(body)
                self.sent[kind] = frame, content
                if layout and kind != "signature":
                    if kind == "manifest":
                        layout.manifest = {"mediaType": frame["media_type"], "digest": frame["digest"], "size": frame["bytes"]}
                    layout.add(frame["digest"], [content], len(content))
            case "blob" if layout:
                layout.add(frame["digest"], body, frame.get("bytes", 0))
        return frame["frame"] in ("refused", self.last)

    def reply(self, frame: Frame, body: Iterable[bytes] = ()) -> tuple[Frame, bytes]:
        if frame["frame"] == "request":
            return self.request(frame, body)
        if self.file:
            return framed(self.file.read(PIECE))
        answer, data = self.registry.reply(frame)
        if self.is_document and self.held + len(data) <= RECORDED:
            self.bodies[-1] += data
            self.held += len(data)
        elif self.download:
            self.download.write(data)
            if answer["frame"] == "end":
                self.download.close()
                self.kept += 1
        return answer, data

    def request(self, frame: Frame, body: Iterable[bytes]) -> tuple[Frame, bytes]:
        if frame["url"].lower().startswith(self.registry.base):  # else a realm, or where something that was requested before is kept
            path = urlsplit(frame["url"]).path
            blob = BLOB.fullmatch(path)
            self.digest, self.is_document = blob[1] if blob else "", self.is_search and (bool(blob) or "/manifests/" in path)
        layout = self.layout if self.digest and frame["method"] == "GET" and not self.is_search else None
        found = layout.find(self.digest) if layout else None
        self.file = open(found, "rb") if found else None
        if self.file:
            return {"frame": "answer", "status": 200, "headers": []}, b""
        self.registry.blob = self.digest if self.is_signed else ""
        answer, data = self.registry.reply(frame, body)
        is_good = answer.get("status") == 200
        self.accepted = self.accepted or is_good and any(name.lower() == "authorization" for name, _ in frame["headers"])
        self.bodies += [bytearray()] if self.bodies[-1] else []
        self.download = layout.create(blob_name(self.digest)) if layout and is_good else None
        return answer, data

    def searched(self, found: bool) -> None:
        """The search is over: what comes from here on is the image, which may be large if a signature was found."""
        self.is_search, self.is_signed = False, self.is_signed or found

    def signatures(self, digest: str) -> dict[str, list[list[bytes]]]:
        """The manifests that name a signature, each with its blobs, by where the search found them."""
        known = {digest_of(body): bytes(body) for body in self.bodies}
        found: dict[str, list[list[bytes]]] = {"tag": [], "referrers": []}
        for content in known.values():
            try:
                manifest = json.loads(content)
                blobs = [manifest["config"], *manifest["layers"]]
                if digest in [blob["digest"] for blob in blobs[1:]]:
                    source = "referrers" if blobs[1]["mediaType"].startswith(BUNDLE) else "tag"
                    found[source].append([content, *(known[blob["digest"]] for blob in blobs)])
            except (ValueError, LookupError, TypeError, AttributeError, RecursionError):
                continue
        return found


def converse(core: Core, settings: Frame, exchanges: Exchanges, signatures: Signatures) -> Frame:
    """Answers the core's frames. The one that says how the pull ended, or one named `ended` with the core's status if none does, or not with the status that fits it."""
    return core.talk(settings, lambda frame, body: exchanges.answer(core, frame, body, signatures))
