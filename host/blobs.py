"""The blobs of a manifest that was decided: checked by cores side by side, each over a range of them, and written as they come."""
import contextlib
import json
import os
import re
import time
from pathlib import Path
from typing import Any, BinaryIO, Callable, Generic, Iterable, Iterator, NamedTuple, TypeVar
from urllib.parse import urlsplit

from host.beside import side_by_side
from host.conversation import BLOB, Answered, Registry
from host.core import PIECE, Core, Frame, fits, framed
from host.layout import Layout

PARTS, TRIES, FRESH = 16, 5, 8 << 20  # ranges of about the same size; cores for a blob, one after another; bytes that wait for the disk
Source = TypeVar("Source", bound=Registry)
PARTIAL = re.compile(r"bytes (\d{1,18})-\d+/(\d+|\*)", re.ASCII)  # RFC 9110, 14.4


class Asked(NamedTuple):
    """What a registry answered in another process: by URLs, and why it failed last."""
    statuses: dict[str, int]
    failure: str


Refused = tuple[Frame, Answered]  # the last frame of a core, and who was asked


def parsed(content: bytes) -> dict[str, Any]:
    """A manifest as the member of a frame; ValueError if a number in it is not an integer, which frames do not have, or if it is too long for a line."""
    manifest: dict[str, Any] = json.loads(content, parse_float=int)
    if not fits(manifest):
        raise ValueError("the manifest is longer than a line")
    return manifest


def refused_layer(reference: str, manifest: dict[str, Any], accepted: list[str]) -> Frame | None:
    """The refusal of a manifest without layers, or with one of another media type: as of a pull of the whole image."""
    kinds = [layer["mediaType"] for layer in manifest["layers"] if layer["mediaType"] not in accepted]
    if manifest["layers"] and not kinds:
        return None
    why = f"IncompatibleLayerMediaTypeError {json.dumps(kinds[0])}" if kinds else "PullNoLayersError"
    return {"frame": "refused", "report": f"refused RegistryPullError {json.dumps(reference)} {why}\n"}


def ranges(sizes: list[int]) -> list[range]:
    """Ranges of blobs for the cores, the largest first: a large blob alone, small ones with their neighbours."""
    limit, found, held = sum(sizes) // PARTS, list[range](), 0
    for at, size in enumerate(sizes):
        if found and (held + size <= limit or held <= limit // PARTS):
            found[-1], held = range(found[-1].start, at + 1), held + size
        else:
            found, held = [*found, range(at, at + 1)], size
    return sorted(found, key=lambda span: -sum(sizes[span.start:span.stop]))


def beginning(answer: Frame) -> int | None:
    """Where a body that was requested by a range begins, if it is of the blob; at its first byte if the range was ignored."""
    fields = {name: value for name, value in answer.get("headers", [])}
    partial = PARTIAL.fullmatch(str(fields.get("content-range"))) if answer.get("status") == 206 else None
    return int(partial[1]) if partial else 0 if answer.get("status") == 200 else None


class Received:
    """What a core asks a registry for the blobs of a range. They are written to hidden files, with which another core goes on; what is on disk is read there."""

    def __init__(self, registry: Registry, layout: Layout | None, sizes: dict[str, int], mark: str) -> None:
        self.registry, self.layout, self.sizes, self.mark, self.digest = registry, layout, sizes, mark, ""
        self.disk: BinaryIO | None = None  # the blob's first bytes
        self.file: BinaryIO | None = None  # where the next ones go
        self.is_whole = self.has_grown = self.is_resumed = self.is_renewed = False
        self.path, self.left, self.skip, self.data = Path(), 0, 0, b""  # bytes to be read on disk, and to be skipped of the answer
        self.fresh = 0  # bytes that the disk has not begun to write

    def reply(self, frame: Frame, body: Iterable[bytes]) -> tuple[Frame, bytes]:
        if frame["frame"] == "request":
            return self.request(frame, body)
        piece = self.disk.read(min(PIECE, self.left)) if self.disk else b""
        self.left -= len(piece)
        if piece or self.is_whole:
            return framed(piece)
        answer, self.data = self.registry.reply(frame)
        while self.data and self.skip:
            self.has_grown, left = True, self.data[self.skip:]
            self.skip -= len(self.data) - len(left)
            answer, self.data = framed(left) if left else self.registry.reply(frame)
        return answer, self.data

    def proceed(self) -> None:
        """Writes what the core has, and receives ahead while it hashes."""
        self.has_grown = self.has_grown or len(self.data) > 0
        if self.file:
            self.file.write(self.data)
            self.fresh += len(self.data)
            if self.fresh >= FRESH:
                self.settle(self.file)
        self.data = b""
        if not self.is_whole:
            self.registry.ahead()

    def settle(self, file: BinaryIO) -> None:
        """Has the disk begin to write what it has not begun to, so that the end does not wait for all of it."""
        file.flush()
        with contextlib.suppress(OSError):  # of a disk that takes no advice
            os.posix_fadvise(file.fileno(), file.tell() - self.fresh, self.fresh, os.POSIX_FADV_DONTNEED)
        self.fresh = 0

    def leave(self) -> None:
        """Ends the last body, whose bytes stay in their file."""
        if self.file and self.fresh:
            self.settle(self.file)
        for file in filter(None, (self.disk, self.file)):
            file.close()
        self.disk = self.file = None
        self.is_whole, self.left, self.skip, self.data = False, 0, 0, b""

    def request(self, frame: Frame, body: Iterable[bytes]) -> tuple[Frame, bytes]:
        self.leave()
        if frame["url"].lower().startswith(self.registry.base):  # else a realm, or where something that was requested before is kept
            blob = BLOB.fullmatch(urlsplit(frame["url"]).path)
            self.digest = blob[1] if blob else ""
        self.registry.blob = self.digest
        if not (self.layout and self.digest in self.sizes and frame["method"] == "GET"):
            return self.registry.reply(frame, body)
        self.path = self.layout.hidden(self.digest, self.mark)
        if found := self.layout.find(self.digest, self.sizes[self.digest]):
            return self.stored(found)
        return self.rest(frame, self.path.stat().st_size if self.path.exists() else 0)

    def stored(self, path: Path) -> tuple[Frame, bytes]:
        self.is_whole, self.disk, self.left = True, open(path, "rb"), path.stat().st_size
        return {"frame": "answer", "status": 200, "headers": []}, b""

    def rest(self, frame: Frame, have: int) -> tuple[Frame, bytes]:
        """Requests a blob of which the first bytes are in its hidden file: the others, or from the start if the registry does not give them."""
        self.is_resumed = have > 0
        if have > self.sizes[self.digest]:  # which is not of the blob
            self.path.unlink()
            return self.rest(frame, 0)
        if have and have == self.sizes[self.digest]:
            return self.stored(self.path)
        more = [["range", f"bytes={have}-"]] if have else []
        answer, data = self.registry.reply(frame | {"headers": frame["headers"] + more})
        begins = beginning(answer)
        if have and begins not in (0, have) and answer.get("status") in (206, 416):
            self.path.unlink()
            return self.rest(frame, 0)
        if begins is not None:
            self.disk, self.file = open(self.path, "rb") if have else None, open(self.path, "ab")
            self.left, self.skip = have, max(0, have - begins)
        return ({"frame": "answer", "status": 200, "headers": []} if have and self.file else answer), data

    def may_go_on(self, report: str) -> bool:
        """Whether another core may succeed after this refusal: a token has ended, or the connection after some bytes; or what was on disk is not of the blob."""
        if "DigestError" in report and self.is_resumed:
            if self.layout:
                self.path.unlink(missing_ok=True)
            return True
        was_renewed, self.is_renewed = self.is_renewed, "UnauthorizedError" in report
        return self.is_renewed and not was_renewed or "TransportFault" in report and self.has_grown


class Ranges(Generic[Source]):
    """Ranges of a manifest's blobs, for cores side by side, each with a process that replies to it: `checked` says how one ended over a range."""

    def __init__(self, manifest: dict[str, Any], registry: Callable[[], Source]) -> None:
        self.registry = registry
        self.blobs = [manifest["config"], *manifest["layers"]]

    def run(self) -> Refused | None:
        """Nothing if each blob stood. However it ends, no core and no process is left."""
        spans = ranges([max(0, blob["size"]) for blob in self.blobs])
        try:
            with contextlib.closing(side_by_side(spans, self.begin)) as ends:
                for span, (stood, refused) in ends:
                    self.keep(span, stood)
                    if refused:
                        return refused
        except EOFError:  # it was killed
            return {"frame": "ended", "status": 4}, Asked({}, "")
        return None

    def begin(self) -> Callable[[range], tuple[list[str], Refused | None]]:
        """In a process: connections of its own, and how ranges are checked with them."""
        registry = self.registry()
        return lambda span: self.checked(span, registry)

    def keep(self, span: range, stood: list[str]) -> None:
        """Takes the blobs of a range that stood."""

    def checked(self, span: range, registry: Source) -> tuple[list[str], Refused | None]:
        """In a process: the digests of the blobs of the range that stood, and why the next one is refused if it is."""
        raise NotImplementedError


class Blobs(Ranges[Registry]):
    """The blobs of a manifest, for cores whose first frame is `word` with a range."""

    def __init__(self, word: Frame, registry: Callable[[], Registry], layout: Layout | None = None) -> None:
        super().__init__(word["manifest"], registry)
        self.word, self.layout = word, layout
        self.sizes = {blob["digest"]: max(0, blob["size"]) for blob in self.blobs}

    def keep(self, span: range, stood: list[str]) -> None:
        if self.layout:
            self.layout.keep(stood, str(span.start))

    def checked(self, span: range, registry: Registry) -> tuple[list[str], Refused | None]:
        received, found, tries = Received(registry, self.layout, self.sizes, str(span.start)), list[str](), TRIES
        while len(found) < len(span):
            end, stood = self.asked(span[len(found):], received)
            if stood:
                found, tries, received.is_renewed = found + stood, TRIES, False
            if end["frame"] == "refused" and tries > 1 and received.may_go_on(end["report"]):
                tries -= 1
            elif end["frame"] != "stood":
                return found, (end, Asked(registry.statuses, registry.failure))
        return found, None

    def first_frame(self, span: range) -> Frame:
        """The first frame of a core: the manifest has no more layers than those of its range, since a core reads a line slowly."""
        first, manifest = min(span.start, 1), self.word["manifest"]
        layers = manifest["layers"][max(0, span.start - 1):max(1, span.stop - 1)]
        return self.word | {"settings": self.word["settings"] | {"moment": int(time.time())}, "manifest": manifest | {"layers": layers},
                            "first": first, "end": first + len(span)}

    def asked(self, span: range, received: Received) -> tuple[Frame, list[str]]:
        """How a core ended over a range, and the digests of the blobs that stood, in order."""
        core, stood, received.has_grown = Core(False), list[str](), False

        def answer(frame: Frame, body: Iterator[bytes]) -> bool:
            match frame["frame"]:
                case "request" | "more":
                    core.write(*received.reply(frame, body))
                    received.proceed()
                case "stood":
                    stood[:] = frame["digests"]
                    if stood != [blob["digest"] for blob in self.blobs[span.start:span.stop]][:len(stood)]:
                        raise ValueError("a blob stood that was not asked for")
            return frame["frame"] == "refused" or len(stood) == len(span)

        try:
            end = core.talk(self.first_frame(span), answer)
        finally:
            received.leave()
        return end, stood if end["frame"] != "ended" else []
