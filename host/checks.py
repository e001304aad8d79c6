"""An image in a layout, checked again with no network: cores side by side decide its documents, each with the blobs of a range."""
import json
import time
from contextlib import ExitStack, suppress
from typing import Any, BinaryIO, Callable, Iterator

from host.blobs import Asked, Ranges, Refused
from host.core import PIECE, Core, Frame, framed
from host.files import opened
from host.layout import Stored
from host.rules import Rule
from host.signatures import Signatures


def refusal(frame: Frame) -> Frame:
    """The verdict as a refusal with a report."""
    cause = f"Altered {json.dumps(frame['digest'])}" if frame["verdict"] == "blob" else "Undecided"
    return {"frame": "refused", "report": f"refused {cause}\n"}


class Checks(Ranges[Stored]):
    """The blobs of a layout's image, for cores whose first frame is `word` with a range. They get the documents there, and ask for the bytes of blobs."""

    def __init__(self, word: Frame, manifest: dict[str, Any], stored: Callable[[], Stored], rule: Rule) -> None:
        super().__init__(manifest, stored)
        self.word, self.rule = word, rule

    def checked(self, span: range, registry: Stored) -> tuple[list[str], Refused | None]:
        core, signatures, files = Core(False), Signatures(self.rule), ExitStack()
        sizes = {blob["digest"]: blob["size"] for blob in self.blobs}
        file: BinaryIO | None = None

        def answer(frame: Frame, body: Iterator[bytes]) -> bool:
            nonlocal file
            match frame["frame"]:
                case "verify" | "judge":
                    core.write(signatures.reply(frame, b"".join(body)))
                case "want":
                    files.close()
                    file = None
                    with suppress(OSError):
                        file = files.enter_context(opened(registry.path(frame["digest"]), sizes[frame["digest"]]))
                case "more":
                    core.write(*framed(file.read(PIECE)) if file else ({"frame": "failed"}, b""))
            return bool(frame["frame"] == "checked")

        settings = self.word["settings"] | {"moment": int(time.time())}
        with files:
            end = core.talk(self.word | {"settings": settings, "first": span.start, "end": span.stop}, answer)
        is_held = end.get("verdict") == "holds"
        return [], None if is_held else (refusal(end) if end["frame"] == "checked" else end, Asked({}, ""))
