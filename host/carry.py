"""The blobs of a copy, from registry to registry by pairs of cores side by side: one pulls a blob and checks it, and the other one pushes its bytes as they come."""
import contextlib
import re
import threading
import time
from typing import IO, Callable, Iterable, Iterator, Mapping

from host.beside import side_by_side
from host.blobs import TRIES, Asked, Blobs, Received, Refused, beginning
from host.conversation import Registry
from host.core import Core, Frame, framed

SHA256 = re.compile("sha256:[0-9a-f]{64}")
PAIRS = 4  # side by side: each holds about 31 MiB at most, of which the core that pushes holds 16
Both = Mapping[str, Registry]


def is_carried(blob: Frame) -> bool:
    """Whether cores carry a blob: it has a SHA-256 digest, and is not empty."""
    return bool(SHA256.fullmatch(blob["digest"])) and blob["size"] > 0


class Passed(Received):
    """What cores ask the source for one blob. Its bytes are passed on, and kept nowhere. If a connection is lost, another one goes on from there, for the same core."""

    def __init__(self, registry: Registry, blob: Frame) -> None:
        super().__init__(registry, None, {blob["digest"]: max(0, blob["size"])}, "")
        self.tries, self.count, self.is_cut = TRIES, 0, False  # connections that are left, and bytes that were passed on
        self.pipe: IO[bytes] | None = None
        self.asked: Frame = {}  # what the blob was requested by, if it comes

    def begin(self, pipe: IO[bytes] | None) -> None:
        self.pipe, self.count, self.asked, self.is_cut, self.is_resumed = pipe, 0, {}, False, False

    def request(self, frame: Frame, body: Iterable[bytes]) -> tuple[Frame, bytes]:
        answer, data = super().request(frame, body)
        self.asked = frame if self.digest in self.sizes and answer.get("status") == 200 else {}
        return answer, data

    def reply(self, frame: Frame, body: Iterable[bytes]) -> tuple[Frame, bytes]:
        answer, self.data = super().reply(frame, body)
        while answer["frame"] == "failed" and self.asked and self.has_grown and self.tries > 1:
            answer, self.data = self.resumed()
        return answer, self.data

    def resumed(self) -> tuple[Frame, bytes]:
        """Requests the rest by a range, or all, if the registry gives another one. A blob that came whole has no rest."""
        if self.count >= self.sizes[self.digest]:
            return framed(b"")
        self.tries -= 1
        for more in ([["range", f"bytes={self.count}-"]], list[list[str]]()):
            answer, _ = self.registry.reply(self.asked | {"headers": self.asked["headers"] + more})
            if (begins := beginning(answer)) in (0, self.count):
                self.is_resumed, self.has_grown, self.skip = True, False, self.count - (begins or 0)
                return super().reply({"frame": "more"}, ())
            if answer.get("status") not in (206, 416):
                break
        self.asked = {}
        return {"frame": "failed"}, b""

    def proceed(self) -> None:
        if self.asked and self.data and self.pipe:
            try:
                self.pipe.write(self.data)
                self.pipe.flush()
            except BrokenPipeError:
                self.is_cut = True
                raise
            self.count += len(self.data)
        super().proceed()


class Pair:
    """Two cores for a blob: one that pushes it to the target, and, once that lacks it, one that pulls it from the source, with a thread that replies to it."""

    def __init__(self, blobs: Blobs, at: int, passed: Passed) -> None:
        self.blobs, self.at, self.passed, self.core = blobs, at, passed, Core(False, True)
        self.thread = threading.Thread(target=self.pull, daemon=True)
        self.is_whole, self.raised = False, list[Exception]()
        self.refusal: Frame = {}
        passed.begin(self.core.blob)

    def pull(self) -> None:
        """In the thread: the end of the blob's bytes is passed on only if a core says that they have the digest. Else the core that pushes is gone before, so that it commits nothing."""
        try:
            end, _ = self.blobs.asked(range(self.at, self.at + 1), self.passed)
            self.is_whole = end["frame"] == "stood"
            self.refusal = {} if self.is_whole or self.passed.is_cut else end
        except Exception as raised:  # where the other core is waited for
            self.raised.append(raised)
        finally:
            if not (self.is_whole or self.passed.is_cut):  # else that core has closed its descriptor, and says why with a status of its own
                self.core.process.kill()
                self.core.process.wait()
            with contextlib.suppress(OSError, ValueError):
                assert self.core.blob
                self.core.blob.close()

    def push(self, first: Frame, target: Registry) -> tuple[Frame, str]:
        """The last frame of the core that pushes, or of the other one if that ended both; and at which of the registries."""
        core = self.core

        def answer(frame: Frame, body: Iterator[bytes]) -> bool:
            match frame["frame"]:
                case "request" | "more":
                    if frame.get("method") == "POST" and not self.thread.ident:
                        self.thread.start()
                    core.write(*target.reply(frame, body))
                case "carried" if frame["digest"] != first["digest"] or frame["state"] == "pushed" and not self.is_whole:
                    raise ValueError("a blob was carried that was not asked for, or had not come whole")
            return frame["frame"] in ("carried", "refused")

        end = core.talk(first, answer)
        if end["frame"] == "ended":
            for raised in self.raised:
                raise raised
        return (self.refusal, "source") if end["frame"] == "ended" and self.refusal else (end, "target")

    def leave(self) -> None:
        """Waits for the thread, so that another pair can have its connection."""
        if self.thread.ident:
            self.thread.join()


class Carry:
    """The blobs of a manifest that cores carry. `states` says which ones were `there` and which ones `pushed`."""

    def __init__(self, settings: Frame, manifest: Frame, target: Frame, both: Callable[[], Both]) -> None:
        self.target, self.both, self.states = target, both, dict[str, str]()
        self.blobs = Blobs({"frame": "blobs", "settings": settings, "manifest": manifest}, lambda: both()["source"])
        self.places = {blob["digest"]: at for at, blob in enumerate(self.blobs.blobs) if is_carried(blob)}

    def run(self) -> Refused | None:
        """Nothing if the target has each blob. However it ends, no core and no process is left."""
        tasks = sorted(self.places.values(), key=lambda at: -int(self.blobs.blobs[at]["size"]))
        try:
            with contextlib.closing(side_by_side(tasks, self.begin, PAIRS)) as ends:
                for at, (state, refused) in ends:
                    self.states[self.blobs.blobs[at]["digest"]] = state
                    if refused:
                        return refused
        except EOFError:  # it was killed
            return {"frame": "ended", "status": 4}, Asked({}, "")
        return None

    def begin(self) -> Callable[[int], tuple[str, Refused | None]]:
        """In a process: connections of its own to both registries, and how a blob is carried over them."""
        both = self.both()
        return lambda at: self.carried(at, both)

    def carried(self, at: int, both: Both) -> tuple[str, Refused | None]:
        """How the target came to have a blob, or why it is refused. If the source does not go on, or a token ended, another pair of cores begins anew."""
        blob = self.blobs.blobs[at]
        passed = Passed(both["source"], blob)
        while True:
            pair = Pair(self.blobs, at, passed)
            end, side = pair.push({"frame": "carry", "target": self.target, "digest": blob["digest"], "size": blob["size"], "moment": int(time.time())}, both["target"])
            report = end.get("report", "")
            may_go_on = passed.tries > 1 and (side == "source" or "UnauthorizedError" in report) and passed.may_go_on(report)
            if end["frame"] != "carried" and not may_go_on:
                return "", (end, Asked(both[side].statuses, both[side].failure))
            pair.leave()
            if end["frame"] == "carried":
                return end["state"], None
            passed.tries -= 1
