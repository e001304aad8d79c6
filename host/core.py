"""The core as a process, and the frames between it and its host: a line of JSON, then as many bytes as the line says."""
import contextlib
import fcntl
import json
import os
import subprocess
from typing import IO, Any, Callable, Iterator

from host.release import program

Frame = dict[str, Any]
LINE, PIPE = 1 << 24, 1 << 20  # bytes: of a frame's line that the core writes, and of a pipe
WRITTEN = 1 << 20  # the most bytes of a line that the core reads
PIECE = PIPE - 4096  # so that a pipe holds a piece with its line
CARRIED = 3  # the descriptor on which a core that carries a blob gets its bytes
LEAVES = 30  # seconds: in which a core ends after its last frame


def fits(word: Frame) -> bool:
    """Whether it can be the line of a frame, with a few more members."""
    return len(json.dumps(word)) <= WRITTEN * 7 // 8


def framed(piece: bytes) -> tuple[Frame, bytes]:
    """The next piece of a body as the core gets it, or its end."""
    return ({"frame": "piece", "bytes": len(piece)}, piece) if piece else ({"frame": "end"}, b"")


@contextlib.contextmanager
def third(number: int) -> Iterator[None]:
    """Moves a descriptor to the number that a program reads it by, which is started meanwhile; then it is closed here, and what has that number gets it back."""
    kept = None
    if number != CARRIED:
        with contextlib.suppress(OSError):  # of a number that nothing has
            kept = os.dup(CARRIED)
        os.dup2(number, CARRIED, False)
        os.close(number)
    try:
        yield
    finally:
        if kept is None:
            os.close(CARRIED)
        else:
            os.dup2(kept, CARRIED, False)
            os.close(kept)


class Core:
    """A core that runs. A body is handed on in pieces, so that none is ever held whole. One that carries a blob gets its bytes on a pipe of their own."""

    def __init__(self, alone: bool = True, carries: bool = False) -> None:
        (path, which), pipe = program("roksnaep-core"), subprocess.PIPE
        if not (path.is_file() and os.access(path, os.X_OK)):
            raise ValueError(f"{path} is not a program ({which}); make core builds one, and ROKSNAEP_CORE can name one")
        self.blob: IO[bytes] | None = None  # where it gets the bytes of a blob that it carries
        environment = os.environ | ({"MALLOC_MMAP_THRESHOLD_": str(PIPE)} if carries else {})  # so that glibc gives back at once what held a chunk
        with contextlib.ExitStack() as after:
            if carries:
                reads, writes = os.pipe()
                self.blob = open(writes, "wb")
                after.enter_context(third(reads))
            # alone: in a session of its own, so that Ctrl-C reaches the command and not its core
            self.process = subprocess.Popen([path], stdin=pipe, stdout=pipe, stderr=subprocess.DEVNULL, start_new_session=alone,
                                            pass_fds=[CARRIED] if carries else [], env=environment)
        assert self.process.stdin and self.process.stdout
        self.input, self.output = self.process.stdin, self.process.stdout
        for stream in filter(None, (self.input, self.output, self.blob)):
            with contextlib.suppress(OSError):  # of a user who has many pipes
                fcntl.fcntl(stream, fcntl.F_SETPIPE_SZ, PIPE)

    def read(self) -> Frame:
        """The next frame; ValueError if the core ended."""
        frame: Frame = json.loads(self.output.readline(LINE + 1))
        return frame

    def body(self, frame: Frame) -> Iterator[bytes]:
        """The bytes after a frame, in pieces."""
        left = frame.get("bytes", 0)
        while left:
            piece = self.output.read(min(left, PIECE))
            if not piece:
                raise ValueError("the core ended within a frame")
            left -= len(piece)
            yield piece

    def write(self, frame: Frame, body: bytes = b"") -> None:
        self.input.write(json.dumps(frame).encode() + b"\n")
        self.input.write(body)
        self.input.flush()

    def close(self) -> None:
        """Ends it, whatever it does."""
        self.process.kill()
        for stream in filter(None, (self.input, self.output, self.blob)):
            with contextlib.suppress(OSError, ValueError):
                stream.close()
        self.process.wait()

    def talk(self, first: Frame, answer: Callable[[Frame, Iterator[bytes]], bool]) -> Frame:
        """Replies to the core's frames until `answer` says that one is the last. It; or one named `ended` with the core's status, if it does not come or does not count."""
        try:
            while True:
                frame = self.read()
                body = self.body(frame)
                if frame["frame"] == "begin":
                    self.write(first)
                elif answer(frame, body):
                    return self.ended(frame)
                for _ in body:  # what the answer does not need
                    pass
        except (BrokenPipeError, LookupError, TypeError, ValueError):
            return {"frame": "ended", "status": self.end()}
        finally:
            self.close()

    def ended(self, frame: Frame) -> Frame:
        """The last frame, if the core writes nothing after it and exits with the status that fits it. ValueError if not: then what it said does not count."""
        status = 1 if frame["frame"] == "refused" or frame.get("verdict", "holds") != "holds" else 0
        try:
            is_over = self.process.wait(LEAVES) == status and not self.output.read(1)
        except subprocess.TimeoutExpired:
            self.process.kill()
            is_over = False
        if not is_over:
            raise ValueError(f"the core did not end as the frame {frame['frame']} says")
        return frame

    def end(self) -> int:
        """The status of a core that has ended, or ends since its host is gone."""
        self.output.close()
        self.process.communicate()  # ends its input, and waits
        return self.process.returncode
