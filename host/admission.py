"""An admission webhook of Kubernetes over HTTPS: cores read reviews, decide them side by side, and write the responses, which are sent unchanged."""
import asyncio
import contextlib
import functools
import json
import logging
import math
import ssl
import threading
import time
from concurrent.futures import ThreadPoolExecutor
from pathlib import Path
from typing import Any, Awaitable, Callable, Iterable, Protocol

import aiohttp
from aiohttp import web

from host.core import WRITTEN, Core, Frame
from host.files import read
from host.places import cut
from host.rules import Rule
from host.signatures import Signatures
from host.terminal import printable, say

VERSION, LONGEST = "admission.k8s.io/v1", 1 << 20  # bytes of a request's body
REVIEWS = 1000  # of a core, which then ends with 0: what is proved of its responses is said of such an end
LATE = "not decided in time; ask for fewer images, or raise --deadline and the webhook's timeoutSeconds"
IMAGES = 100  # the most of a Pod, so that a few Pods cannot have all other reviews wait
TICK, IDLE = 0.1, 30  # seconds: between two looks at who waits for a core, and for a connection without a whole head of a request
# a response, "" if the text is not a review, and the images that a rule covers
Decided = tuple[str, list[str]]


class Replies(Protocol):
    end: float

    def reply(self, frame: Frame) -> tuple[Frame, bytes]: ...


# the connections for an image, until the time is over
Connect = Callable[[str, float], Replies]


class Turn:
    """The time that a review has for a core: until its end, or until it is stopped."""

    def __init__(self, end: float) -> None:
        self.end, self.began = end, math.inf  # by the monotonic clock; when it got a core
        self.network: Replies | None = None

    def stop(self) -> None:
        """Gives up its core, which another thread waits for: the connection now, and at the next frame all."""
        self.end = -math.inf
        if self.network:
            self.network.end = self.end


class Decider:
    """A core that decides one review after another, and its host: connections for each image, and signatures by the rule that the core names."""

    def __init__(self, admit: Frame, rules: dict[str, Rule], connect: Connect) -> None:
        self.rules, self.connect, self.core, self.left = rules, connect, Core(), REVIEWS
        if self.core.read()["frame"] != "begin":
            raise ValueError("the core began badly")
        self.core.write(admit | {"frame": "admit", "reviews": self.left})

    def decide(self, line: bytes, turn: Turn) -> Decided:
        """What the core replies to the review in a frame. ValueError or OSError if it broke, or if it allows an image of which the host found no signature valid in this review."""
        core, asked = self.core, list[tuple[str, Signatures]]()
        core.input.write(line)
        core.input.flush()
        while (frame := core.read())["frame"] not in ("response", "unreadable"):
            if time.monotonic() > turn.end:
                raise TimeoutError(LATE)
            body = b"".join(core.body(frame))
            match frame["frame"]:
                case "image":
                    network, signatures = self.connect(frame["image"], turn.end), Signatures(self.rules[frame["rule"]])
                    turn.network = network
                    asked.append((frame["image"], signatures))
                case "request" | "more":
                    core.write(*network.reply(frame))
                case "verify" | "judge":
                    core.write(signatures.reply(frame, body))
                case name:
                    raise ValueError(f"the core wrote the frame {name}")
        self.left -= 1
        if not self.left:
            core.ended(frame)
        response = str(frame.get("response", ""))
        if response and json.loads(response)["response"]["allowed"]:
            if unsigned := set(images_of(json.loads(json.loads(line)["review"]))) - {image for image, signatures in asked if signatures.signers}:
                raise ValueError(f"it allowed {min(unsigned)}, of which no signature was found valid")
        return response, [image for image, _ in asked]


class Deciders:
    """Deciders, one for each thread that decides; one that breaks, or has served its reviews, is replaced."""

    def __init__(self, admit: Frame, rules: dict[str, Rule], connect: Connect) -> None:
        self.admit, self.rules, self.connect, self.own = admit, rules, connect, threading.local()

    def decide(self, line: bytes, turn: Turn) -> Decided:
        turn.began = time.monotonic()
        if turn.began > turn.end:
            raise TimeoutError(LATE)
        if not hasattr(self.own, "decider"):
            self.own.decider = Decider(self.admit, self.rules, self.connect)
        decider: Decider = self.own.decider
        is_left = False
        try:
            decided = decider.decide(line, turn)
            is_left = decider.left > 0
            return decided
        finally:  # whatever was not foreseen allows nothing
            if not is_left:
                decider.core.close()
                del self.own.decider


def frame_of(text: str, mutate: bool, moment: int) -> bytes:
    """The line of a review. ValueError if it is too long for a line."""
    frame = {"frame": "review", "moment": moment, "mutate": mutate, "review": text}
    line = json.dumps(frame, ensure_ascii=False).encode() + b"\n"
    if len(line) > WRITTEN:
        raise ValueError("the review is too long")
    return line


def images_of(review: Any) -> list[str]:
    """The images that a review of a Pod names, as the core reads them."""
    spec = review["request"]["object"]["spec"]
    containers = [one for name in ("initContainers", "containers", "ephemeralContainers") for one in spec.get(name) or ()]
    return [one["image"] for one in containers] + [one["image"]["reference"] for one in spec.get("volumes") or () if "image" in one]


def count_of(text: str) -> int:
    """How many images a review of a Pod is about, and zero for what is none: the core says what is one."""
    try:
        return len(images_of(json.loads(text)))
    except (ValueError, LookupError, TypeError, AttributeError, RecursionError):
        return 0


def denied(text: str, why: str) -> str:
    """The response to a review that no core decided."""
    try:
        uid = str(json.loads(text)["request"]["uid"])
    except (ValueError, LookupError, TypeError, RecursionError) as error:
        raise ValueError(f"not a review of a Pod ({type(error).__name__}: {error})") from None
    return json.dumps({"apiVersion": VERSION, "kind": "AdmissionReview", "response": {"allowed": False, "status": {"message": why}, "uid": uid}})


def logged(text: str, response: str, images: list[str], milliseconds: int) -> str:
    """A line of the log: what the review and the response say."""
    def member(value: Any, *names: str) -> Any:
        for name in names:
            value = value.get(name) if isinstance(value, dict) else None
        return value
    review, said = json.loads(text), json.loads(response)["response"]
    line = {"uid": said["uid"], "namespace": member(review, "request", "namespace"), "images": images, "allowed": said["allowed"],
            "milliseconds": milliseconds}
    return json.dumps(line | ({"denied": cut(said["status"]["message"])} if "status" in said else {}))


class Webhook:
    """Reviews, decided side by side by `jobs` cores. A core is for a review as long as its time lasts, but while others wait not for more than half of it."""

    def __init__(self, decide: Callable[[bytes, Turn], Decided], jobs: int, seconds: float) -> None:
        self.decide, self.jobs, self.seconds, self.pool = decide, jobs, seconds, ThreadPoolExecutor(jobs)
        self.turns = list[Turn]()  # of all that are not decided, in the order in which they get cores

    def has_had_its_share(self, turn: Turn) -> bool:
        """Whether it has had a core for half of the time, and of all for the longest one, while another one waits for a core."""
        return len(self.turns) > self.jobs and turn is self.turns[0] and time.monotonic() > turn.began + self.seconds / 2

    async def decided(self, text: str, mutate: bool, end: float) -> Decided:
        """The response to a review. What is not decided in time, or by a core that breaks, is denied."""
        line = frame_of(text, mutate, int(time.time()))
        if (count := count_of(text)) > IMAGES:
            return denied(text, f"it has {count} images, and at most {IMAGES} are decided; split the Pod"), []
        turn = Turn(end)
        self.turns.append(turn)
        task = asyncio.get_running_loop().run_in_executor(self.pool, self.decide, line, turn)
        task.add_done_callback(lambda done: done.exception())  # it may end after its response
        try:
            while not task.done() and time.monotonic() < end and not self.has_had_its_share(turn):
                await asyncio.wait([task], timeout=min(TICK, end - time.monotonic()))
        finally:
            self.turns.remove(turn)
            turn.stop()
        if not task.done() or time.monotonic() > end:
            return denied(text, LATE), []
        if error := task.exception():
            return denied(text, f"the core ended unexpectedly ({type(error).__name__}: {error})"), []
        return task.result()

    async def answer(self, request: web.Request) -> web.Response:
        began = time.monotonic()
        if request.content_type != "application/json" or request.headers.get("Content-Encoding", "identity").lower() != "identity":
            raise web.HTTPBadRequest(text="send the review as application/json, without a content encoding\n")
        try:
            async with asyncio.timeout(self.seconds):
                text = (await request.read()).decode()
            response, images = await self.decided(text, request.path == "/mutate", began + self.seconds)
        except TimeoutError:
            raise web.HTTPRequestTimeout(text="the review did not arrive in time; send it at once\n") from None
        except (ValueError, web.RequestPayloadError) as error:
            raise web.HTTPBadRequest(text=f"{error}\n") from None
        if not response:
            raise web.HTTPBadRequest(text="not a review of a Pod\n")
        say(logged(text, response, images, round(1000 * (time.monotonic() - began))))
        return web.Response(text=response, content_type="application/json")


class Connection(web.RequestHandler):
    """A connection on which a caller waits for a response before the next request. It is closed if the head of a request does not come in time, for which aiohttp
    has no limit before a first request, and if more requests come, of which aiohttp would hold any number."""

    def wait(self) -> None:
        self.timer = asyncio.get_running_loop().call_later(IDLE, self.abort)

    def abort(self) -> None:
        if self.transport:
            self.transport.abort()  # without the end of TLS, which the other side may not send

    def connection_made(self, transport: asyncio.BaseTransport) -> None:
        super().connection_made(transport)
        self.wait()

    def connection_lost(self, error: BaseException | None) -> None:
        super().connection_lost(error)
        self.timer.cancel()

    def data_received(self, data: bytes) -> None:
        super().data_received(data)
        if self.waiting() > 1:
            self.abort()

    def waiting(self) -> int:
        """How many requests have come and are not begun. aiohttp has no public name for them, so that `serve` tries this one first."""
        return len(self._messages)

    def tried(self) -> bool:
        """Whether two requests that come at once are two that wait, as with the aiohttp that this was written for."""
        try:
            self.data_received(b"GET / HTTP/1.1\r\n\r\n" * 2)
            return self.waiting() == 2
        except (AttributeError, TypeError):
            return False


@web.middleware
async def awaited(request: web.Request, handler: Callable[[web.Request], Awaitable[web.StreamResponse]]) -> web.StreamResponse:
    """Answers a request whose head has come; from then on the next one is waited for."""
    connection = request.protocol
    assert isinstance(connection, Connection)
    connection.timer.cancel()
    if "Upgrade" in request.headers:  # after which aiohttp would hold all that comes before the response
        connection.close()
        raise web.HTTPBadRequest(text="send the review without an upgrade to another protocol\n")
    try:
        return await handler(request)
    finally:
        connection.wait()


class Line(logging.Formatter):
    """What goes wrong with a connection, as a line of the log: a caller can have it written as often as he likes."""

    def format(self, record: logging.LogRecord) -> str:
        error = record.exc_info[1] if record.exc_info else None
        return printable(f"{record.getMessage()}: {type(error).__name__}: {error}" if error else record.getMessage())


async def health(_: web.Request) -> web.Response:
    return web.Response(text="ok\n")


def load(context: ssl.SSLContext, files: tuple[Path, Path]) -> None:
    """Takes the certificate and its key; OSError with a sentence if they are none."""
    for path in files:
        read(path)  # which is refused here if it is not a regular file
    try:
        context.load_cert_chain(*files, password="")  # so that a terminal is not asked for one
    except ssl.SSLError as error:
        raise OSError(f"{files[0]} and {files[1]} are not a certificate and its key, without a password: {error}") from None


async def serve(webhook: Webhook, place: tuple[str, int], files: tuple[Path, Path], signals: Iterable[int]) -> None:
    """Serves reviews until one of the signals comes. The certificate and its key are read again when their files change."""
    stopped, loop = asyncio.Event(), asyncio.get_running_loop()
    for number in signals:
        loop.add_signal_handler(number, stopped.set)
    context = ssl.create_default_context(ssl.Purpose.CLIENT_AUTH)
    context.minimum_version = ssl.TLSVersion.TLSv1_2
    load(context, files)
    changed = [path.stat().st_mtime_ns for path in files]
    handler = logging.StreamHandler()
    handler.setFormatter(Line())
    logging.basicConfig(handlers=[handler])
    server = web.Application(client_max_size=LONGEST, middlewares=[awaited])
    server.add_routes([web.post("/validate", webhook.answer), web.post("/mutate", webhook.answer), web.get("/healthz", health)])
    runner = web.AppRunner(server)
    await runner.setup()
    manager = runner.server
    assert manager
    connection = functools.partial(Connection, manager, loop=loop, auto_decompress=False)  # which would inflate a body beyond its limit
    if not connection().tried():
        raise OSError(f"aiohttp {aiohttp.__version__} does not say how many requests wait on a connection, which have to be limited; install Debian's python3-aiohttp (3.8)")
    try:
        site = await loop.create_server(connection, *place, ssl=context, ssl_handshake_timeout=IDLE, ssl_shutdown_timeout=1)
    except (OSError, UnicodeError) as error:
        raise OSError(f"{place[0]} port {place[1]} cannot be listened on ({error}); choose another --listen") from None
    bound = site.sockets[0].getsockname()
    say(f"listening on {bound[0]}:{bound[1]}")
    while not stopped.is_set():
        with contextlib.suppress(asyncio.TimeoutError):
            await asyncio.wait_for(stopped.wait(), 1)
        try:
            if changed != (changed := [path.stat().st_mtime_ns for path in files]):
                load(context, files)
                say("the certificate was read again")
        except OSError as error:  # half written: the old one stands until both fit
            changed = []
            say(f"the certificate is not read again: {error}")
    site.close()
    await manager.shutdown(1)
    await runner.cleanup()
