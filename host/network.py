"""Connections, by libcurl: requests that the rules allow are sent, and answers received piece by piece. No redirects, cookies or .netrc."""
import base64
import contextlib
import json
import math
import mmap
import re
import signal
import socket
import time
from typing import Any, Callable, Iterable, Iterator

import pycurl

from host.core import PIECE, Frame, framed
from host.files import read
from host.places import FIELD, URL, Access, Place, is_public, place_of, shown
from host.terminal import progress

SLOWEST, RECEIVED = 1000, 256 << 10  # bytes: per second, and at once from a connection
FIELDS, TRIES, LONGEST_WAIT = 1000, 5, 60  # header fields, requests to a busy registry, seconds between them
REMEMBERED, HELD = 60, 8 << 20  # seconds for which an answer of `/v2/` or a token holds; bytes of a request's body that can be sent again
REALM = re.compile(r'\brealm *= *"?(https?://[^?",\s]+)', re.IGNORECASE)
STATUS = re.compile(rb"HTTP/1\.[01] (\d{3})\s")
TRANSIENT = {pycurl.E_COULDNT_RESOLVE_HOST, pycurl.E_COULDNT_CONNECT, pycurl.E_SSL_CONNECT_ERROR,
             pycurl.E_SEND_ERROR, pycurl.E_RECV_ERROR, pycurl.E_GOT_NOTHING}
SUPPRESS_CONNECT_HEADERS, UPLOAD_BUFFERSIZE, QUICK_EXIT = 265, 280, 322  # as curl.h has them; pycurl does not name them
SIGNALS = {signal.SIGINT, signal.SIGTERM, signal.SIGHUP, signal.SIGALRM}


@contextlib.contextmanager
def uninterrupted() -> Iterator[None]:
    """Holds signals back while libcurl may call back: an exception of their handlers would be lost in it."""
    mask = signal.pthread_sigmask(signal.SIG_BLOCK, [])
    try:
        signal.pthread_sigmask(signal.SIG_BLOCK, SIGNALS)
        yield
    finally:
        signal.pthread_sigmask(signal.SIG_SETMASK, mask)


class Answer:
    """What has been received of an answer: the fields of its head, and of its body what is not handed on yet, at most as much as there is room for."""

    def __init__(self, limit: int, room: bytearray | mmap.mmap = bytearray()) -> None:
        self.limit, self.size = limit, 0  # in bytes, of all heads and trailers
        self.room, self.held = memoryview(room), 0
        self.status, self.fields = 0, list[tuple[str, bytes]]()
        self.has_head = self.is_full = self.is_over = False
        self.raised: Exception | None = None

    @property
    def body(self) -> memoryview:
        return self.room[:self.held]

    def guarded(self, callback: Callable[..., Any]) -> Callable[..., Any]:
        """The callback for libcurl, which would drop an exception."""
        def call(*words: Any) -> Any:
            try:
                return callback(*words)
            except Exception as raised:
                self.raised = raised
                return -1
        return call

    def take_line(self, line: bytes) -> None:
        """Takes a line of a head or of trailers. All are counted, those of each 100 Continue too."""
        self.raised = None  # what an address raised before the one that answers
        self.size += len(line)
        if self.size > self.limit or len(self.fields) > FIELDS:
            raise ValueError(f"the headers of the answer are longer than {self.limit} bytes, or more than {FIELDS}")
        status, field = STATUS.match(line), FIELD.fullmatch(line)
        if status and not self.has_head:
            self.status, self.fields = int(status[1]), []
        elif not line.strip():
            self.has_head = self.has_head or self.status == 101 or self.status >= 200
        elif not field:
            raise ValueError("a header of the answer is malformed")
        else:
            name, value = field[1].decode().lower(), field[2].strip()
            if name == "transfer-encoding" and value.lower() != b"chunked":
                raise ValueError("the transfer encoding of the answer is not chunked")
            if not self.has_head:
                self.fields.append((name, value))

    def take_body(self, data: bytes) -> int | None:
        """Takes a part of the body; libcurl keeps it if there is no room. It has at most 16 KiB, so that this is called often."""
        held = self.held + len(data)
        if held > PIECE:
            self.is_full = True
            return pycurl.WRITEFUNC_PAUSE
        self.room[self.held:held] = data
        self.held = held
        return None

    def again(self) -> "Answer":
        """The same, to be handed on once more."""
        made = Answer(self.limit, bytearray(self.body))
        made.status, made.fields, made.held, made.has_head, made.is_over = self.status, self.fields, self.held, True, True
        return made

    def challenges(self) -> bytes:
        """All challenges as one list, whatever their lines are (RFC 9110, 5.3), since the core reads the first line."""
        return b", ".join(value for name, value in self.fields if name == "www-authenticate")

    def headers(self) -> list[list[Any]]:
        """The fields as frames have them."""
        fields = [field for field in self.fields if field[0] != "www-authenticate"]
        if challenges := self.challenges():
            fields.append(("www-authenticate", challenges))
        return [[name, value.decode() if value.isascii() else {"base64": base64.b64encode(value).decode()}] for name, value in fields]

    def retry_after(self) -> float:
        """How many seconds a busy registry asks to wait (RFC 9110, 10.2.3); infinity if it does not."""
        text = dict(self.fields).get("retry-after", b"").decode("latin-1")
        with contextlib.suppress(ValueError, OverflowError):
            if self.status in (429, 503) and text:
                from email.utils import parsedate_to_datetime  # which takes a while
                return max(0, int(text) if text.isdecimal() else parsedate_to_datetime(text).timestamp() - time.time())
        return math.inf


def plain(value: str | dict[str, str]) -> str:
    """The value of a field, of which a frame has the bytes if they are not ASCII."""
    return value if isinstance(value, str) else base64.b64decode(value["base64"]).decode("latin-1")


class Upload:
    """The body of a request. A short one is held, so that it can be sent again; a long one is handed on as it comes."""

    def __init__(self, size: int, pieces: Iterable[bytes]) -> None:
        self.size, self.raised, self.left = size, False, memoryview(b"")
        self.held = [*pieces] if size <= HELD else []
        self.pieces = iter(self.held or pieces)

    def again(self) -> bool:
        """Begins anew, if it can."""
        self.pieces, self.left = iter(self.held), memoryview(b"")
        return bool(self.held)

    def seek(self, offset: int, _: int) -> int:
        """For libcurl, if a kept connection was closed before the request arrived."""
        return int(pycurl.SEEKFUNC_OK if offset == 0 and self.again() else pycurl.SEEKFUNC_CANTSEEK)

    def read(self, count: int) -> bytes | int:
        try:
            self.left = self.left or memoryview(next(self.pieces, b""))
        except (OSError, ValueError):  # the core has ended
            return int(pycurl.READFUNC_ABORT)
        part, self.left = self.left[:count], self.left[count:]
        return bytes(part)


class Remembered:
    """What `/v2/` and token services answered to the cores of one run, in memory: for a minute, within a token's life, and until an answer is 401."""

    def __init__(self) -> None:
        self.answers = dict[tuple[str, ...], tuple[float, Answer]]()

    def find(self, key: tuple[str, ...]) -> Answer | None:
        until, kept = self.answers.get(key, (0, Answer(0)))
        return kept.again() if time.monotonic() < until else None

    def keep(self, key: tuple[str, ...], answer: Answer, is_token: bool) -> None:
        """Keeps an answer that has arrived whole. Without `expires_in` a token lives for a minute."""
        with contextlib.suppress(ValueError, TypeError, AttributeError, OverflowError, RecursionError):
            life = json.loads(bytes(answer.body)).get("expires_in", REMEMBERED) if is_token else REMEMBERED
            self.answers[key] = time.monotonic() + min(REMEMBERED, life), answer.again()


class Network:
    """The connections of a pull. `statuses` has the last one of each URL (as `shown`), `failure` why a request failed last.

    `timeout` is in seconds, to connect and without data; `end` is by the monotonic clock, and may be changed by another thread. A document has at most `document` bytes, the
    headers of an answer at most `headers`; `blob` names the blob that comes next if it may be longer than a document.
    """
    curl: pycurl.Curl | None = None

    def __init__(self, access: Access, timeout: float = 30, end: float = math.inf, document: int = 4 << 20, headers: int = 64 << 10) -> None:
        self.access, self.base, self.blob = access, access.base, ""
        self.timeout, self.end, self.document, self.headers = timeout, end, document, headers
        self.statuses, self.failure, self.url, self.proxy, self.realms = dict[str, int](), "", "", "", set[Place]()
        self.remembered, self.late = Remembered(), ""
        self.multi, self.answer, self.room = pycurl.CurlMulti(), Answer(0), mmap.mmap(-1, PIECE, mmap.MAP_PRIVATE)  # which takes no memory before it is used
        for path in filter(None, (access.authority, access.certificate, access.private_key)):
            read(path)  # so that a file that is missing is refused before any request

    def beside(self) -> "Network":
        """Other connections to the same registry, by the same rules. What is remembered is for all of them."""
        made = Network(self.access, self.timeout, self.end, self.document, self.headers)
        made.statuses, made.remembered = self.statuses, self.remembered
        return made

    def options(self, frame: Frame, place: Place, answer: Answer, upload: Upload | None) -> dict[int, Any]:
        """The options of libcurl for a request."""
        access, late = self.access, time.monotonic() + 3 * max(1, self.timeout)
        proxy = self.proxy = access.proxy_to(place)

        def connect(_: int, address: Any) -> socket.socket:
            """A socket to an address, if a connection may go there. Names are resolved by now, but not those that a proxy resolves."""
            if not (proxy or access.is_near(place) or is_public(address.addr[0])):
                raise ValueError(f"it leads to {address.addr[0]}, which is not a public address; name its host by --allow-host if you trust it")
            return socket.socket(address.family, address.socktype, address.protocol)

        def watch(_: float, received: float, __: float, sent: float) -> None:
            """Ends what libcurl does not: it reads all that a proxy sends before a tunnel, without a look at its time-outs, or at signals."""
            now = time.monotonic()
            if now > self.end or any(signal.getsignal(number) != signal.SIG_IGN for number in SIGNALS & signal.sigpending()):
                raise ValueError("the time of the command is over")
            if now > late and not (received or sent or answer.size):
                raise ValueError("no answer, and no tunnel of a proxy, came in time")

        body = {pycurl.UPLOAD: 1, pycurl.INFILESIZE_LARGE: upload.size, UPLOAD_BUFFERSIZE: PIECE // 2,
                pycurl.READFUNCTION: upload.read, pycurl.SEEKFUNCTION: upload.seek} if upload else {}
        headers = [f"{name}: {value}".encode("latin-1") for name, value in frame["headers"] if not (upload and name.lower() == "content-length")]
        files = ((pycurl.CAINFO, access.authority), (pycurl.SSLCERT, access.certificate), (pycurl.SSLKEY, access.private_key))
        return {
            pycurl.URL: frame["url"], pycurl.PATH_AS_IS: 1,
            pycurl.CUSTOMREQUEST: frame["method"], pycurl.NOBODY: frame["method"] == "HEAD",
            pycurl.HTTPHEADER: ["Accept:", "Expect:", *headers], pycurl.USERAGENT: "",
            pycurl.HTTP_VERSION: pycurl.CURL_HTTP_VERSION_1_1, pycurl.SSLVERSION: pycurl.SSLVERSION_TLSv1_2,
            pycurl.HEADERFUNCTION: answer.guarded(answer.take_line), pycurl.WRITEFUNCTION: answer.take_body,
            pycurl.OPENSOCKETFUNCTION: answer.guarded(connect), pycurl.BUFFERSIZE: RECEIVED, pycurl.NOSIGNAL: 1,
            pycurl.PROXY: proxy, pycurl.NOPROXY: "", SUPPRESS_CONNECT_HEADERS: 1, pycurl.NOPROGRESS: 0, pycurl.XFERINFOFUNCTION: answer.guarded(watch),
            pycurl.CONNECTTIMEOUT_MS: int(self.timeout * 1000), QUICK_EXIT: 1,  # so that a name that is not resolved in time is not waited for
            pycurl.LOW_SPEED_LIMIT: SLOWEST, pycurl.LOW_SPEED_TIME: round(self.timeout) or 1,
        } | body | {option: str(path) for option, path in files if path}

    def ask(self, frame: Frame, place: Place, again: bool, upload: Upload | None = None) -> None:
        """Sends a request, and receives what comes first of its answer; `again` if the connection fails before it."""
        self.leave()
        curl, self.answer = pycurl.Curl(), Answer(self.headers, self.room)
        for option, value in self.options(frame, place, self.answer, upload).items():
            curl.setopt(option, value)
        self.multi.add_handle(curl)
        self.curl = curl
        try:
            self.receive()
        except ConnectionError:
            if not again:
                raise
            self.ask(frame, place, False)

    def receive(self) -> None:
        """Lets libcurl work until it may have no room for more, or the answer is over: a short one is whole then, and its connection is kept."""
        answer = self.answer
        while not (answer.is_full or answer.is_over or answer.held > PIECE - RECEIVED):
            before = answer.size + answer.held
            with uninterrupted():
                self.multi.perform()
            _, done, failed = self.multi.info_read()
            answer.is_over = bool(done or failed)
            for _, number, text in failed:
                if answer.raised and not isinstance(answer.raised, OSError):
                    raise answer.raised
                kind = ConnectionError if number in TRANSIENT and not answer.size else OSError
                raise kind(text or f"error {number} of libcurl (27: a line is too long)")
            if done and not answer.has_head:
                raise OSError("the head of the answer was truncated")
            if time.monotonic() > self.end:
                raise TimeoutError("the time of the command is over")
            if not done and answer.size + answer.held == before and self.multi.select(0.05) < 0:
                time.sleep(0.002)  # no socket yet: the name is being resolved

    def wait(self, seconds: float) -> None:
        """Waits, but not longer than the command may run."""
        until = time.monotonic() + seconds
        while (now := time.monotonic()) < until:
            if now > self.end:
                raise TimeoutError("the time of the command is over")
            time.sleep(min(0.1, until - now))

    def leave(self) -> None:
        """Ends the last request."""
        self.late = ""
        if self.curl:
            self.multi.remove_handle(self.curl)
            self.curl.close()
            self.curl = None

    def __del__(self) -> None:
        self.leave()  # else pycurl ends the process, since libcurl calls back while its handle is closed

    def request(self, frame: Frame, body: Iterable[bytes]) -> tuple[Frame, bytes]:
        """The answer to a request, which is sent once more as often as a busy registry asks for it in time; or what is remembered of it."""
        self.url, self.size, self.began = frame["url"], 0, time.monotonic()
        place, method = place_of(self.url), frame["method"]
        frame = frame | {"headers": [[name, plain(value)] for name, value in frame["headers"]]}
        self.access.check(place, frame["headers"], self.realms)
        self.is_token, self.realms = place in self.realms, set()
        is_first = place == self.access.own
        key = method, self.url, *(value for name, value in frame["headers"] if name.lower() == "authorization")
        kept = self.remembered.find(key) if is_first or self.is_token else None
        self.leave()  # before the body is read, so that the one of the last request is not held any more
        if kept:
            self.answer = kept
        else:
            self.send(frame, place, Upload(frame["bytes"], body) if frame.get("bytes") else None)
            status = self.statuses[shown(self.url)] = self.answer.status
            if method == "GET" and self.answer.is_over and (is_first and status in (200, 401) or self.is_token and status == 200):
                self.remembered.keep(key, self.answer, self.is_token)
            elif status == 401:
                self.remembered.answers.clear()
        if is_first:
            named = REALM.findall(self.answer.challenges().decode("latin-1"))
            self.realms = {place_of(realm) for realm in named if URL.fullmatch(realm)}
        return {"frame": "answer", "status": self.answer.status, "headers": self.answer.headers()}, b""

    def send(self, frame: Frame, place: Place, upload: Upload | None) -> None:
        for left in reversed(range(TRIES)):
            self.ask(frame, place, frame["method"] in ("GET", "HEAD"), upload)
            seconds = self.answer.retry_after()
            if not left or seconds > min(LONGEST_WAIT, self.end - time.monotonic()) or upload and not upload.again():
                break
            progress.show(f"{place.host} is busy ({self.answer.status}): waiting {seconds:.0f} s")
            self.wait(seconds)

    def ahead(self) -> None:
        """Receives the next piece of a body before it is requested."""
        if self.curl and not self.answer.held and not self.late:
            try:
                self.resume(self.curl)
            except (OSError, ValueError, pycurl.error) as error:
                self.late = str(error.args[-1])

    def resume(self, curl: pycurl.Curl) -> None:
        if self.answer.is_full and not self.answer.held:
            self.answer.is_full = False
            with uninterrupted():
                curl.pause(pycurl.PAUSE_CONT)
        self.receive()

    def more(self) -> tuple[Frame, bytes]:
        """The next piece of the body, which is to be used before the one after it is requested."""
        if self.late or not (self.curl or self.answer.is_over):
            raise ValueError(self.late or "the answer was truncated")
        if self.curl:
            self.resume(self.curl)
        piece = self.answer.body
        self.answer.held = 0
        self.size += len(piece)
        may_be_long = self.blob and self.answer.status in (200, 206) and not self.is_token
        if self.size > self.document and not may_be_long:
            raise ValueError(f"the answer is longer than {self.document} bytes, the limit of a document")
        if self.blob and piece:
            rate = self.size / 1e6 / max(time.monotonic() - self.began, 1e-6)
            progress.show(f"{self.blob[:19]} {self.size / 1e6:9.1f} MB {rate:7.1f} MB/s")
        elif self.blob:
            progress.end()
        return framed(piece)

    def reply(self, frame: Frame, body: Iterable[bytes] = ()) -> tuple[Frame, bytes]:
        """The answer to a request, or the next piece of its body; `failed` if it is not sent, not answered, or truncated."""
        try:
            return self.request(frame, body) if frame["frame"] == "request" else self.more()
        except (OSError, ValueError, pycurl.error) as error:
            why = str(error.args[-1])
            self.failure = f"{shown(self.url)}: {why.replace(self.proxy, 'PROXY') if self.proxy else why}"  # which may have a password
            self.leave()
            self.answer = Answer(0)
            return {"frame": "failed"}, b""
