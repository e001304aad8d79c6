"""Cases of `tests/live`: an admission webhook that decides the images of Pods over a real registry."""
import base64
import contextlib
import http.client
import json
import os
import shutil
import signal
import socket
import ssl
import subprocess
import sys
import threading
import time
from concurrent.futures import ThreadPoolExecutor
from pathlib import Path

TOP = Path(__file__).resolve().parent.parent
sys.path[:0] = [str(TOP), str(TOP / "tests")]
from registry import HASH, Registry, Skipped, door, layers_of, make_layout, ran, sign  # noqa: E402

COMMAND, LATE, MINUTE = TOP / "bin/roksnaep", "not decided in time; ask for fewer images, or raise --deadline and the webhook's timeoutSeconds", 60
PODS, LONGEST = 10_000, 200  # how many Pods in a row, and for how many seconds at most


def review_of(*images, uid="u"):
    """A review as an API server sends it, of a Pod with these images."""
    containers = [{"name": f"c{place}", "image": image} for place, image in enumerate(images)]
    return {"kind": "AdmissionReview", "apiVersion": "admission.k8s.io/v1", "request": {
        "uid": uid, "kind": {"group": "", "version": "v1", "kind": "Pod"}, "namespace": "team", "operation": "CREATE",
        "object": {"kind": "Pod", "apiVersion": "v1", "metadata": {"name": "p"}, "spec": {"containers": containers}}, "oldObject": None, "dryRun": False}}


def make_certificate(folder):
    """A new certificate of this machine; the file of its key gets its name last."""
    for name in ("tls.crt", "tls.key"):
        (folder / f"new-{name}").unlink(missing_ok=True)
    ran("openssl", "req", "-x509", "-newkey", "rsa:2048", "-nodes", "-days", "2", "-subj", "/CN=localhost", "-addext", "subjectAltName=DNS:localhost,IP:127.0.0.1",
        "-keyout", folder / "new-tls.key", "-out", folder / "new-tls.crt")
    for name in ("tls.crt", "tls.key"):
        (folder / f"new-{name}").rename(folder / name)


class Webhook:
    """`roksnaep admit` over these rules: an object for each, as in a policy file."""

    def __init__(self, live, name, rules, *words):
        self.folder, self.told = live.folder / name, []
        self.folder.mkdir()
        make_certificate(self.folder)
        (self.folder / "policy.json").write_text(json.dumps({"version": 1, "rules": rules}))
        files = ("--policy", "policy.json", "--cert", "tls.crt", "--private-key", "tls.key", "--listen", "127.0.0.1:0")
        self.process = subprocess.Popen([COMMAND, "admit", *files, *words], cwd=self.folder, env=live.environment, stderr=subprocess.PIPE, text=True)
        line = self.process.stderr.readline()
        if "aiohttp" in line:
            raise Skipped("python3-aiohttp is not installed")
        assert line.startswith("listening on 127.0.0.1:"), line
        self.port = int(line.rpartition(":")[2])
        self.reader = threading.Thread(target=lambda: self.told.extend(self.process.stderr), daemon=True)
        self.reader.start()

    def connection(self, authority="tls.crt"):
        context = ssl.create_default_context(cafile=self.folder / authority)
        return http.client.HTTPSConnection("127.0.0.1", self.port, context=context, timeout=60)

    def ask(self, connection, path, *images, uid="u"):
        """The response to a review of these images over this connection."""
        connection.request("POST", path, json.dumps(review_of(*images, uid=uid)), {"Content-Type": "application/json"})
        answer = connection.getresponse()
        content = answer.read()
        assert answer.status == 200, (answer.status, content)
        said = json.loads(content)["response"]
        assert said["uid"] == uid, said
        return said

    def decides(self, *images, path="/validate", uid="u"):
        with contextlib.closing(self.connection()) as connection:
            return self.ask(connection, path, *images, uid=uid)

    def allows(self, *images, path="/validate"):
        said = self.decides(*images, path=path)
        assert said["allowed"], said
        return said

    def denies(self, why, *images, path="/validate"):
        said = self.decides(*images, path=path)
        assert not said["allowed"] and why in said["status"]["message"], said
        return said["status"]["message"]

    def pins(self, *images):
        """What each image without a digest is replaced by."""
        return [change["value"] for change in json.loads(base64.b64decode(self.allows(*images, path="/mutate")["patch"]))]

    def lines(self):
        """Its log."""
        return [json.loads(line) for line in self.told if line.startswith("{")]

    def cores(self):
        """The processes of its cores, and what each holds, in MiB."""
        found = {}
        for path in Path(f"/proc/{self.process.pid}").glob("task/*/children"):
            for child in path.read_text().split():
                with contextlib.suppress(OSError, KeyError):
                    fields = dict(line.split(":", 1) for line in Path(f"/proc/{child}/status").read_text().splitlines())
                    if fields["Name"].strip().startswith("roksnaep"):
                        found[int(child)] = int(fields["VmRSS"].split()[0]) / 1024
        return found

    def stop(self):
        self.process.send_signal(signal.SIGTERM)
        self.process.wait(20)
        self.reader.join(5)
        self.process.stderr.close()


@contextlib.contextmanager
def webhook(live, name, rules, *words):
    server = Webhook(live, name, rules, *words)
    try:
        yield server
    finally:
        server.stop()


def signed(live, name, size=500):
    """A small signed image in a repository of its own, and its digest."""
    layout = live.folder / f"admitted-{name}"
    digest = make_layout(layout, layers_of(name, [size]))["digest"]
    live.push(layout, f"{name}:v1")
    sign(live.place, name, digest, live.key)
    return f"{live.place}/{name}:v1", digest


def rule_of(live, images, key=None):
    return {"images": images, "keys": [str(key or live.public)]}


def admits_signed_images(live):
    """With the digest that was verified; the log has a line for each review."""
    image, digest = signed(live, "admitted")
    with webhook(live, "admits", [rule_of(live, f"{live.place}/admitted"), rule_of(live, f"{live.place}/app", live.other)]) as server:
        server.allows(image)
        assert server.pins(image, f"{image}@{digest}") == [f"{image}@{digest}"]
        told = server.denies("c1: Unsatisfied", image, f"{live.place}/app:v1")
        server.denies("c0: NoRule; c1: NotAReference", f"{live.place}/bare:v1", f"{live.place}/admitted/Not A Reference")
    lines = server.lines()
    assert [line["allowed"] for line in lines] == [True, True, False, False], lines
    assert lines[2]["images"] == [image, f"{live.place}/app:v1"] and lines[3]["images"] == [], lines
    return told


def admits_many_pods_in_a_row(live):
    """A core, which is replaced after its 1000 reviews, holds no more after all than after the first hundred, but for a tenth."""
    images = [signed(live, f"row-{place}")[0] for place in range(4)]
    with webhook(live, "row", [rule_of(live, live.place)], "--jobs", "4") as server:
        began, done, lock, first = time.monotonic(), 0, threading.Lock(), {}

        def send(place):
            nonlocal done
            with contextlib.closing(server.connection()) as connection:
                while done < PODS and time.monotonic() - began < LONGEST:
                    image = images[place] if done % 10 else f"{live.place}/row-none:v1"
                    said = server.ask(connection, "/validate", image, uid=f"{place}-{done}")
                    assert said["allowed"] == (image in images), said
                    with lock:
                        done += 1
                        if done == 100:
                            first.update(server.cores())
        with ThreadPoolExecutor(4) as pool:
            list(pool.map(send, range(4)))
        taken, last = time.monotonic() - began, server.cores()
    assert len(first) == 4 and 1 <= len(last) <= 4 and done >= 400, (first, last, done)
    assert done < 10000 or not first.keys() & last.keys(), (first, last)
    assert max(last.values()) <= 1.1 * max(first.values()), (first, last)
    return f"{done} Pods in {taken:.0f} s; a core held at most {max(first.values()):.1f} MiB after 100 and {max(last.values()):.1f} MiB at the end"


def admits_many_pods_at_once(live):
    """32 reviews by four cores: each is decided within five seconds."""
    image, _ = signed(live, "at-once")
    with webhook(live, "at-once-hook", [rule_of(live, live.place)], "--jobs", "4") as server:
        def timed(place):
            began = time.monotonic()
            said = server.decides(image, uid=str(place))
            return said["allowed"], time.monotonic() - began
        with ThreadPoolExecutor(32) as pool:
            found = list(pool.map(timed, range(32)))
    assert all(allowed for allowed, _ in found), found
    longest = max(taken for _, taken in found)
    assert longest < 5, sorted(taken for _, taken in found)
    return f"the longest took {longest:.2f} s"


def admits_while_its_certificate_is_renewed(live):
    """Reviews go on over the old connection, and new connections get the new certificate."""
    image, _ = signed(live, "renewed")
    with webhook(live, "renews", [rule_of(live, live.place)]) as server, contextlib.closing(server.connection()) as old:
        assert server.ask(old, "/validate", image)["allowed"]
        shutil.copy(server.folder / "tls.crt", server.folder / "old.crt")
        make_certificate(server.folder)
        end = time.monotonic() + 20
        while "the certificate was read again\n" not in server.told:
            assert time.monotonic() < end, server.told
            assert server.ask(old, "/validate", image)["allowed"]
        server.allows(image)
        assert server.ask(old, "/validate", image)["allowed"]
        with contextlib.suppress(ssl.SSLError), contextlib.closing(server.connection("old.crt")) as refused:
            refused.connect()
            raise AssertionError("the old certificate is still used")
        with contextlib.closing(server.connection()) as cut:
            cut.connect()
        (server.folder / "tls.key").write_text("half written")
        time.sleep(2.5)
        server.allows(image)


def denies_what_a_killed_core_decided(live):
    """The next review is decided by a new one."""
    image, _ = signed(live, "killed-core")
    waiting = threading.Event()

    def wait(at):
        if at.command in ("GET", "HEAD") and not waiting.is_set():
            waiting.set()
            time.sleep(5)
        return at.hand_on()
    with door({"/manifests/": wait}, live.place) as place:
        with webhook(live, "kills", [rule_of(live, place)], "--jobs", "1") as server, ThreadPoolExecutor(1) as pool:
            decided = pool.submit(server.decides, image.replace(live.place, place))
            assert waiting.wait(20)
            killed = server.cores()
            for core in killed:
                os.kill(core, signal.SIGKILL)
            said = decided.result()
            assert not said["allowed"] and "the core ended unexpectedly" in said["status"]["message"], said
            server.allows(image.replace(live.place, place))
            assert len(killed) == 1 and not killed.keys() & server.cores().keys()
    return said["status"]["message"]


def denies_if_the_registry_is_down(live):
    """One that refuses connections, at once; one that never responds, at the deadline. Both are asked again when they are back."""
    image, _ = signed(live, "down")
    hangs = threading.Event()

    def hang(at):
        return time.sleep(20) if hangs.is_set() else at.hand_on()
    with door({"/": hang}, live.place) as place, webhook(live, "downs", [rule_of(live, live.place), rule_of(live, place)], "--deadline", "3") as server:
        live.registry.stop()
        try:
            began = time.monotonic()
            told = server.denies("c0: RegistryFetchManifestError", image)
            assert time.monotonic() - began < 3.5
        finally:
            live.registry.start()
        server.allows(image)
        hangs.set()
        began = time.monotonic()
        server.denies(LATE, image.replace(live.place, place))
        assert 2.5 < time.monotonic() - began < 4.5
        hangs.clear()
        server.allows(image.replace(live.place, place))
    return told


def denies_bodies_that_are_cut_off(live):
    """A manifest that the registry cuts off is denied; a review that the API server cuts off has no answer, and the next one is decided."""
    image, digest = signed(live, "cut")
    cuts = threading.Event()

    def cut(at):
        return at.hand_on(cut=100) if cuts.is_set() and at.command == "GET" else at.hand_on()
    with door({f"/manifests/{digest}": cut}, live.place) as place, webhook(live, "cuts", [rule_of(live, place)]) as server:
        cuts.set()
        told = server.denies("c0: ", image.replace(live.place, place))
        cuts.clear()
        server.allows(image.replace(live.place, place))
        context = ssl.create_default_context(cafile=server.folder / "tls.crt")
        text = json.dumps(review_of(image)).encode()
        for part in (text[:100], b""):
            with socket.create_connection(("127.0.0.1", server.port)) as plain, context.wrap_socket(plain, server_hostname="localhost") as stream:
                stream.sendall(b"POST /validate HTTP/1.1\r\nHost: localhost\r\nContent-Type: application/json\r\nContent-Length: %d\r\n\r\n" % len(text) + part)
        server.allows(image.replace(live.place, place))
    assert [line["allowed"] for line in server.lines()] == [False, True, True], server.told
    return told


def pins_what_was_verified_when_a_tag_moves(live):
    """Between /mutate and /validate the tag moves to an image that nobody signed: the pinned one is admitted, and the moved one within a minute no more."""
    image, digest = signed(live, "moves")
    make_layout(live.folder / "moved-away", layers_of("moved-away", [700]))
    with webhook(live, "moves-hook", [rule_of(live, live.place)], "--jobs", "1") as server:
        [pinned] = server.pins(image)
        assert pinned == f"{image}@{digest}", pinned
        live.push(live.folder / "moved-away", "moves:v1")
        end = time.monotonic() + MINUTE + 2
        server.allows(pinned)
        while (said := server.decides(image, path="/mutate"))["allowed"]:  # the digest may be one that was returned less than a minute ago
            assert json.loads(base64.b64decode(said["patch"]))[0]["value"] == pinned, said
            assert time.monotonic() < end, said
            time.sleep(1)
        server.allows(pinned)
    return said["status"]["message"]


def searches_an_image_once_a_minute(live):
    """For a second Pod within a minute the document is requested alone."""
    _, digest = signed(live, "once")
    seen = []

    def note(at):
        seen.append(f"{at.command} {at.path}")
        at.hand_on()
    with door({"/": note}, live.place) as place, webhook(live, "once-hook", [rule_of(live, place)], "--jobs", "1") as server:
        for _ in range(2):
            server.allows(f"{place}/once:v1")
            seen.append("")
    asked = [line for line in seen if line != "GET /v2/"]
    first, second = asked[:asked.index("")], asked[asked.index("") + 1:-1]
    assert len(first) > 2 and second == [f"GET /v2/once/manifests/{digest}"], (first, second)
    return f"{len(first)} requests, and then one"


def shows_credentials_to_their_rule_alone(live):
    """Two registries with two passwords, and images of both in one Pod: each sees its own."""
    folder, seen = live.folder / "own", {"one": set(), "two": set()}
    folder.mkdir()
    (folder / "users").write_text(f"one:{HASH}\ntwo:{HASH}\n")
    layout = live.folder / "admitted-own"
    digest = make_layout(layout, layers_of("own", [500]))["digest"]
    registries = {side: Registry(folder / side, f"auth: {{htpasswd: {{realm: live, path: {folder}/users}}}}\n") for side in seen}
    pairs = {side: base64.b64encode(f"{side}:right password".encode()).decode() for side in seen}
    try:
        for side, registry in registries.items():
            live.push(layout, "own:v1", registry.place, "--dest-creds", f"{side}:right password")
            sign(registry.place, "own", digest, live.key, headers={"Authorization": f"Basic {pairs[side]}"})

        def noting(side):
            return {"/": lambda at: (seen[side].add(at.headers.get("authorization")), at.hand_on())[1]}
        with door(noting("one"), registries["one"].place) as one, door(noting("two"), registries["two"].place) as two:
            (folder / "auth.json").write_text(json.dumps({"auths": {one: {"auth": pairs["one"]}, two: {"auth": pairs["two"]}}}))
            rules = [rule_of(live, f"{one}/own"), rule_of(live, f"{two}/own")]
            with webhook(live, "own-hook", rules, "--authfile", folder / "auth.json", "--jobs", "2") as server:
                for _ in range(3):
                    server.allows(f"{one}/own:v1", f"{two}/own:v1")
                told = server.denies("c1: NoRule", f"{one}/own:v1", f"{one}/owner:v1")
    finally:
        for registry in registries.values():
            registry.stop()
    assert seen == {side: {None, f"Basic {pair}"} for side, pair in pairs.items()} or seen == {side: {f"Basic {pair}"} for side, pair in pairs.items()}, seen
    return told


CASES = [admits_signed_images, admits_many_pods_at_once, admits_while_its_certificate_is_renewed, denies_what_a_killed_core_decided, denies_if_the_registry_is_down,
         denies_bodies_that_are_cut_off, searches_an_image_once_a_minute, shows_credentials_to_their_rule_alone, pins_what_was_verified_when_a_tag_moves, admits_many_pods_in_a_row]
