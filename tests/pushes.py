#!/usr/bin/python3
"""Pushes a small image by the program `live_pushes` to a real registry on this machine, over a host of its own that opens the connections, and reads
with skopeo what the registry has then, and the signature that was pushed with `roksnaep verify`.

    tests/pushes.py [--program FILE] [--record] [-v] [PART OF A NAME ..]

It needs docker-registry, openssl and skopeo (Debian's packages), the program as it was built here, and a core that was built here, or the released one. Each case
is a function, which tests/live runs too. --record writes the expected output of live_pushes anew: the frames of a push to a plain registry, to which the program
speaks as `localhost:5000` whatever its port is.
"""
import argparse
import base64
import contextlib
import http.client
import json
import os
import shutil
import ssl
import subprocess
import sys
import tempfile
import time
import urllib.parse
from pathlib import Path

sys.dont_write_bytecode = True
TOP = Path(__file__).resolve().parent.parent
sys.path[:0] = [str(TOP / "tests")]
from registry import (HASH, MANIFEST, PAYLOAD, SIGNATURE, Registry, Skipped, asked, digest_of, door, ephemeral, json_token, payload_of, ran,  # noqa: E402
                      signature_of)

FOLDER = TOP / "crates/live_pushes"
# what the program calls the registry, whatever its port is
NAME = "localhost:5000"
LAYERS = [b"the first layer\n", b"the second layer\n"]
ABSENT = "sha256:" + "0" * 64
# of the manifest that is pushed as bytes, and what the program writes as its payload: compact, with the members in cosign's order
DIGEST = "sha256:7138bf8f7050a9cf808bf5c08bc9a905014df62e4a8f8026cdced10da97d8d80"
SIGNED = json.dumps(json.loads(payload_of(NAME, "app", DIGEST)), separators=(",", ":")).encode()
MOMENT = 1700000000
# headers of a connection or of its time, which are not of the answer
DROPPED = ("connection", "transfer-encoding", "date")


# ---- the host


class Pushes:
    """A run of the program: what it asked for, what it said at the end, and the bytes of both streams."""

    def __init__(self, place, auth="anonymous", tls=None, before=lambda frame: None, signature="c2lnMQ=="):
        self.place, self.tls, self.before = place, tls, before
        self.sent, self.received, self.requests, self.body, self.lines = bytearray(), bytearray(), [], b"", []
        self.settings = {"frame": "settings", "reference": f"{NAME}/app:v1", "other": f"{NAME}/mirror:v1", "protocol": "http", "auth": auth, "moment": MOMENT,
                         "signature": signature}
        program = os.environ.get("LIVE_PUSHES") or FOLDER / "out/live_pushes"
        if not Path(program).is_file():
            raise Skipped("live_pushes is not built (cd crates/live_pushes && rt run < stdin)")
        with subprocess.Popen([program], stdin=subprocess.PIPE, stdout=subprocess.PIPE) as self.run:
            while line := self.run.stdout.readline():
                frame = json.loads(line)
                content = self.run.stdout.read(frame.get("bytes", 0))
                self.received += line + content
                self.reply(frame, content)
            self.run.stdin.close()
        self.status = self.run.returncode

    def tell(self, head, content=b""):
        text = json.dumps(head, separators=(",", ":")).encode() + b"\n" + content
        self.sent += text
        self.run.stdin.write(text)
        self.run.stdin.flush()

    def reply(self, frame, content):
        match frame["frame"]:
            case "begin":
                assert frame == {"frame": "begin", "version": 2}, frame
                self.tell(self.settings)
            case "request":
                self.requests.append((frame["method"], frame["url"], frame["headers"], content))
                try:
                    self.before(frame)
                    self.tell(self.answer(frame, content))
                except OSError:
                    self.tell({"frame": "failed"})
            case "more" if self.body:
                piece, self.body = self.body[:1 << 20], self.body[1 << 20:]
                self.tell({"frame": "piece", "bytes": len(piece)}, piece)
            case "more":
                self.tell({"frame": "end"})
            case _:
                assert frame["frame"] == "lines", frame
                self.lines = content.decode().splitlines()

    def answer(self, frame, content):
        url = urllib.parse.urlsplit(frame["url"])
        place = self.place if url.netloc == NAME else url.netloc
        if url.scheme == "https":
            connection = http.client.HTTPSConnection(place, timeout=30, context=self.tls)
        else:
            connection = http.client.HTTPConnection(place, timeout=30)
        with contextlib.closing(connection):
            connection.putrequest(frame["method"], url.path + (url.query and "?" + url.query), skip_host=True, skip_accept_encoding=True)
            headers = [("host", url.netloc), *frame["headers"]]
            if content and not any(name.lower() == "content-length" for name, _ in headers):
                headers.append(("content-length", str(len(content))))
            for name, value in headers:
                connection.putheader(name, value)
            connection.endheaders(content or None)
            answer = connection.getresponse()
            self.body = answer.read()
            kept = [[name, value] for name, value in answer.getheaders() if name.lower() not in DROPPED]
            return {"frame": "answer", "status": answer.status, "headers": kept}

    def bodies(self, part):
        """What was put at an address with this part, in order."""
        return [content for method, url, _, content in self.requests if method == "PUT" and part in url]

    def told(self, label):
        return [line.split()[1:] for line in self.lines if line.split()[0] == label]


# ---- what a registry has then


def skopeo(command, place, name, *words, credentials=None):
    given = ["--creds" if command == "inspect" else "--src-creds", credentials] if credentials else []
    unchecked = "--tls-verify=false" if command == "inspect" else "--src-tls-verify=false"
    flags = ["--raw"] if command == "inspect" else ["--quiet"]
    return ran("skopeo", command, *flags, unchecked, *given, f"docker://{place}/{name}", *words)


def sees_signature(pushes, place, manifest, credentials):
    """The registry has the payload, the configuration and their manifest, under the tag of the signatures of the digest."""
    tag = DIGEST.replace(":", "-") + ".sig"
    where = f"http://{NAME}/v2/app"
    assert pushes.told("signature") == [[f"{where}/blobs/{digest_of(b'{}')}", f"{where}/manifests/{digest_of(manifest)}"]], pushes.lines
    assert SIGNED in [content for method, _, _, content in pushes.requests if method == "PATCH"]
    [layer] = json.loads(manifest)["layers"]
    assert (layer["mediaType"], layer["digest"], layer["annotations"]) == (PAYLOAD, digest_of(SIGNED), {SIGNATURE: pushes.settings["signature"]}), layer
    assert skopeo("inspect", place, f"app:{tag}", credentials=credentials) == manifest


def verified(live, place, public):
    """What `roksnaep verify` says of the image by this key."""
    environment = getattr(live, "environment", os.environ)
    return ran(TOP / "bin/roksnaep", "verify", f"{place}/app:v1", "--key", public, env=environment).decode()


def sees(pushes, place, folder, credentials=None):
    """The registry has what the program pushed, and the program said so."""
    assert pushes.status == 0, (pushes.status, pushes.lines)
    built, kept, signatures, _ = pushes.bodies("/manifests/")
    blobs = [*LAYERS, next(content for method, _, _, content in pushes.requests if content.startswith(b'{"architecture"'))]
    digests = [digest_of(content) for content in blobs]
    where = f"http://{NAME}/v2/app"
    assert pushes.told("push") == [[f"{where}/blobs/{digests[2]}", f"{where}/manifests/{digest_of(built)}"]], pushes.lines
    assert pushes.told("manifest") == [[f"{where}/manifests/{digest_of(kept)}"]], pushes.lines
    there = [[digest, "is", "there"] for digest in digests]
    assert pushes.told("blob") == [*there, [ABSENT, "is", "not", "there"], *there], pushes.lines
    assert pushes.told("tag") == [["app", "v1"]], pushes.lines
    sees_signature(pushes, place, signatures, credentials)
    assert pushes.told("mount") == [["refused", "SpecViolationError"], *([digest] for digest in digests)], pushes.lines
    [[refused, kind, status, size]] = pushes.told("index")
    assert (refused, kind, status) == ("refused", "ServerError", "400") and int(size) > 0, pushes.lines
    assert skopeo("inspect", place, "app:v1", credentials=credentials) == kept and digest_of(kept) == DIGEST
    assert json.loads(kept) == json.loads(built) | {"mediaType": MANIFEST} and kept.startswith(b"{\n  ")
    assert skopeo("inspect", place, f"app@{digest_of(built)}", credentials=credentials) == built
    skopeo("copy", place, "app:v1", f"dir:{folder}", credentials=credentials)
    assert [(folder / digest[7:]).read_bytes() for digest in digests] == blobs
    return pushes


@contextlib.contextmanager
def registry_in(folder, auth=""):
    folder.mkdir(parents=True)
    registry = Registry(folder, auth)
    try:
        yield registry
    finally:
        registry.stop()


def pushes_an_image(live):
    folder = live.folder / "pushes"
    with registry_in(folder) as registry:
        key, public = ephemeral(folder, "signer")
        pushes = sees(Pushes(registry.place, signature=signature_of(key, SIGNED)[SIGNATURE]), registry.place, folder / "copy")
        assert DIGEST in verified(live, registry.place, public)
        _, other = ephemeral(folder, "other")
        assert subprocess.run([TOP / "bin/roksnaep", "verify", f"{registry.place}/app:v1", "--key", other], capture_output=True).returncode == 1
        for digest in (digest_of(content) for content in LAYERS):
            assert asked(registry.place, "HEAD", f"/v2/mirror/blobs/{digest}")[0].status == 200
    return "\n    ".join(pushes.lines)


def pushes_by_a_password(live):
    folder = live.folder / "pushes-password"
    folder.mkdir()
    (folder / "users").write_text(f"user:{HASH}\n")
    with registry_in(folder / "registry", f"auth: {{htpasswd: {{realm: live, path: {folder}/users}}}}\n") as registry:
        sees(Pushes(registry.place, {"basic": ["user", "right password"]}), registry.place, folder / "copy", "user:right password")
    with registry_in(folder / "closed", f"auth: {{htpasswd: {{realm: live, path: {folder}/users}}}}\n") as registry:
        refused = Pushes(registry.place, {"basic": ["user", "wrong password"]})
        assert refused.status == 0 and all(line.split()[1] == "refused" for line in refused.lines), refused.lines
    return "\n    ".join(refused.lines)


def pushes_by_a_token_service(live):
    """The token that is asked for is one to pull and to push."""
    folder = live.folder / "pushes-tokens"
    folder.mkdir()
    key, certificate = folder / "tls.key", folder / "tls.pem"
    ran("openssl", "req", "-x509", "-newkey", "rsa:2048", "-nodes", "-keyout", key, "-out", certificate, "-subj", "/CN=localhost",
        "-addext", "subjectAltName=DNS:localhost", "-days", "2")
    scopes = []

    def give(at):
        query = urllib.parse.parse_qs(urllib.parse.urlsplit(at.path).query)
        if at.headers.get("authorization") != "Basic " + base64.b64encode(b"user:right password").decode():
            return at.answer(401, b'{"errors":[{"code":"UNAUTHORIZED"}]}')
        scopes.extend(query["scope"])
        now = int(time.time())
        parts = [scope.split(":") for scope in query["scope"]]
        access = [{"type": kind, "name": name, "actions": actions.split(",")} for kind, name, actions in parts]
        claims = {"iss": "live", "sub": "user", "aud": query["service"][0], "exp": now + 300, "nbf": now - 10, "iat": now, "jti": "x", "access": access}
        return at.answer(200, json.dumps({"token": json_token(key, certificate, claims)}).encode(), [("Content-Type", "application/json")])

    serves, trusts = ssl.SSLContext(ssl.PROTOCOL_TLS_SERVER), ssl.create_default_context(cafile=certificate)
    serves.load_cert_chain(certificate, key)
    with door({"/token": give}, tls=serves) as service:
        auth = f"auth: {{token: {{realm: 'https://{service}/token', service: live, issuer: live, rootcertbundle: {certificate}}}}}\n"
        with registry_in(folder / "registry", auth) as registry:
            pushes = Pushes(registry.place, {"basic": ["user", "right password"]}, trusts)
            assert pushes.status == 0 and pushes.told("tag") == [["app", "v1"]], pushes.lines
            # a mount would need a token for both repositories, and one is asked for
            assert set(scopes) == {f"repository:{name}:{actions}" for name in ("app", "mirror") for actions in ("pull", "pull,push")}, scopes
            assert all(told[:3] == ["refused", "ServerError", "401"] for told in pushes.told("mount")), pushes.lines
            raw = registry.blob_file(pushes.told("manifest")[0][0].rsplit("/", 1)[1]).read_bytes()
            assert raw == pushes.bodies("/manifests/")[1], raw
    return "\n    ".join([*pushes.lines, *sorted(set(scopes))])


def names_no_blob_that_broke_off(live):
    """The registry goes down between the first request of a blob and its bytes: no manifest is there afterwards."""
    folder = live.folder / "pushes-down"
    with registry_in(folder) as registry:
        pushes = Pushes(registry.place, before=lambda frame: registry.stop() if frame["method"] == "PATCH" else None)
        assert pushes.status == 0 and all(line.split()[1:] == ["refused", "TransportFault"] for line in pushes.lines), pushes.lines
        asked_for = [method for method, url, _, _ in pushes.requests if url != f"http://{NAME}/v2/"]
        assert asked_for[:3] == ["POST", "PATCH", "HEAD"] and len(pushes.bodies("/manifests/")) == 2, asked_for
        registry.start()
        asked(registry.place, "GET", "/v2/app/manifests/v1", expected=(404,))
    return "\n    ".join(pushes.lines)


CASES = [pushes_an_image, pushes_by_a_password, pushes_by_a_token_service, names_no_blob_that_broke_off]


def record(folder):
    """Writes the frames of a push to a plain registry."""
    with registry_in(folder / "recorded") as registry:
        pushes = sees(Pushes(registry.place), registry.place, folder / "recorded-copy")
    (FOLDER / "stdin").write_bytes(pushes.sent)
    (FOLDER / "stdout").write_bytes(pushes.received)


class Place:
    """What a case needs of tests/live: where its files are."""

    def __init__(self, folder):
        self.folder = folder


def main():
    options = argparse.ArgumentParser(description=__doc__, formatter_class=argparse.RawDescriptionHelpFormatter)
    options.add_argument("--program")
    options.add_argument("--record", action="store_true")
    options.add_argument("-v", action="store_true", dest="verbose", help="shows the program's lines")
    options.add_argument("names", nargs="*")
    option = options.parse_args()
    if option.program:
        os.environ["LIVE_PUSHES"] = option.program
    folder, failed = Path(tempfile.mkdtemp(prefix="roksnaep-pushes-")), 0
    try:
        for case in [case for case in CASES if not option.names or any(name in case.__name__ for name in option.names)]:
            name = case.__name__.replace("_", " ")
            try:
                told = case(Place(folder))
                print(f"{name}: as it should" + (f"\n    {told}" if option.verbose else ""), flush=True)
            except Exception as error:
                failed += 1
                print(f"{name}: {error!r} {getattr(error, 'stderr', '') or ''}", flush=True)
        if option.record:
            record(folder)
    finally:
        shutil.rmtree(folder, ignore_errors=True)
    return 1 if failed else 0


if __name__ == "__main__":
    sys.exit(main())
