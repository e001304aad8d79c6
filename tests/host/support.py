"""What the tests of the host share: a registry with one signed image, on a loopback socket, and runs of the command over it."""
import base64
import contextlib
import hashlib
import http.server
import json
import os
import subprocess
import sys
import tempfile
import threading
import unittest
from pathlib import Path

sys.dont_write_bytecode = True
HERE = Path(__file__).resolve().parent
TOP = HERE.parent.parent
sys.path.insert(0, str(TOP))

MANIFEST_TYPE = "application/vnd.oci.image.manifest.v1+json"
PAYLOAD_TYPE = "application/vnd.dev.cosign.simplesigning.v1+json"


def digest_of(content):
    return "sha256:" + hashlib.sha256(content).hexdigest()


def openssl(*words, **more):
    return subprocess.run(["openssl", *words], check=True, capture_output=True, **more).stdout


def manifest_of(config, layers, media_type="application/vnd.oci.image.layer.v1.tar", annotations=None):
    described = [{"mediaType": media_type, "digest": digest_of(x), "size": len(x)} | ({"annotations": annotations} if annotations else {}) for x in layers]
    return json.dumps({"schemaVersion": 2, "mediaType": MANIFEST_TYPE, "layers": described, "config": {
        "mediaType": "application/vnd.oci.image.config.v1+json", "digest": digest_of(config), "size": len(config)}}).encode()


CONFIG, LAYERS = b'{"architecture":"amd64","os":"linux"}', [b"first layer", os.urandom(3_000_000)]
MANIFEST = manifest_of(CONFIG, LAYERS)
IMAGE = [MANIFEST, CONFIG, *LAYERS]


class Registry(http.server.BaseHTTPRequestHandler):
    """A registry with one image; `ways` says how it answers badly, by a part of the path."""
    protocol_version = "HTTP/1.1"
    documents = {"/v2/app/manifests/v1": MANIFEST, f"/v2/app/manifests/{digest_of(MANIFEST)}": MANIFEST} | {f"/v2/app/blobs/{digest_of(x)}": x for x in [CONFIG, *LAYERS]}
    ways: dict = {}
    seen: list = []
    connections = 0

    def setup(self):
        super().setup()
        type(self).connections += 1

    def answer(self, status, content, headers=()):
        self.send_response(status)
        for name, value in headers:
            self.send_header(name, value)
        if not any(name.lower() in ("content-length", "transfer-encoding", "connection") for name, _ in headers):
            self.send_header("Content-Length", str(len(content)))
        self.end_headers()
        if self.command == "GET":
            self.wfile.write(content)

    def do_GET(self):
        self.seen.append((self.command, self.path, dict(self.headers)))
        for part, way in self.ways.items():
            if part in self.path:
                return way(self)
        return self.usual()

    def usual(self):
        content = self.documents.get(self.path)
        return self.answer(200, content) if content is not None else self.answer(404, b'{"errors":[]}')

    do_HEAD = do_GET

    def log_message(self, *_):
        pass


@contextlib.contextmanager
def registry(tls=None, documents=None, **ways):
    """Its place, and the class of its handlers."""
    handler = type("Handler", (Registry,), {"ways": {k.replace("_", "/"): v for k, v in ways.items()}, "seen": [], "connections": 0,
                                            "documents": Registry.documents | (documents or {})})
    server = http.server.ThreadingHTTPServer(("127.0.0.1", 0), handler)
    server.handle_error = lambda *_: None
    if tls:
        server.socket = tls.wrap_socket(server.socket, server_side=True)
    thread = threading.Thread(target=server.serve_forever, args=[0.05], daemon=True)
    thread.start()
    try:
        yield f"localhost:{server.server_port}", handler
    finally:
        server.shutdown()
        server.server_close()


class WithFolder(unittest.TestCase):
    """A folder with a key, and runs of the command in it, over a core that believes almost everything."""
    command: list = [TOP / "bin/roksnaep"]

    def setUp(self):
        kept = tempfile.TemporaryDirectory()
        self.addCleanup(kept.cleanup)
        self.folder = Path(kept.name)
        openssl("ecparam", "-name", "prime256v1", "-genkey", "-noout", "-out", self.folder / "private")
        self.key = self.folder / "public"
        openssl("ec", "-in", self.folder / "private", "-pubout", "-out", self.key)

    def signed(self, manifest=MANIFEST):
        """The documents of an image's signature, as cosign puts them under its tag."""
        payload = json.dumps({"critical": {"identity": {"docker-reference": ""}, "image": {"docker-manifest-digest": digest_of(manifest)},
                                           "type": "cosign container image signature"}, "optional": None}).encode()
        signature = base64.b64encode(openssl("dgst", "-sha256", "-sign", self.folder / "private", input=payload)).decode()
        self.signature = [manifest_of(b"{}", [payload], PAYLOAD_TYPE, {"dev.cosignproject.cosign/signature": signature}), b"{}", payload]
        return {f"/v2/app/manifests/{digest_of(manifest).replace(':', '-')}.sig": self.signature[0]} | {
            f"/v2/app/blobs/{digest_of(x)}": x for x in self.signature[1:]}

    def environment(self, fake="", **more):
        kept = {name: value for name, value in os.environ.items() if name in ("PATH", "LANG", "HOME")}
        return {name: value for name, value in (kept | {"ROKSNAEP_CORE": str(HERE / "fake_core.py"), "ROKSNAEP_PROGRAM": str(HERE / "fake_program.py"), "FAKE": fake, "DOCKER_CONFIG": str(self.folder)} | more).items() if value is not None}

    def start(self, *words, fake="", env=None, **more):
        return subprocess.Popen([*self.command, *words], stdin=subprocess.PIPE, stdout=more.pop("stdout", subprocess.PIPE),
                                stderr=subprocess.PIPE, text=True, cwd=self.folder, env=self.environment(fake, **(env or {})), **more)

    def run_it(self, *words, stdin="", **more):
        started = self.start(*words, **more)
        out, err = started.communicate(stdin, timeout=60)
        return started.returncode, out, err

    def pull(self, place, *words, out="out/image", **more):
        return self.run_it("pull", f"{place}/app:v1", "--key", str(self.key), "--out", out, *words, **more)

    def left(self, name="out"):
        """What a run has left in the folder of its target."""
        out = self.folder / name
        return sorted(os.listdir(out)) if out.exists() else []

    def blobs(self, layout):
        return {path.name for path in (self.folder / layout / "blobs/sha256").iterdir()}
