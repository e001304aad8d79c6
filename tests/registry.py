"""A registry on this machine, the servers between it and its clients, and images and signatures to put there: what tests/live is made of."""
import base64
import contextlib
import gzip
import hashlib
import http.client
import http.server
import json
import random
import socket
import ssl
import subprocess
import threading
import time
import urllib.parse

MANIFEST, CONFIG = "application/vnd.oci.image.manifest.v1+json", "application/vnd.oci.image.config.v1+json"
LAYER, INDEX = "application/vnd.oci.image.layer.v1.tar+gzip", "application/vnd.oci.image.index.v1+json"
PLAIN = "application/vnd.oci.image.layer.v1.tar"
PAYLOAD, SIGNATURE = "application/vnd.dev.cosign.simplesigning.v1+json", "dev.cosignproject.cosign/signature"
BUNDLE = "application/vnd.dev.sigstore.bundle.v0.3+json"
# of "right password", as htpasswd -B writes it
HASH = "$2b$05$D9GgeoNBjFuA0ysszaBlbuEhrUN/60QtUK.ztjUNAq1XLUqQCaeS6"


class Skipped(Exception):
    """Why a case cannot be tried on this machine."""


def digest_of(content):
    return "sha256:" + hashlib.sha256(content).hexdigest()


def ran(*words, **more):
    return subprocess.run([str(word) for word in words], check=True, capture_output=True, **more).stdout


def free_port():
    with socket.socket() as one:
        one.bind(("127.0.0.1", 0))
        return one.getsockname()[1]


def ephemeral(folder, name):
    """A new private key and its public one."""
    ran("openssl", "ecparam", "-name", "prime256v1", "-genkey", "-noout", "-out", folder / f"{name}.key")
    ran("openssl", "ec", "-in", folder / f"{name}.key", "-pubout", "-out", folder / f"{name}.pub")
    return folder / f"{name}.key", folder / f"{name}.pub"


def json_token(key, certificate, claims):
    """A JSON web token, signed with an RSA key whose certificate is in its head."""
    der = ssl.PEM_cert_to_DER_cert(certificate.read_text())
    parts = [{"typ": "JWT", "alg": "RS256", "x5c": [base64.b64encode(der).decode()]}, claims]
    text = b".".join(base64.urlsafe_b64encode(json.dumps(part).encode()).rstrip(b"=") for part in parts)
    return (text + b"." + base64.urlsafe_b64encode(ran("openssl", "dgst", "-sha256", "-sign", key, input=text)).rstrip(b"=")).decode()


# ---- an image as a layout, and its signature


def write_blob(folder, content):
    path = folder / "blobs/sha256" / digest_of(content)[7:]
    path.parent.mkdir(parents=True, exist_ok=True)
    path.write_bytes(content)
    return {"digest": digest_of(content), "size": len(content)}


def make_layout(folder, layers, architecture="amd64", media_type=LAYER):
    """An OCI image layout of these layers; the descriptor of its manifest."""
    plain = layers if media_type == PLAIN else [gzip.decompress(layer) for layer in layers]
    config = json.dumps({"architecture": architecture, "os": "linux", "config": {}, "rootfs": {
        "type": "layers", "diff_ids": [digest_of(layer) for layer in plain]}}).encode()
    manifest = json.dumps({"schemaVersion": 2, "mediaType": MANIFEST, "config": {"mediaType": CONFIG} | write_blob(folder, config),
                           "layers": [{"mediaType": media_type} | write_blob(folder, layer) for layer in layers]}).encode()
    named = {"mediaType": MANIFEST} | write_blob(folder, manifest)
    (folder / "oci-layout").write_text('{"imageLayoutVersion":"1.0.0"}')
    (folder / "index.json").write_text(json.dumps({"schemaVersion": 2, "manifests": [named]}))
    return named


def layers_of(seed, sizes):
    chance = random.Random(seed)
    return [gzip.compress(chance.randbytes(size), compresslevel=1, mtime=0) for size in sizes]


def asked(place, method, path, body=None, headers=(), expected=(200, 201, 202)):
    connection = http.client.HTTPConnection(place, timeout=30)
    connection.request(method, path, body, dict(headers))
    answer = connection.getresponse()
    content = answer.read()
    connection.close()
    assert answer.status in expected, (method, path, answer.status, content[:300])
    return answer, content


def put_blob(place, name, content, headers):
    answer, _ = asked(place, "POST", f"/v2/{name}/blobs/uploads/", b"", headers)
    where = urllib.parse.urlsplit(answer.getheader("Location"))
    asked(place, "PUT", f"{where.path}?{where.query}&digest={digest_of(content)}", content, dict(headers) | {"Content-Type": "application/octet-stream"})


def payload_of(place, name, digest, annotations=None):
    """What cosign signs of an image."""
    return json.dumps({"critical": {"identity": {"docker-reference": f"{place}/{name}"}, "image": {"docker-manifest-digest": digest},
                                    "type": "cosign container image signature"}, "optional": annotations}).encode()


def signature_of(key, payload):
    """The annotation of a payload that is signed with a key, by openssl."""
    return {SIGNATURE: base64.b64encode(ran("openssl", "dgst", "-sha256", "-sign", key, input=payload)).decode()}


def put_signatures(place, name, digest, signed, headers=()):
    """Puts payloads with their annotations where cosign puts them: under the tag of the digest."""
    config = json.dumps({"architecture": "", "os": "", "config": {}, "rootfs": {"type": "layers", "diff_ids": [digest_of(payload) for payload, _ in signed]}}).encode()
    manifest = json.dumps({
        "schemaVersion": 2, "mediaType": MANIFEST, "config": {"mediaType": CONFIG, "digest": digest_of(config), "size": len(config)},
        "layers": [{"mediaType": PAYLOAD, "digest": digest_of(payload), "size": len(payload), "annotations": annotations} for payload, annotations in signed],
    }).encode()
    for content in (config, *(payload for payload, _ in signed)):
        put_blob(place, name, content, headers)
    asked(place, "PUT", f"/v2/{name}/manifests/{digest.replace(':', '-')}.sig", manifest, dict(headers) | {"Content-Type": MANIFEST})


def sign(place, name, digest, key, annotations=None, headers=()):
    """Signs the digest as cosign does with a key."""
    payload = payload_of(place, name, digest, annotations)
    put_signatures(place, name, digest, [(payload, signature_of(key, payload))], headers)


def put_referrers(place, repository, digest, bundles):
    """Bundles as referrers of a digest: as the list under its tag, since this registry has no list of referrers."""
    entries = []
    for bundle in bundles:
        for content in (b"{}", bundle):
            put_blob(place, repository, content, {})
        manifest = json.dumps({"schemaVersion": 2, "mediaType": MANIFEST, "artifactType": BUNDLE, "subject": {"mediaType": MANIFEST, "digest": digest, "size": 1},
                               "config": {"mediaType": "application/vnd.oci.empty.v1+json", "digest": digest_of(b"{}"), "size": 2},
                               "layers": [{"mediaType": BUNDLE, "digest": digest_of(bundle), "size": len(bundle)}]}).encode()
        asked(place, "PUT", f"/v2/{repository}/manifests/{digest_of(manifest)}", manifest, {"Content-Type": MANIFEST})
        entries.append({"mediaType": MANIFEST, "artifactType": BUNDLE, "digest": digest_of(manifest), "size": len(manifest)})
    index = json.dumps({"schemaVersion": 2, "mediaType": INDEX, "manifests": entries}).encode()
    asked(place, "PUT", f"/v2/{repository}/manifests/{digest.replace(':', '-')}", index, {"Content-Type": INDEX})


# ---- a registry, and the servers between it and its clients


class Registry:
    """Debian's docker-registry on a free port of this machine."""

    def __init__(self, folder, auth="", tls=""):
        self.folder, self.port = folder, free_port()
        folder.mkdir(parents=True, exist_ok=True)
        (folder / "registry.yml").write_text(
            f"version: 0.1\nlog: {{level: warn}}\nstorage: {{filesystem: {{rootdirectory: {folder}/files}}, delete: {{enabled: true}}}}\n"
            f"http: {{addr: '127.0.0.1:{self.port}', secret: x{tls}}}\n{auth}")
        self.place = f"localhost:{self.port}"
        self.start()

    def start(self):
        with open(self.folder / "log", "ab") as log:
            self.process = subprocess.Popen(["docker-registry", "serve", str(self.folder / "registry.yml")], stdout=log, stderr=log)
        for _ in range(200):
            with contextlib.suppress(OSError):
                socket.create_connection(("127.0.0.1", self.port), timeout=1).close()
                return
            time.sleep(0.05)
        raise RuntimeError(f"docker-registry does not answer: {(self.folder / 'log').read_text()}")

    def stop(self):
        self.process.terminate()
        self.process.wait()

    def blob_file(self, digest):
        return self.folder / "files/docker/registry/v2/blobs/sha256" / digest[7:9] / digest[7:] / "data"


def chunked_body(stream):
    """A body in chunks (RFC 9112, 7.1)."""
    parts = []
    while size := int(stream.readline().partition(b";")[0], 16):
        parts.append(stream.read(size))
        stream.readline()
    stream.readline()
    return b"".join(parts)


class Door(http.server.BaseHTTPRequestHandler):
    """Hands requests on to a registry, but for those that `ways` answers itself, by a part of the path."""
    protocol_version = "HTTP/1.1"
    ways, behind = {}, ""

    def do_GET(self):
        for part, way in self.ways.items():
            if part in self.path:
                return way(self)
        return self.hand_on()

    do_HEAD = do_POST = do_PUT = do_PATCH = do_GET

    def hand_on(self, path=None, cut=None, without=("host",)):
        connection = http.client.HTTPConnection(self.behind, timeout=30)
        body = self.rfile.read(int(self.headers.get("content-length") or 0))
        if self.headers.get("transfer-encoding") == "chunked":
            body = chunked_body(self.rfile)
        names = {name.lower() for name in self.headers} - {*without, "transfer-encoding", "content-length"}
        sent = {name: ", ".join(self.headers.get_all(name)) for name in names}
        connection.request(self.command, path or self.path, body or None, sent | ({} if body else {"Content-Length": "0"} if self.command not in ("GET", "HEAD") else {}))
        answer = connection.getresponse()
        content = answer.read()
        connection.close()
        headers = [(name, value) for name, value in answer.getheaders() if name.lower() not in ("connection", "transfer-encoding")]
        self.answer(answer.status, content[:cut], headers)
        self.close_connection = cut is not None

    def answer(self, status, content, headers=()):
        self.send_response(status)
        for name, value in headers:
            self.send_header(name, value)
        if not any(name.lower() == "content-length" for name, _ in headers):
            self.send_header("Content-Length", str(len(content)))
        self.end_headers()
        if self.command != "HEAD":
            self.wfile.write(content)

    def log_message(self, *_):
        pass


@contextlib.contextmanager
def door(ways, behind="", tls=None, port=0):
    handler = type("Before", (Door,), {"ways": ways, "behind": behind})
    server = http.server.ThreadingHTTPServer(("127.0.0.1", port), handler)
    server.handle_error = lambda *_: None
    if tls:
        server.socket = tls.wrap_socket(server.socket, server_side=True)
    threading.Thread(target=server.serve_forever, args=[0.05], daemon=True).start()
    try:
        yield f"localhost:{server.server_port}"
    finally:
        server.shutdown()
        server.server_close()
