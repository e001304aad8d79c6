#!/usr/bin/python3
"""A core that believes almost everything: it requests an image and its signature, and hands it on. For tests of the host alone.

FAKE says how it misbehaves: `ends N` exits with a status after the settings, `garbage` writes what is not a frame, `frame JSON` writes this one,
`blobs N`, `check N` and `carry N` exit so when they get such a frame, `refused TEXT` refuses with this report, `settings` with a report of the settings, `early` exits with the half of a
document written. `last N FRAME` does what such a first frame asks for, and exits with N after the last frame (-9: is killed). `allow PART` allows each image of a review that
has this part in its name, without a question. `served N` exits with N after the reviews.
"""
import base64
import contextlib
import hashlib
import io
import json
import os
import re
import sys

ACCEPT = "application/vnd.docker.distribution.manifest.v2+json, application/vnd.docker.distribution.manifest.list.v2+json, " \
    "application/vnd.oci.image.manifest.v1+json, application/vnd.oci.image.index.v1+json"
INPUT, OUTPUT = sys.stdin.buffer, sys.stdout.buffer
LINE, CHUNK = 1 << 20, 1 << 20
OCI = "application/vnd.oci.image.manifest.v1+json"


class Refused(Exception):
    """Why the image is refused, as a report."""


def write(frame, body=b""):
    OUTPUT.write(json.dumps(frame).encode() + b"\n" + body)
    OUTPUT.flush()


def answered(frame, body=b""):
    """The host's answer to a frame, and its bytes."""
    write(frame, body)
    line = INPUT.readline(LINE)
    assert line.endswith(b"\n"), "a frame longer than a mebibyte, or none"
    answer = json.loads(line)
    content = INPUT.read(answer.get("bytes", 0))
    assert len(content) == answer.get("bytes", 0)
    return answer, content


class Pull:
    def __init__(self, settings):
        self.settings, self.layer = settings, ({"digest": "sha256:none", "annotations": {}}, b"")
        first, slash, rest = settings["reference"].partition("/")
        assert slash, "the fake core wants a registry in the reference"
        name, _, self.digest = rest.partition("@")
        self.repository, _, tag = name.partition(":")
        self.name = self.digest or tag or "latest"
        self.base = f"{settings['protocol']}://{first}/v2/{self.repository}"
        self.headers = [["user-agent", "fake"]]
        if settings["auth"] != "anonymous":
            pair = ":".join(settings["auth"]["basic"])
            self.headers.append(["authorization", "Basic " + base64.b64encode(pair.encode()).decode()])

    def get(self, url, method="GET", redirects=3):
        answer, _ = answered({"frame": "request", "method": method, "url": url, "headers": [*self.headers, ["accept", ACCEPT]]})
        if answer["frame"] == "failed":
            raise Refused(f'refused RegistryPullError "{self.settings["reference"]}" TransportFault\n')
        found = {name.lower(): value for name, value in answer["headers"]}
        if answer["status"] in (301, 302, 307, 308) and redirects:
            return self.get(found["location"], method, redirects - 1)
        if answer["status"] == 401:
            raise Refused(f'refused RegistryPullError "{self.settings["reference"]}" UnauthorizedError "{url}"\n')
        if answer["status"] != 200:
            raise Refused(f'refused RegistryFetchManifestError "{self.settings["reference"]}" ServerError {answer["status"]} "{url}" 0\n')
        return self.body() if method == "GET" else b""

    def body(self):
        pieces = []
        while True:
            answer, piece = answered({"frame": "more"})
            if answer["frame"] == "failed":
                raise Refused(f'refused RegistryPullError "{self.settings["reference"]}" TransportFault\n')
            if answer["frame"] == "end":
                return b"".join(pieces)
            pieces.append(piece)

    def blob(self, descriptor):
        content = self.get(f"{self.base}/blobs/{descriptor['digest']}")
        if "sha256:" + hashlib.sha256(content).hexdigest() != descriptor["digest"]:
            raise Refused(f'refused RegistryPullError "{self.settings["reference"]}" DigestError VerificationError "{descriptor["digest"]}" "sha256:other"\n')
        return content

    def signature(self, digest):
        """The digest of a signature under the digest's tag that the host calls valid; that of the image if there is none under it."""
        tag = f"{self.base}/manifests/{digest.replace(':', '-')}.sig"
        try:
            document = self.get(tag)
        except Refused:
            self.get_list(digest)
            return digest
        manifest, payload = json.loads(document), b""
        for descriptor in (manifest["config"], *manifest["layers"]):
            payload = self.get(f"{self.base}/blobs/{descriptor['digest']}")
            if "sha256:" + hashlib.sha256(payload).hexdigest() != descriptor["digest"]:
                raise Refused(f'refused RegistryPullError "{self.settings["reference"]}" DigestError VerificationError "{descriptor["digest"]}" "sha256:other"\n')
        signature = manifest["layers"][0]["annotations"]["dev.cosignproject.cosign/signature"]
        for key in self.settings["keys"]:
            if answered({"frame": "verify", "key": key, "signature": signature, "bytes": len(payload)}, payload)[0]["valid"]:
                self.layer = manifest["layers"][0], payload
                return manifest["layers"][0]["digest"]
        raise Refused(f'refused Unsatisfied "{digest}"\ncollected {manifest["layers"][0]["digest"]}\n')

    def get_list(self, digest):
        with contextlib.suppress(Refused):
            self.get(f"{self.base}/referrers/{digest}")

    def decided(self):
        """The digest, if there is a signature."""
        self.get(f"{self.base}/manifests/{self.name}", "HEAD")
        document = self.get(f"{self.base}/manifests/{self.name}")
        digest = "sha256:" + hashlib.sha256(document).hexdigest()
        if self.signature(digest) == digest:
            raise Refused(f'refused Unsatisfied "{digest}"\n')
        return digest

    def run(self, ends=True):
        self.get(f"{self.base}/manifests/{self.name}", "HEAD")
        document = self.get(f"{self.base}/manifests/{self.name}")
        manifest = json.loads(document)
        digest = "sha256:" + hashlib.sha256(document).hexdigest()
        signature = self.signature(digest)
        judged, _ = answered({"frame": "judge", "certificate": "AA==", "integrated_time": 1})
        assert judged == {"frame": "vouched", "vouched": None}
        is_whole = self.settings["frame"] == "settings"
        named = [("config", manifest["config"]), *(("layer", layer) for layer in manifest["layers"])]
        blobs = [(kind, blob, self.blob(blob)) for kind, blob in named if is_whole]
        layer, payload = self.layer
        sent = [({"frame": "document", "kind": "manifest", "media_type": manifest["mediaType"], "digest": digest, "bytes": len(document)}, document),
                ({"frame": "signature", "kind": "payload", "digest": layer["digest"], "annotations": layer["annotations"], "bytes": len(payload)}, payload)]
        for frame, content in sent[:1] if is_whole else sent:
            if os.environ.get("FAKE") == "early":
                write(frame, content[: len(content) // 2])
                sys.exit(0)
            write(frame, content)
        if not ends:
            return sent
        for kind, blob, content in blobs if self.settings.get("blobs") else ():
            head = {"frame": "blob", "kind": kind, "media_type": blob["mediaType"], "digest": blob["digest"], "bytes": len(content)}
            write(head, content)
        write({"frame": "pulled", "digest": digest, "manifest": digest, "signature": signature})


class Blobs(Pull):
    """The blobs of a range, one after another."""

    def __init__(self, given):
        super().__init__(given["settings"])
        manifest = given["manifest"]
        self.range, self.stood = [manifest["config"], *manifest["layers"]][given["first"]:given["end"]], []

    def get(self, url, method="GET", redirects=3):
        try:
            return super().get(url, method, redirects)
        except Refused as refused:  # whose print is that of an error of the registry alone
            raise Refused(re.sub("Registry\\w+Error \"[^\"]*\" ", "", str(refused))) from None

    def authorize(self):
        """The token step: a realm is asked for a token."""
        answer, _ = answered({"frame": "request", "method": "GET", "url": f"{self.base.partition('/v2/')[0]}/v2/", "headers": self.headers[:1]})
        challenge = {name.lower(): value for name, value in answer.get("headers", [])}.get("www-authenticate", "")
        named = dict(re.findall('(\\w+)="([^"]*)"', challenge))
        if challenge.startswith("Bearer") and "realm" in named:
            self.body()
            token = json.loads(self.get(f"{named['realm']}?service={named.get('service', '')}&scope=repository:{self.repository}:pull"))["token"]
            self.headers = [self.headers[0], ["authorization", f"Bearer {token}"]]

    def sized(self, blob):
        content = self.get(f"{self.base}/blobs/{blob['digest']}")
        if len(content) > blob["size"]:
            raise Refused("refused BodyTooLong\n")
        if hashlib.new(blob["digest"].partition(":")[0], content).hexdigest() != blob["digest"].partition(":")[2]:
            raise Refused(f'refused DigestError VerificationError "{blob["digest"]}" "sha256:other"\n')
        return content

    def run(self):
        try:
            self.authorize()
            for blob in self.range:
                self.sized(blob)
                self.stood.append(blob["digest"])
        finally:
            write({"frame": "stood", "digests": self.stood})


class Check:
    """An image that the host has: its signature, and the bytes of the blobs of a range."""

    def __init__(self, given):
        self.given, self.entry = given, given["entry"]
        manifest = json.loads(self.entry["manifest"])
        self.range = [manifest["config"], *manifest["layers"]][given["first"]:given["end"]]

    def stands(self, blob):
        content = b""
        write({"frame": "want", "digest": blob["digest"]})
        while (part := answered({"frame": "more"}))[0]["frame"] == "piece":
            content += part[1]
        return part[0]["frame"] == "end" and len(content) == blob["size"] and "sha256:" + hashlib.sha256(content).hexdigest() == blob["digest"]

    def run(self):
        signed = any(Lock.signed(self, key, self.entry["signature"]) for key in self.given["settings"]["keys"])
        fallen = next((blob["digest"] for blob in self.range if not self.stands(blob)), "") if signed else ""
        verdict = {"verdict": "blob", "digest": fallen} if fallen else {"verdict": "holds" if signed else "documents"}
        write({"frame": "checked"} | verdict)
        if verdict["verdict"] != "holds":
            sys.exit(1)


class Target:
    """Where a copy goes."""

    def __init__(self, given):
        registry, _, rest = given["reference"].partition("/")
        self.reference, (self.repository, _, self.tag), self.headers = given["reference"], rest.partition(":"), [["user-agent", "fake"]]
        self.origin = f"{given['protocol']}://{registry}"
        self.base = f"{self.origin}/v2/{self.repository}"
        if given["auth"] != "anonymous":
            self.headers.append(["authorization", "Basic " + base64.b64encode(":".join(given["auth"]["basic"]).encode()).decode()])
        self.is_authorized = False

    def authorize(self):
        """The token step: a realm is asked for a token."""
        self.is_authorized = True
        answer, _ = answered({"frame": "request", "method": "GET", "url": f"{self.origin}/v2/", "headers": self.headers[:1]})
        challenge = {name.lower(): value for name, value in answer.get("headers", [])}.get("www-authenticate", "")
        named = dict(re.findall('(\\w+)="([^"]*)"', challenge))
        if challenge.startswith("Bearer") and "realm" in named:
            self.ask("GET", f"{named['realm']}?service={named.get('service', '')}&scope=repository:{self.repository}:pull,push")
            token = json.loads(answered({"frame": "more"})[1])["token"]
            self.headers = [self.headers[0], ["authorization", f"Bearer {token}"]]

    def ask(self, method, url, body=b"", headers=(), wanted=(200, 201, 202)):
        """The headers of the answer, or nothing if it is 404."""
        if not self.is_authorized:
            self.authorize()
        head = {"frame": "request", "method": method, "url": url, "headers": [*self.headers, *headers]} | ({"bytes": len(body)} if body else {})
        answer, _ = answered(head, body)
        if answer["frame"] == "failed":
            raise Refused("refused TransportFault\n")
        if answer["status"] == 401:
            raise Refused(f'refused UnauthorizedError "{url}"\n')
        if answer["status"] not in (*wanted, 404):
            raise Refused(f'refused RegistryError 1 "{url}"\n')
        return {name.lower(): value for name, value in answer["headers"]} if answer["status"] != 404 else None

    def has(self, digest):
        return self.ask("HEAD", f"{self.base}/blobs/{digest}") is not None

    def refuse_other(self, name, digest):
        """Refuses a copy if a tag is there with another digest."""
        found = (self.ask("HEAD", f"{self.base}/manifests/{name}") or {}).get("docker-content-digest", digest)
        if found != digest:
            raise Refused(f'refused Taken "{self.base.partition("/v2/")[0].partition("://")[2]}/{self.repository}:{name}" "{found}"\n')

    def location(self, headers):
        return headers["location"] if "://" in headers["location"] else self.origin + headers["location"]

    def push(self, stream):
        """Pushes what a stream gives under its own digest."""
        digest, start = hashlib.sha256(), 0
        at = self.location(self.ask("POST", f"{self.base}/blobs/uploads/", headers=[["content-length", "0"]]))
        while part := stream.read(CHUNK):
            kind = [["content-type", "application/octet-stream"], ["content-range", f"{start}-{start + len(part) - 1}"], ["content-length", str(len(part))]]
            at, start = self.location(self.ask("PATCH", at, part, kind)), start + len(part)
            digest.update(part)
        self.ask("PUT", f"{at}{'&' if '?' in at else '?'}digest=sha256:{digest.hexdigest()}", headers=[["content-length", "0"]])
        return f"sha256:{digest.hexdigest()}"

    def put(self, name, content, kind):
        if self.ask("PUT", f"{self.base}/manifests/{name}", content, [["content-type", kind]]) is None:
            raise Refused(f'refused RegistryError 1 "{self.base}/manifests/{name}"\n')
        return "sha256:" + hashlib.sha256(content).hexdigest()


class Carry:
    """One blob, whose bytes come on a descriptor of their own: pushed if the target does not have it."""

    def __init__(self, given):
        assert set(given) == {"frame", "target", "digest", "size", "moment"} and re.fullmatch("sha256:[0-9a-f]{64}", given["digest"]), given
        self.target, self.digest = Target(given["target"]), given["digest"]

    def run(self):
        is_there = self.target.has(self.digest)
        if not is_there:
            with open(3, "rb") as stream:
                pushed = self.target.push(stream)
            if pushed != self.digest:
                raise Refused(f'refused DigestError VerificationError "{self.digest}" "{pushed}"\n')
        write({"frame": "carried", "digest": self.digest, "state": "there" if is_there else "pushed"})


class Copy:
    """A copy of an image with its signature, whose blobs the host has carried."""

    def __init__(self, given):
        self.given, self.target = given, Target(given["target"])

    def decide(self):
        """The frames of the documents and of the signature layer, each with its bytes; they are sent."""
        return Pull(self.given["settings"]).run(False)

    def run(self):
        documents = {frame["kind"] if frame["frame"] == "document" else "signature": (frame, content) for frame, content in self.decide()}
        manifest, (layer, payload) = documents["manifest"], documents["signature"]
        first = documents.get("index", manifest)
        self.target.tag = self.target.tag or "latest"
        write({"frame": "pulled", "digest": first[0]["digest"], "manifest": manifest[0]["digest"], "signature": layer["digest"]})
        write({"frame": "side", "side": "target"})
        name, signature = self.signature(first, layer, payload)
        if self.given["tag"] and not self.given["replace"]:
            self.target.refuse_other(self.target.tag, first[0]["digest"])
            if layer["kind"] == "payload":
                self.target.refuse_other(name, "sha256:" + hashlib.sha256(signature).hexdigest())
        assert answered({"frame": "carry"})[0] == {"frame": "carried"}
        named = json.loads(manifest[1])
        for digest in dict.fromkeys(blob["digest"] for blob in (*named["layers"], named["config"])):
            if not self.target.has(digest):
                raise Refused(f'refused Missing "{digest}"\n')
        pushed = []
        if first is not manifest or not self.given["tag"]:
            pushed.append(self.target.put(manifest[0]["digest"], manifest[1], manifest[0]["media_type"]))
        if self.given["tag"]:
            pushed += [self.target.push(io.BytesIO(payload)), self.target.push(io.BytesIO(b"{}")), self.target.put(self.target.tag, first[1], first[0]["media_type"]), self.target.put(name, signature, OCI)]
        write({"frame": "copied", "url": f"{self.target.base}/manifests/{first[0]['digest']}", "pushed": pushed})

    def signature(self, first, layer, payload):
        """Where the manifest of the signature is pushed, and its text."""
        digest, is_bundle, kind = first[0]["digest"], layer["kind"] == "bundle", "application/vnd.dev.sigstore.bundle.v0.3+json"
        more = {"artifactType": kind, "subject": {"mediaType": first[0]["media_type"], "digest": digest, "size": len(first[1])}} if is_bundle else {}
        content = json.dumps({"schemaVersion": 2, "mediaType": OCI, "layers": [
            {"mediaType": kind if is_bundle else "application/vnd.dev.cosign.simplesigning.v1+json", "digest": layer["digest"], "size": len(payload), "annotations": layer["annotations"]}],
            "config": {"mediaType": "application/vnd.oci.image.config.v1+json", "digest": "sha256:" + hashlib.sha256(b"{}").hexdigest(), "size": 2}} | more).encode()
        return "sha256:" + hashlib.sha256(content).hexdigest() if is_bundle else digest.replace(":", "-") + ".sig", content


class Lock:
    """A lock holds if a key has signed each of its entries."""

    def __init__(self, given):
        self.keys, self.entries = given["settings"]["keys"], json.loads(given["lock"])["entries"]

    def run(self):
        fails = [entry["image"] for entry in self.entries if not any(self.signed(key, entry["signature"]) for key in self.keys)]
        write({"frame": "lock"} | ({"verdict": "fails", "image": fails[0]} if fails else {"verdict": "holds"}))
        if fails:
            sys.exit(1)

    def signed(self, key, signature):
        content, by = signature["content"].encode(), signature["annotations"].get("dev.cosignproject.cosign/signature")
        return by and answered({"frame": "verify", "key": key, "signature": by, "bytes": len(content)}, content)[0]["valid"]


def words():
    """By the first frame."""
    return {"settings": Pull, "documents": Pull, "blobs": Blobs, "carry": Carry, "copy": Copy, "lockcheck": Lock, "check": Check}


class Reviews:
    """Admission reviews under the rules of the frame `admit`, as the core serves them."""

    def __init__(self, rules):
        self.rules = rules

    def verdict(self, image, moment):
        """The digest of an image that is allowed, or why it is denied."""
        place = image.partition("@")[0]
        place = place[: place.rindex(":")] if ":" in place.rpartition("/")[2] else place
        rule = next((rule for rule in self.rules if f"{place}/".startswith(f"{rule['images']}/")), None)
        word, _, part = os.environ.get("FAKE", "").partition(" ")
        if rule:
            write({"frame": "image", "image": image, "rule": rule["images"]})
        if word == "allow" and part in image:
            return f"sha256:{'0' * 64}", ""
        if not rule:
            return "", "NoRule"
        try:
            return Pull(rule["settings"] | {"reference": image, "moment": moment}).decided(), ""
        except Refused as refused:
            return "", str(refused).split("\n")[0].partition(" ")[2]

    def response(self, frame):
        try:
            review = json.loads(frame["review"])
            assert (review["apiVersion"], review["kind"]) == ("admission.k8s.io/v1", "AdmissionReview")
            uid, spec, images = review["request"]["uid"], review["request"]["object"]["spec"], []
            for member in ("initContainers", "containers", "ephemeralContainers"):
                images += [(one["name"], one["image"], f"/spec/{member}/{place}/image") for place, one in enumerate(spec.get(member, []))]
            images += [(one["name"], one["image"]["reference"], f"/spec/volumes/{place}/image/reference")
                       for place, one in enumerate(spec.get("volumes", [])) if "image" in one]
            assert spec["containers"] and all(isinstance(text, str) for text in [uid, *(text for _, text, _ in images)])
        except (ValueError, LookupError, TypeError, AttributeError, AssertionError, RecursionError):
            return {"frame": "unreadable"}
        verdicts = [self.verdict(image, frame["moment"]) for _, image, _ in images]
        said = {"allowed": not any(why for _, why in verdicts), "uid": uid}
        patch = [{"op": "replace", "path": place, "value": f"{image}@{digest}"} for (_, image, place), (digest, _) in zip(images, verdicts) if "@" not in image]
        if not said["allowed"]:
            said["status"] = {"message": "; ".join(f"{name}: {why}" for (name, _, _), (_, why) in zip(images, verdicts) if why)}
        elif frame["mutate"] and patch:
            said |= {"patch": base64.b64encode(json.dumps(patch).encode()).decode(), "patchType": "JSONPatch"}
        return {"frame": "response", "response": json.dumps({"apiVersion": "admission.k8s.io/v1", "kind": "AdmissionReview", "response": said})}

    def run(self, count):
        while count and (line := INPUT.readline(LINE)):
            assert line.endswith(b"\n"), "a frame longer than a mebibyte"
            write(self.response(json.loads(line)))
            count -= 1


def main():
    settings, _ = answered({"frame": "begin", "version": 1})
    word, _, rest = os.environ.get("FAKE", "").partition(" ")
    if word == "ends":
        return int(rest)
    if word == settings["frame"] and word in ("blobs", "carry", "check"):
        return int(rest)
    if word == "last" and rest.split()[1] == settings["frame"]:
        with contextlib.suppress(SystemExit):
            done(settings)
        status = int(rest.split()[0])
        return os.kill(os.getpid(), -status) if status < 0 else status
    if word == "garbage":
        OUTPUT.write(b"this is not a frame\n")
        return 0
    if word == "frame":
        write(json.loads(rest))
        return 0
    if settings["frame"] == "admit":
        Reviews(settings["rules"]).run(settings["reviews"])
        return int(rest) if word == "served" else 0
    return done(settings, word, rest)


def done(settings, word="", rest=""):
    """Does what the first frame asks for, and returns the status."""
    try:
        if word == "settings":
            raise Refused("refused Settings " + json.dumps(json.dumps(settings)) + "\n")
        words()[settings["frame"]](settings).run()
        return 0
    except Refused as refused:
        write({"frame": "refused", "report": rest.encode().decode("unicode_escape") if word == "refused" else str(refused)})
        return 1


if __name__ == "__main__":
    sys.exit(main())
