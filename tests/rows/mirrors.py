"""The cases of mirrors: what `mirror` writes of an image that is pulled from one recorded registry and pushed to another one.

What is pushed and where is written here from the rules of crates/pull_mirror/README.md, and what a target is asked from the OCI distribution
specification ("Pushing blobs", "Pushing manifests"): `Target` is a client of its own, which goes by the recorded answers and nothing else.
"""
import json
from urllib.parse import quote, urlsplit

from make import (
    BASE, BUNDLE, CERTIFICATE, CONFIG, CONTENT, ENTRY, IMAGE, LAYER, MANIFEST, PAYLOAD, REGISTRY, SIGNATURE, TOKEN, answer, base64_of, base_run, bundle, case, compact,
    descriptor, digest, entry, index_of, listing, log_body, log_entry, log_signs, manifest, payload, refers, requests, shelf_of, signed, write,
)
from locks import canonical

COPY = "localhost:6000"
UPLOAD = "/v2/copy/blobs/uploads/1"
CHUNK = 4194304
NOTES = {SIGNATURE: base64_of("sig1")}


# ---- what a client asks a target


class Refused(Exception):
    """The print of an error."""


class Violation(Refused):
    """Another 2xx status than the specification has."""


class Unlocated(Refused):
    """No location."""


def only_url(text):
    """Refuses a string that is not the URL of a request."""
    parts = urlsplit(text)
    if parts.scheme not in ("http", "https") or not parts.hostname or parts.username is not None:
        raise Refused(f"UrlParseError {compact(text)}")


def header(given, name):
    return next((value for other, value in given.get("headers", []) if other.lower() == name), None)


class Target:
    """A client of a registry with these answers, and what it asked so far."""

    def __init__(self, target):
        registry, slash, rest = target["reference"].partition("/")
        if not slash or not set(registry) & set(".:"):
            registry, rest = "index.docker.io", target["reference"] if slash else "library/" + target["reference"]
        self.repository, _, self.tag = rest.partition(":")
        self.tag = self.tag or "latest"
        self.base = f"{target.get('protocol', 'https')}://{registry}"
        self.auth, self.answers = target.get("auth", "anonymous"), list(target["answers"])
        self.given = isinstance(self.auth, dict) and "bearer" in self.auth
        self.lines = []

    def send(self, method, url):
        self.lines.append(f"{method} {url}")
        given = self.answers.pop(0) if self.answers else "fail"
        return None if given == "fail" else given

    def step(self):
        """The token step: a token is given until it expires, and a refusal gives none."""
        if self.given:
            return
        first = self.send("GET", f"{self.base}/v2/")
        asked = first and header(first, "www-authenticate")
        if asked and asked.startswith('Bearer realm="'):
            realm, _, rest = asked.removeprefix('Bearer realm="').partition('"')
            query = "?scope=" + quote(f"repository:{self.repository}:pull,push", safe="")
            if rest.startswith(',service="'):
                query += "&service=" + rest.removeprefix(',service="').rstrip('"')
            token = self.send("GET", realm + query)
            self.given = bool(token) and token["status"] == 200
        elif asked and isinstance(self.auth, dict):
            self.given = True

    def sent(self, method, url, expected):
        """The location that the answer names. A token step goes before a request to the registry alone."""
        only_url(url)
        there, here = urlsplit(url), urlsplit(self.base)
        if (there.hostname, there.port) == (here.hostname, here.port) and (here.scheme, there.scheme) != ("https", "http"):
            self.step()
        given = self.send(method, url)
        if given is None:
            raise Refused("TransportFault")
        if not 200 <= given["status"] < 300:
            pieces = given.get("pieces", [])
            if given.get("fault", len(pieces) + 1) <= len(pieces):
                raise Refused("TransportFault")
            raise Refused(f"ServerError {given['status']} {compact(url)} {sum(len(piece.encode()) for piece in pieces)}")
        if given["status"] != expected:
            raise Violation(f"SpecViolationError Status {expected} {given['status']} {compact(url)}")
        location = header(given, "location")
        if location is None:
            raise Unlocated("RegistryNoLocationError")
        if any(byte != 9 and not 32 <= byte <= 126 for byte in location.encode()):
            raise Refused(f"HeaderValueError {len(location.encode())}")
        return self.base + location if location.startswith("/") else location

    def begun(self):
        return self.sent("POST", f"{self.base}/v2/{self.repository}/blobs/uploads/", 202)

    def ended(self, location, name):
        only_url(location)
        return self.sent("PUT", location + ("&" if "?" in location else "?") + "digest=" + quote(name, safe=""), 201)

    def blob(self, name, content):
        try:
            location = self.begun()
            for _ in range(0, len(content.encode()), CHUNK):
                location = self.sent("PATCH", location, 202)
            self.ended(location, name)
        except Violation:
            location = self.begun()
            if not content:
                raise Refused("PushNoDataError") from None
            self.ended(location, name)

    def document(self, name, content):
        """At a tag, a document without a location stands by its digest."""
        url = f"{self.base}/v2/{self.repository}/manifests/{name}"
        try:
            return self.sent("PUT", url, 201)
        except Unlocated:
            if ":" in name:
                raise
            return url.removesuffix(name) + digest(content)


# ---- images


class Image:
    """A signed image in a registry in memory: its case, the report of its pull, and what a mirror of it pushes."""

    def __init__(self, config="{}", layers=(CONTENT,), first=None, found=None, by=None, names=None, platform=None, **others):
        """`found` is the manifest that an index led to, `by` a bundle in place of a payload, `names` are digests by other algorithms."""
        names = names or {}
        self.name = lambda content: names.get(content) or digest(content)
        self.config, self.layers = config, list(layers)
        self.first = first or manifest(config, [dict(descriptor(LAYER, layer), digest=self.name(layer)) for layer in layers])
        self.found = found
        self.tag = self.name(self.first).replace(":", "-")
        self.signature = text = payload(image=self.first).replace(digest(self.first), self.name(self.first))
        if by:
            self.signature, text = bundle(self.name(self.first), self.name(self.first).partition(":")[0])
        self.notes, self.kind = ({}, BUNDLE) if by else (NOTES, PAYLOAD)
        documents, blobs = [self.first] + ([found] if found else []), ["{}", config, *layers, self.signature]
        tags = {"v1": self.name(self.first)}
        signatures = refers(self.signature) if by else manifest("{}", [signed(self.signature)])
        if not by:
            tags[f"{self.tag}.sig"] = digest(signatures)
        shelf = shelf_of(tags, [*documents, signatures], blobs)
        if by:
            shelf["referrers"] = {self.name(self.first): index_of(descriptor(MANIFEST, signatures))}
        for content, name in names.items():
            for part in ("documents", "blobs"):
                if digest(content) in shelf[part]:
                    shelf[part][name] = shelf[part][digest(content)]
        others.setdefault("signatures", [{"key": "k1", "message": digest(text), "signature": "sig1"}])
        self.case = json.loads(case(None, shelf=shelf, platform=platform, **others))
        self.pull = ["moment 100"] + self.searched(signatures, by) + self.pulled() + self.told()

    def searched(self, signatures, by):
        kept = ["blobs/" + digest("{}"), "blobs/" + digest(self.signature)]
        # A tag has at most 128 characters, so that no signature tag of a SHA-512 digest is asked for.
        lines = requests(("HEAD", "manifests/v1"), *[f"manifests/{self.tag}.sig"] * (len(self.tag) < 125))
        if by:
            return lines + [f"GET {BASE}"] + requests(f"referrers/{self.name(self.first)}", "manifests/" + digest(signatures), *kept)
        return lines + requests(f"manifests/{self.tag}.sig", *kept) + listing(self.name(self.first))

    def pulled(self):
        documents = [self.first] + ([self.found] if self.found else [])
        return requests(*["manifests/" + self.name(d) for d in documents], *["blobs/" + self.name(b) for b in (self.config, *self.layers)])

    def told(self):
        lines = [f"ok {self.name(self.first)}", f"manifest {self.name(self.found or self.first)}", f"config {self.name(self.config)}"]
        return lines + [f"layer {self.name(layer)}" for layer in self.layers] + [f"signature {digest(self.signature)}"]

    def signature_document(self):
        """The manifest of the signature: one layer, and the configuration `{}`."""
        layer = descriptor(self.kind, self.signature, self.notes)
        found = {"schemaVersion": 2, "mediaType": MANIFEST, "config": descriptor(CONFIG, "{}"), "layers": [layer]}
        if self.kind == BUNDLE:
            kind = json.loads(self.first).get("mediaType", MANIFEST)
            found |= {"artifactType": BUNDLE, "subject": dict(descriptor(kind, self.first), digest=self.name(self.first))}
        return canonical(found)

    def pushes(self, tag):
        """Each blob by its digest, and each document by its digest and by where it stands."""
        blobs = [(self.name(b), b) for b in (*self.layers, self.config)] + [(digest(b), b) for b in (self.signature, "{}")]
        signature = self.signature_document()
        documents = [(self.name(self.found), self.name(self.found), self.found)] if self.found else []
        documents.append((self.name(self.first), tag, self.first))
        documents.append((digest(signature), digest(signature) if self.kind == BUNDLE else f"{self.tag}.sig", signature))
        return list(dict(blobs).items()), documents

    def mirror(self, target):
        """The lines of a mirror to this target, and its status."""
        client = Target(target)
        (blobs, documents), pushed, first = self.pushes(client.tag), [], None
        try:
            for name, content in blobs:
                pushed.append(name)
                client.blob(name, content)
            for name, where, content in documents:
                pushed.append(name)
                url = client.document(where, content)
                first = url if content == self.first else first
        except Refused as error:
            return self.pull + client.lines + [f"refused Push {compact(pushed[-1])} {error}"], 1
        return self.pull + client.lines + [f"pushed {name}" for name in pushed] + [f"mirrored {first}"], 0


# ---- answers


def located(status, location):
    return answer(status=status, headers=[["location", location]])


def uploaded(content, upload=UPLOAD):
    """The answers to a blob in chunks, each with its token step."""
    chunks = [located(202, upload)] * len(range(0, len(content.encode()), CHUNK))
    return [located(202, upload), *chunks, located(201, f"/v2/copy/blobs/{digest(content)}")]


def stepped(answers):
    return [given for one in answers for given in (TOKEN, one)]


def answers_for(image, tag="v1"):
    """The answers of a registry that takes everything."""
    blobs, documents = image.pushes(tag)
    return [given for _, content in blobs for given in uploaded(content)] + [located(201, f"/v2/copy/manifests/{name}") for name, _, _ in documents]


def target_of(answers, **others):
    found = {"reference": f"{COPY}/copy:v1", "protocol": "http", "auth": "anonymous", "answers": answers}
    found.update(others)
    return {name: value for name, value in found.items() if value is not None}


def mirror(title, image, answers, **others):
    target = target_of(answers, **others)
    write(f"mirrors/{title}", compact({"case": image.case, "target": target}), *image.mirror(target), args=["mirror"])


def refused(title, source, target, lines):
    write(f"mirrors/{title}", compact({"case": source, "target": target}), lines, 1, args=["mirror"])


def unread(title, value):
    write(f"mirrors/{title}", value if isinstance(value, str) else compact(value), [], 3, args=["mirror"])


# ---- the cases


def images():
    """What is pushed of which image."""
    base = Image()
    mirror("an_image", base, stepped(answers_for(base)))
    for title, found in [
        ("a_configuration_of_its_own", Image(config='{"os":"linux"}')),
        ("two_layers", Image(layers=["a", "b"])),
        ("two_layers_with_one_digest", Image(layers=["a", "b", "a"])),
        ("a_layer_that_is_the_configuration", Image(config="a", layers=["b", "a"])),
        ("an_empty_layer", Image(layers=["", "a"])),
        ("a_layer_of_two_chunks", Image(layers=["a" * (CHUNK + 1)])),
        ("a_layer_by_sha512", Image(layers=["a", "b"], names={"b": digest("b", "sha512")})),
        ("a_layer_that_is_the_signatures_configuration", Image(config='{"os":"linux"}', layers=["{}"])),
        ("a_bundle", Image(by=True)),
        ("a_manifest_without_media_type", Image(first=IMAGE.replace(f'"mediaType":"{MANIFEST}",', "", 1))),
        ("a_bundle_of_a_manifest_without_media_type", Image(first=IMAGE.replace(f'"mediaType":"{MANIFEST}",', "", 1), by=True)),
        ("a_manifest_with_spaces", Image(first=json.dumps(json.loads(IMAGE), indent=1))),
    ]:
        mirror(title, found, stepped(answers_for(found)))
    index = index_of(entry("arm64", "x"), entry("amd64", IMAGE))
    for title, by in [("an_image_of_an_index", None), ("an_image_of_an_index_with_a_bundle", True)]:
        found = Image(first=index, found=IMAGE, by=by, platform="linux/amd64")
        mirror(title, found, stepped(answers_for(found)))
    # A registry that wants the other entries too refuses the index, behind the manifest of its entry.
    found = Image(first=index, found=IMAGE, platform="linux/amd64")
    unknown = answer(compact({"errors": [{"code": "MANIFEST_BLOB_UNKNOWN", "message": "blob unknown to registry"}]}), status=400)
    mirror("an_index_whose_entries_the_target_wants", found, stepped(answers_for(found)[:-2] + [unknown]))
    # An image by another algorithm is signed, tagged and named by it.
    for title, algorithm, by in [("an_image_by_sha384", "sha384", None), ("an_image_by_sha384_with_a_bundle", "sha384", True), ("an_image_by_sha512_with_a_bundle", "sha512", True)]:
        found = Image(names={IMAGE: digest(IMAGE, algorithm)}, by=by)
        mirror(title, found, stepped(answers_for(found)))


def keyless():
    """A layer with a certificate and a log entry is pushed with all its annotations."""
    image = Image()
    note, _, text = log_entry(log_body(image.signature))
    image.notes = dict(NOTES, **{ENTRY: note, CERTIFICATE: "CERT"})
    signatures = manifest("{}", [descriptor(PAYLOAD, image.signature, image.notes)])
    shelf = image.case["shelf"]
    shelf["tags"][f"{image.tag}.sig"] = digest(signatures)
    shelf["documents"][digest(signatures)] = {"media_type": MANIFEST, "content": signatures}
    image.case |= {"keys": [], "constraints": [{"email": "a@b.example", "issuer": None}], "log_keys": {"ab": "lk"}, "vouched": [{"certificate": "CERT", "key": "ck", "email": "a@b.example"}]}
    image.case["signatures"] = [{"key": "ck", "message": digest(image.signature), "signature": "sig1"}, log_signs(text)]
    mirror("a_signature_with_a_certificate", image, stepped(answers_for(image)))


def targets():
    """Which references are targets, and with which credentials they are asked."""
    base = Image()
    whole, answers = stepped(answers_for(base)), answers_for(base)
    mirror("a_target_without_a_tag", base, whole, reference=f"{COPY}/copy")
    mirror("a_target_over_https", base, whole, protocol=None)
    mirror("a_target_in_another_repository_of_the_source", base, whole, reference=f"{REGISTRY}/other:v2")
    mirror("a_target_over_the_source", base, whole, reference=f"{REGISTRY}/app:v1")
    mirror("a_target_without_credentials", base, whole, auth=None)
    mirror("a_target_with_a_password_that_is_not_wanted", base, whole, auth={"basic": ["user", "secret"]})
    mirror("a_target_with_a_token_of_the_users", base, answers, auth={"bearer": "t0"})
    wanted = answer(status=401, headers=[["www-authenticate", 'Basic realm="copy"']])
    mirror("a_target_that_wants_the_password", base, [wanted, *answers], auth={"basic": ["user", "secret"]})
    token = answer('{"token":"t1"}')
    for title, realm in [("a_realm", "http://auth.example/token"), ("a_realm_at_the_source", f"http://{REGISTRY}/token")]:
        wanted = answer(status=401, headers=[["www-authenticate", f'Bearer realm="{realm}",service="copy.example"']])
        for kind, auth in [("", "anonymous"), ("_with_a_password", {"basic": ["user", "secret"]})]:
            mirror(f"a_target_with_{title}{kind}", base, [wanted, token, *answers], auth=auth)
        mirror(f"a_target_with_{title}_that_refuses", base, [given for one in answers for given in (wanted, answer("no", status=403), one)])
    # Neither is asked anything for a target by a digest, and nothing is told of the pull.
    for title, text in [
        ("by_a_digest", f"{COPY}/copy@{digest('c')}"),
        ("by_a_tag_and_a_digest", f"{COPY}/copy:v1@{digest('c')}"),
        ("by_a_long_digest", f"{COPY}/copy@{digest('c', 'sha512')}"),
    ]:
        refused(f"a_target_{title}", base.case, target_of([], reference=text), [f"refused Target {compact(text)}"])
    mirror("a_target_at_docker_hub", base, whole, reference="copy", protocol=None)
    mirror("a_target_of_a_user_of_docker_hub", base, whole, reference="some/copy:v2", protocol=None)
    # The target comes before the policy.
    policy = dict(base.case, constraints=[])
    refused("a_target_by_a_digest_beside_a_policy_without_constraint", policy, target_of([], reference=f"{COPY}/copy@{digest('c')}"), [f"refused Target {compact(f'{COPY}/copy@' + digest('c'))}"])


def pulls():
    """A refused pull is reported alone."""
    base = Image()
    answers = answers_for(base)
    refused("a_policy_without_constraint", dict(base.case, constraints=[]), target_of(answers), ["moment 100", "refused EmptyPolicy"])
    told = base.pull[: base.pull.index(f"GET {BASE}app/manifests/{digest(IMAGE)}") - 1]
    lines = [f"refused Unsatisfied {compact(digest(IMAGE))}", f"collected {digest(base.signature)}"]
    refused("another_key", dict(base.case, keys=["k2"]), target_of(answers), told + lines)
    gone = json.loads(compact(base.case))
    gone["shelf"]["tags"] = {}
    lines = ["moment 100"] + requests(("HEAD", "manifests/v1"), "manifests/v1")
    url = compact(f"{BASE}app/manifests/v1")
    refused("an_image_that_is_missing", gone, target_of(answers), lines + [f'refused RegistryFetchManifestError "{REGISTRY}/app:v1" ServerError 404 {url} 0'])
    lost = json.loads(compact(base.case))
    del lost["shelf"]["blobs"][digest(CONTENT)]
    lines = base.pull[: base.pull.index(f"ok {digest(IMAGE)}")]
    error = f"RegistryPullError {compact(f'{REGISTRY}/app@{digest(IMAGE)}')} ServerError 404 {compact(BASE + 'app/blobs/' + digest(CONTENT))} 0"
    refused("a_layer_that_is_missing", lost, target_of(answers), lines + [f"refused {error}"])
    # Recorded answers in place of a registry in memory.
    answers, _, _ = base_run()
    found = Image()
    found.case = dict(json.loads(case(answers, [found.signature])))
    mirror("an_image_of_recorded_answers", found, stepped(answers_for(base)))
    limited = Image(limit=10**6)
    mirror("a_limit_for_the_source", limited, stepped(answers_for(limited)))
    caching = Image(caching=True)
    mirror("a_client_that_keeps_answers", caching, stepped(answers_for(caching)))


def locations():
    """Where an upload goes on, as the answers say."""
    base = Image()
    blobs = [b for _, b in base.pushes("v1")[0]]
    ends = answers_for(base)[-2:]

    def uploads(title, upload, step=False):
        answers = [given for content in blobs for given in uploaded(content, upload)]
        there = upload.startswith("http") and not upload.startswith(f"http://{COPY}/")
        given = []
        for at, one in enumerate(answers):
            given += [one] if there and at % 3 else [TOKEN, one]
        mirror(title, base, given + stepped(ends))

    uploads("locations_with_a_query", UPLOAD + "?state=a%2Fb")
    uploads("locations_with_host", f"http://{COPY}{UPLOAD}")
    uploads("locations_on_another_host", "http://upload.example/1?x=y")
    uploads("locations_on_another_host_over_https", "https://upload.example/1")
    uploads("locations_at_the_source", f"http://{REGISTRY}/v2/app/blobs/uploads/1")
    over_http = [given for at, one in enumerate(answers_for(base)[:-2]) for given in ([one] if at % 3 else [TOKEN, one])]
    over_http = [located(one["status"], f"http://{COPY}{UPLOAD}") if one is not TOKEN else one for one in over_http]
    mirror("locations_over_http_of_a_target_over_https", base, over_http + stepped(ends), protocol=None)
    over_https = [located(one["status"], f"https://{COPY}{UPLOAD}") for one in answers_for(base)[:-2]]
    mirror("locations_over_https_of_a_target_over_http", base, stepped(over_https + ends))
    # A text that does not begin with a slash is a URL or nothing. The last location of a blob is not used, and that of the image is told as it is.
    for title, text in [("a_relative_location", "1"), ("an_empty_location", ""), ("a_location_without_host", "http://"), ("a_location_of_another_scheme", "ftp://upload.example/1"), ("a_location_with_a_user_name", "http://u:p@upload.example/1")]:
        for at in (2, 4, 6, 20, 22):
            answers = stepped(answers_for(base))
            answers[at - 1] = located(answers[at - 1]["status"], text)
            mirror(f"{title}_in_answer_{at:02}", base, answers)
    # Without one, a document stands at its tag by its digest; by a digest it is refused.
    answers = stepped(answers_for(base)[:-2] + [answer(status=201)] * 2)
    mirror("documents_without_location", base, answers)
    mirror("documents_without_location_at_the_latest_tag", base, answers, reference=f"{COPY}/copy")
    with_bundle = Image(by=True)
    mirror("a_bundle_without_location", with_bundle, stepped(answers_for(with_bundle)[:-1] + [answer(status=201)]))
    index = index_of(entry("amd64", IMAGE))
    found = Image(first=index, found=IMAGE, platform="linux/amd64")
    mirror("an_entry_without_location", found, stepped(answers_for(found)[:-3] + [answer(status=201)]))
    two = answer(status=201, headers=[["location", "/first"], ["location", "/second"]])
    mirror("a_document_with_two_locations", base, stepped(answers_for(base)[:-2] + [two, ends[1]]))
    mirror("a_document_on_another_host", base, stepped(answers_for(base)[:-2] + [located(201, "https://docs.example/v1"), ends[1]]))


def refusals():
    """One fault at each of the target's 22 requests. A token step that fails is ignored."""
    base = Image()
    whole = stepped(answers_for(base))
    listed = compact({"errors": [{"code": "DENIED", "message": "m"}]})
    for line in range(1, len(whole) + 1):
        changes = [("fails", "fail")]
        if line % 2:
            changes += [("is_refused", answer("no", status=403)), ("breaks", answer("x", status=200, fault=0))]
        else:
            changes += [
                ("breaks_at_once", answer("x", status=500, fault=0)),
                ("breaks_at_its_end", answer("x", status=500, fault=1)),
                ("is_refused", answer(listed, status=403)),
                ("is_a_fault_of_the_server", answer(status=500)),
                ("is_a_redirect", located(307, "http://other.example/")),
                ("has_another_status_of_success", located(204, UPLOAD)),
                ("has_no_location", dict(whole[line - 1], headers=[])),
                ("has_a_location_past_ascii", located(whole[line - 1]["status"], "/é")),
            ]
        for title, change in changes:
            mirror(f"answer_{line:02}_{title}", base, whole[: line - 1] + [change] + whole[line:])
    mirror("no_answer_is_left_for_a_target", base, [])
    mirror("answers_that_end_in_the_middle", base, whole[:9])


def other_statuses():
    """A registry that responds to an upload with another 2xx status is sent the blob whole."""
    base = Image()
    whole = answers_for(base)
    again = [located(202, UPLOAD), located(201, "/v2/copy/blobs/1")]
    for title, front in [("beginning", [located(201, UPLOAD)]), ("chunk", [whole[0], located(201, UPLOAD)]), ("end", [*whole[:2], located(202, UPLOAD)])]:
        mirror(f"another_status_at_the_{title}_of_an_upload", base, stepped(front + again + whole[3:]))
        mirror(f"another_status_at_the_{title}_and_again", base, stepped(front + [located(200, UPLOAD)]))
        mirror(f"another_status_at_the_{title}_and_a_refusal", base, stepped(front + [again[0], answer("no", status=500)]))
    every = [given for _ in range(3) for given in [whole[0], located(201, UPLOAD), *again]]
    mirror("another_status_at_each_chunk", base, stepped(every + whole[-2:]))
    empty = Image(layers=["", "a"])
    mirror("another_status_at_an_empty_layer", empty, stepped([located(200, UPLOAD), again[0]]))
    mirror("another_status_of_a_document", base, stepped(whole[:-2] + [located(200, "/v2/copy/manifests/v1")]))


def inputs():
    """Input that is not a case with one moment and a target."""
    base = Image()
    good, source = target_of(stepped(answers_for(base))), base.case
    for title, value in [
        ("no_target", {"case": source}),
        ("no_case", {"target": good}),
        ("another_member", {"case": source, "target": good, "at": 1}),
        ("a_target_of_null", {"case": source, "target": None}),
        ("a_case_alone", source),
        ("two_moments", {"case": dict(source, moments=[100, 200]), "target": good}),
        ("no_moment", {"case": dict(source, moments=[]), "target": good}),
        ("a_bad_case", {"case": dict(source, at=1), "target": good}),
        ("a_bad_case_beside_a_target_by_a_digest", {"case": dict(source, at=1), "target": dict(good, reference=f"{COPY}/copy@{digest('c')}")}),
        ("a_case_in_a_list", [source, good]),
    ]:
        unread(f"input_with_{title}", value)
    for title, members in [
        ("another_member", {"at": 1}),
        ("a_shelf", {"answers": None, "shelf": source["shelf"]}),
        ("answers_and_a_shelf", {"shelf": source["shelf"]}),
        ("no_answers", {"answers": None}),
        ("a_bad_answer", {"answers": [{"status": 1}]}),
        ("no_reference", {"reference": None}),
        ("a_reference_in_upper_case", {"reference": f"{COPY}/Copy:v1"}),
        ("an_empty_reference", {"reference": ""}),
        ("a_protocol_that_is_not_known", {"protocol": "ftp"}),
        ("credentials_without_password", {"auth": {"basic": ["user"]}}),
        ("a_limit", {"limit": 5}),
        ("a_moment", {"moments": [100]}),
    ]:
        changed = {name: value for name, value in dict(good, **members).items() if value is not None}
        unread(f"a_target_with_{title}", {"case": source, "target": changed})
    for title, member in [("reference", "reference"), ("protocol", "protocol"), ("credentials", "auth"), ("answers", "answers")]:
        unread(f"a_target_with_{title}_of_null", {"case": source, "target": dict(good, **{member: None})})
    unread("input_that_is_no_json", "{")
    write("mirrors/a_word_too_many", compact({"case": source, "target": good}), [], 2, args=["mirror", "mirror"])


def mirrors():
    images()
    keyless()
    targets()
    pulls()
    locations()
    refusals()
    other_statuses()
    inputs()
