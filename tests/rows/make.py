#!/usr/bin/env python3
"""Writes the recorded cases below this folder: TABLE/NAME with its stdin and stdout, its args where the word is another one
than `pull`, and its status where that is not 0.

They follow from the rules that the READMEs of recorded_case, pull_report and pull_run state and from the OCI specifications alone: digests are computed here, and nothing is
taken from what the program writes. `tests/rows/run` runs the program over them.
"""
import base64
import hashlib
import json
import os
import shutil

HERE = os.path.dirname(os.path.abspath(__file__))
REGISTRY = "localhost:5000"
BASE = f"http://{REGISTRY}/v2/"
LAYER = "application/vnd.oci.image.layer.v1.tar"
CONFIG = "application/vnd.oci.image.config.v1+json"
MANIFEST = "application/vnd.oci.image.manifest.v1+json"
INDEX = "application/vnd.oci.image.index.v1+json"
PAYLOAD = "application/vnd.dev.cosign.simplesigning.v1+json"
SIGNATURE = "dev.cosignproject.cosign/signature"
ENTRY = "dev.sigstore.cosign/bundle"
CERTIFICATE = "dev.sigstore.cosign/certificate"
BUNDLE = "application/vnd.dev.sigstore.bundle.v0.3+json"


def digest(content, algorithm="sha256"):
    content = content.encode() if isinstance(content, str) else content
    return f"{algorithm}:" + hashlib.new(algorithm, content).hexdigest()


def compact(value):
    return json.dumps(value, separators=(",", ":"), ensure_ascii=False)


def descriptor(kind, content, annotations=None):
    found = {"mediaType": kind, "digest": digest(content), "size": len(content.encode())}
    if annotations is not None:
        found["annotations"] = annotations
    return found


def manifest(config, layers):
    return compact({"schemaVersion": 2, "mediaType": MANIFEST, "config": descriptor(CONFIG, config), "layers": layers})


def image_of(content):
    """A manifest with one layer, and the tag of its signatures."""
    image = manifest("{}", [descriptor(LAYER, content)])
    return image, digest(image).replace(":", "-") + ".sig"


CONTENT = "hello world"
IMAGE, TAG = image_of(CONTENT)


def payload(optional=None, image=None):
    identity = {"docker-reference": f"{REGISTRY}/app"}
    named = {"docker-manifest-digest": digest(image or IMAGE)}
    critical = {"identity": identity, "image": named, "type": "cosign container image signature"}
    return compact({"critical": critical, "optional": optional})


def base64_of(text):
    return base64.b64encode(text.encode()).decode()


def signed(content, signature="sig1", **others):
    return descriptor(PAYLOAD, content, {SIGNATURE: base64_of(signature), **others})


def answer(body=None, name=None, status=200, **others):
    """An answer with this body and this digest header."""
    found = {"status": status}
    headers = others.pop("headers", [])
    if name is not None:
        headers = [["docker-content-digest", name]] + headers
    if headers:
        found["headers"] = headers
    if body:
        found["pieces"] = body if isinstance(body, list) else [body]
    found.update(others)
    return found


TOKEN = answer()
NAMED = answer(None, digest(IMAGE))


def served(content):
    """The answer to the token step's request, and the answer that gives this content."""
    return [TOKEN, answer(content, digest(content))]


def case(answers, payloads=(), constraints=None, **others):
    found = {
        "reference": f"{REGISTRY}/app:v1",
        "protocol": "http",
        "accepted": [LAYER],
        "moments": [100],
        "keys": ["k1"],
        "constraints": [{"annotations": {}}] if constraints is None else constraints,
        "signatures": [{"key": "k1", "message": digest(p), "signature": "sig1"} for p in payloads],
        "answers": answers,
    }
    found.update(others)
    return compact({name: value for name, value in found.items() if value is not None})


def requests(*paths):
    """Each request with the token step's before it."""
    lines = []
    for path in paths:
        method, where = path if isinstance(path, tuple) else ("GET", path)
        lines += [f"GET {BASE}", f"{method} {BASE}app/{where}"]
    return lines


NO_REFERRERS = [TOKEN] + [TOKEN, answer(status=404)] * 2


def listing(named):
    """The requests for the referrers of a digest if no list of them exists: a token step, the list and its tag."""
    return [f"GET {BASE}"] + requests(f"referrers/{named}", "manifests/" + named.replace(":", "-"))


def search(signatures, layers, image=None):
    """The answers and the requests of the search: the digest, the signatures' manifest twice, its blobs, and referrers."""
    image = image or IMAGE
    tag = digest(image).replace(":", "-") + ".sig"
    answers = [TOKEN, answer(None, digest(image))] + served(signatures) * 2 + served("{}")
    paths = [("HEAD", "manifests/v1"), f"manifests/{tag}", f"manifests/{tag}", "blobs/" + digest("{}")]
    for layer in layers:
        answers += served(layer)
        paths.append("blobs/" + digest(layer))
    return answers + NO_REFERRERS, requests(*paths) + listing(digest(image))


def write(name, stdin, lines, status=0, args=("pull",)):
    folder = os.path.join(HERE, name)
    os.makedirs(folder)
    parts = {"stdin": stdin, "stdout": "".join(f"{l}\n" for l in lines)}
    if list(args) != ["pull"]:
        parts["args"] = "".join(f"{a}\n" for a in args)
    if status != 0:
        parts["status"] = f"{status}\n"
    for part, text in parts.items():
        with open(os.path.join(folder, part), "w", encoding="utf-8") as f:
            f.write(text)


def image_lines(signature):
    return ["ok " + digest(IMAGE), "manifest " + digest(IMAGE), "config " + digest("{}"), "layer " + digest(CONTENT), "signature " + digest(signature)]


def base_run():
    """The answers and the requests of a pull of the image, and its signature."""
    signature = payload()
    answers, asked = search(manifest("{}", [signed(signature)]), [signature])
    answers += served(IMAGE) + served("{}") + served(CONTENT)
    asked += requests("manifests/" + digest(IMAGE), "blobs/" + digest("{}"), "blobs/" + digest(CONTENT))
    return answers, asked, signature


def both_kinds(layers):
    """A document that parses as a manifest with these layers and as an index without entries."""
    return compact({"schemaVersion": 2, "config": descriptor(CONFIG, "{}"), "layers": layers, "manifests": []})


def base_case():
    answers, asked, signature = base_run()
    return case(answers, [signature]), ["moment 100"] + asked + image_lines(signature)


def shelf_of(tags, documents, blobs, **others):
    """A registry in memory with these tags, documents and blobs, each by its digest."""
    held = {digest(d): {"media_type": json.loads(d).get("mediaType", MANIFEST), "content": d} for d in documents}
    found = {"repository": "app", "tags": tags, "documents": held, "blobs": {digest(b): b for b in blobs}, "referrers": {}}
    found.update(others)
    return found


def base_shelf(**others):
    signature = payload()
    signatures = manifest("{}", [signed(signature)])
    return shelf_of({"v1": digest(IMAGE), TAG: digest(signatures)}, [IMAGE, signatures], ["{}", CONTENT, signature], **others)


# ---- whole pulls


def pulls():
    answers, asked, signature = base_run()
    write("pulls/base_case", *base_case())
    # One client serves both moments, and asks all again, since no credentials are stored.
    lines = ["moment 100"] + asked + image_lines(signature) + ["moment 200"] + asked + image_lines(signature)
    write("pulls/two_moments", case(answers * 2, [signature], moments=[100, 200]), lines)
    split = [dict(a, pieces=[{"base64": base64.b64encode(c.encode()).decode()} for c in a["pieces"][0]]) if "pieces" in a else a for a in answers]
    write("pulls/bodies_in_pieces_of_one_character", case(split, [signature]), ["moment 100"] + asked + image_lines(signature))
    unnamed = [{"status": a["status"], "pieces": a["pieces"]} if "pieces" in a else a for a in answers]
    write("pulls/digests_named_by_no_header", case(unnamed, [signature]), ["moment 100"] + asked + image_lines(signature))
    longest = max(len(a["pieces"][0].encode()) for a in answers if "pieces" in a)
    write("pulls/a_limit_that_all_bodies_keep", case(answers, [signature], limit=longest), ["moment 100"] + asked + image_lines(signature))
    # Of a manifest no resolver of platforms is asked.
    for title, platform in [("a_platform", "linux/amd64"), ("a_platform_by_digest", {"digest": digest("x")})]:
        write(f"pulls/{title}_beside_a_manifest", case(answers, [signature], platform=platform), ["moment 100"] + asked + image_lines(signature))
    none = compact(dict(json.loads(case(answers, [signature])), platform=None))
    write("pulls/a_platform_of_null", none, ["moment 100"] + asked + image_lines(signature))
    # Redirects are followed, and the request that follows has no token step of its own.
    other, here = "http://cdn.example/l", f"{BASE}app/blobs/l"
    moved = answers[:-1] + [answer(None, None, 307, headers=[["location", other]]), answers[-1]]
    write("pulls/a_redirect_to_another_host", case(moved, [signature]), ["moment 100"] + asked + [f"GET {other}"] + image_lines(signature))
    moved = answers[:-1] + [answer(None, None, 302, headers=[["location", "l"]]), answers[-1]]
    write("pulls/a_redirect_to_a_relative_text", case(moved, [signature]), ["moment 100"] + asked + [f"GET {here}"] + image_lines(signature))
    again = [answer(None, None, 307, headers=[["location", other]])] * 11
    tag = compact(f"{REGISTRY}/app@{digest(IMAGE)}")
    lines = ["moment 100"] + asked + [f"GET {other}"] * 10 + [f"refused RegistryPullError {tag} ServerError 307 {compact(other)} 0"]
    write("pulls/eleven_redirects", case(answers[:-1] + again, [signature]), lines, 1)
    # Two redirects of two kinds, with a password: the same requests, whoever receives it.
    there = "http://mirror.example/l"
    moved = answers[:-1] + [answer(None, None, 307, headers=[["location", other]]), answer(None, None, 302, headers=[["location", there]]), answers[-1]]
    lines = ["moment 100"] + asked + [f"GET {other}", f"GET {there}"] + image_lines(signature)
    write("pulls/two_redirects_with_a_password", case(moved, [signature], auth={"basic": ["user", "secret"]}), lines)
    # A redirect that leads nowhere is an answer, and an error of a blob is reported with its list of errors, if it has one.
    url = compact(f"{BASE}app/blobs/{digest(CONTENT)}")
    listed = compact({"errors": [{"code": "ARTIFACT_LOCKED", "message": "m"}]})
    known = compact({"errors": [{"code": "BLOB_UNKNOWN", "message": "m"}]})
    for title, given, error in [
        ("a_redirect_without_location", answer(status=307), f"ServerError 307 {url} 0"),
        ("a_blob_that_is_not_found", answer("no", status=404), f"ServerError 404 {url} 2"),
        ("a_blob_that_is_not_found_with_an_error", answer(known, status=404), f"RegistryError 1 {url}"),
        ("a_blob_with_an_error_of_another_code", answer(listed, status=404), f"RegistryError 1 {url}"),
    ]:
        lines = ["moment 100"] + asked + [f"refused RegistryPullError {tag} {error}"]
        write(f"pulls/{title}", case(answers[:-1] + [given], [signature]), lines, 1)
    modules()
    docker_hub()
    twelve_layers()


def modules():
    """Images of one WebAssembly module, as an OCI manifest and as a Docker one."""
    wasm = "application/vnd.wasm.content.layer.v1+wasm"
    module = descriptor(wasm, CONTENT, {"org.opencontainers.image.title": "module.wasm"})
    for title, kind, config in [
        ("a_module", MANIFEST, "application/vnd.wasm.config.v1+json"),
        ("a_module_of_docker", "application/vnd.docker.distribution.manifest.v2+json", "application/vnd.docker.container.image.v1+json"),
    ]:
        image = compact({"schemaVersion": 2, "mediaType": kind, "config": descriptor(config, "{}"), "layers": [module]})
        signature = payload(image=image)
        answers, asked = search(manifest("{}", [signed(signature)]), [signature], image)
        answers += served(image) + served("{}") + served(CONTENT)
        asked += requests("manifests/" + digest(image), "blobs/" + digest("{}"), "blobs/" + digest(CONTENT))
        lines = ["ok " + digest(image), "manifest " + digest(image)] + image_lines(signature)[2:]
        write(f"pulls/{title}", case(answers, [signature], accepted=[wasm]), ["moment 100"] + asked + lines)


def docker_hub():
    """A name alone is one of Docker Hub's library, and so are the tags of signatures and of referrers that are built from it."""
    hub, name = "https://index.docker.io/v2/", "docker.io/library/alpine"
    answers, asked, signature = base_run()
    at_hub = [a.replace(f"{BASE}app/manifests/v1", f"{BASE}app/manifests/latest").replace(f"{BASE}app/", f"{hub}library/alpine/").replace(BASE, hub) for a in asked]
    for title, reference in [("a_name_alone", "alpine"), ("a_name_of_the_library", "library/alpine"), ("a_name_of_docker_io", "docker.io/alpine")]:
        write(f"pulls/{title}", case(answers, [signature], reference=reference, protocol=None), ["moment 100"] + at_hub + image_lines(signature))
    none = [TOKEN, answer(status=404)]
    url, fallback = f"{hub}library/alpine/manifests/{TAG}", [TOKEN, answer("no", status=500)]
    lines = ["moment 100"] + at_hub[:4] + at_hub[10:15] + ["refused Unsatisfied " + compact(digest(IMAGE))]
    lines += [f"skipped Source Tag Refused RegistryPullManifestError {compact(f'{name}:{TAG}')} ServerError 404 {compact(url)} 0"]
    of_tag = f"ServerError 500 {compact(url.removesuffix('.sig'))} 2"
    lines += [f"skipped Source Referrers Refused RegistryPullManifestError {compact(f'{name}@{digest(IMAGE)}')} {of_tag}"]
    given = [TOKEN, NAMED] + none + [TOKEN] + none + fallback
    write("pulls/a_name_alone_without_signatures", case(given, reference="alpine", protocol=None), lines, 1)


def twelve_layers():
    """An image as a registry of many users has it: one of eight platforms, twelve layers with annotations, with a token service."""
    gzipped, registry = LAYER + "+gzip", "https://index.docker.io/v2/"
    realm = "https://auth.docker.io/token"
    contents = [f"layer {i}\n" * (i + 1) for i in range(12)]
    image = compact({
        "schemaVersion": 2, "mediaType": MANIFEST, "config": descriptor(CONFIG, "{}"),
        "layers": [descriptor(gzipped, content, {"org.example.layer": str(i)}) for i, content in enumerate(contents)],
        "annotations": {"org.opencontainers.image.title": "app", "org.opencontainers.image.version": "1.2"},
    })
    others = ["386", "arm", "arm64", "mips64le", "ppc64le", "riscv64", "s390x"]
    index = index_of(*[entry(architecture, architecture) for architecture in others], entry("amd64", image))
    signature = payload(image=index)
    signatures, tag = manifest("{}", [signed(signature)]), digest(index).replace(":", "-")
    wanted = answer(status=401, headers=[["www-authenticate", f'Bearer realm="{realm}",service="registry.docker.io"']])
    given = answer(compact({"token": "e30.eyJleHAiOjE3MDAwMDAzMDB9.signature"}))
    # A token serves all requests, but that the list of referrers is requested with a new one.
    found = [signatures, signatures, "{}", signature, None, None, index, image, "{}", *contents]
    answers = [wanted, given, answer(None, digest(index))]
    answers += [answer(status=404) if content is None else answer(content, digest(content)) for content in found]
    answers[7:7] = [wanted, given]
    tokens = [f"GET {registry}", f"GET {realm}?scope=repository%3Alibrary%2Fapp%3Apull&service=registry.docker.io"]
    paths = [f"manifests/{tag}.sig"] * 2 + ["blobs/" + digest("{}"), "blobs/" + digest(signature)]
    later = ["referrers/" + digest(index), f"manifests/{tag}", "manifests/" + digest(index), "manifests/" + digest(image)]
    later += ["blobs/" + digest(content) for content in ("{}", *contents)]
    asked = tokens + [f"HEAD {registry}library/app/manifests/1.2"] + [f"GET {registry}library/app/{path}" for path in paths]
    asked += tokens + [f"GET {registry}library/app/{path}" for path in later]
    lines = ["moment 1700000000"] + asked + ["ok " + digest(index), "manifest " + digest(image), "config " + digest("{}")]
    lines += ["layer " + digest(content) for content in contents] + ["signature " + digest(signature)]
    members = {"reference": "docker.io/library/app:1.2", "protocol": "https", "moments": [1700000000], "accepted": [gzipped], "platform": "linux/amd64"}
    write("pulls/twelve_layers_behind_a_token_service", case(answers, [signature], **members), lines)


def shelves():
    """Pulls of a registry in memory."""
    answers, asked, signature = base_run()
    shelf = base_shelf()
    whole = ["moment 100"] + asked + image_lines(signature)
    write("shelves/base_case", case(None, [signature], shelf=shelf), whole)
    second = ["moment 200"] + asked + image_lines(signature)
    write("shelves/two_moments", case(None, [signature], shelf=shelf, moments=[100, 200]), whole + second)
    blob, other = f"{BASE}app/blobs/{digest(CONTENT)}", f"http://cdn.example/v2/app/blobs/{digest(CONTENT)}"
    moved = dict(shelf, redirects={blob: other})
    write("shelves/a_redirect_to_another_host", case(None, [signature], shelf=moved), ["moment 100"] + asked + [f"GET {other}"] + image_lines(signature))
    lines = ["moment 100"] + requests(("HEAD", "manifests/v1"), "manifests/v1")
    url = f"{BASE}app/manifests/v1"
    lines += [f'refused RegistryFetchManifestError "{REGISTRY}/app:v1" ServerError 404 "{url}" 0']
    write("shelves/another_repository", case(None, [signature], shelf=dict(shelf, repository="other")), lines, 1)
    # A tag whose digest does not name the document: a registry may say anything.
    lies = dict(shelf, documents=dict(shelf["documents"], **{digest(IMAGE): {"media_type": MANIFEST, "content": IMAGE + " "}}))
    tag = compact(f"{REGISTRY}/app@{digest(IMAGE)}")
    error = f"DigestError VerificationError {compact(digest(IMAGE))} {compact(digest(IMAGE + ' '))}"
    lines = ["moment 100"] + asked[: asked.index(f"GET {BASE}app/manifests/{digest(IMAGE)}") + 1] + [f"refused RegistryPullError {tag} {error}"]
    write("shelves/a_document_of_another_digest", case(None, [signature], shelf=lies), lines, 1)
    no_case = [
        ("answers_and_a_shelf", {"answers": [], "shelf": shelf}),
        ("neither_answers_nor_a_shelf", {}),
        ("a_shelf_of_null", {"shelf": {}}),
        ("a_shelf_without_referrers", {"shelf": {n: v for n, v in shelf.items() if n != "referrers"}}),
        ("a_shelf_with_another_member", {"shelf": dict(shelf, at=1)}),
        ("a_document_with_another_member", {"shelf": dict(shelf, documents={"d": {"media_type": "m", "content": "c", "at": 1}})}),
        ("a_document_without_content", {"shelf": dict(shelf, documents={"d": {"media_type": "m"}})}),
        ("a_tag_that_is_no_text", {"shelf": dict(shelf, tags={"v1": 1})}),
        ("redirects_of_null", {"shelf": dict(shelf, redirects=None)}),
        ("a_redirect_to_itself", {"shelf": dict(shelf, redirects={blob: blob})}),
        ("a_redirect_to_another_path", {"shelf": dict(shelf, redirects={blob: "http://cdn.example/x"})}),
        ("a_redirect_to_no_url", {"shelf": dict(shelf, redirects={blob: "x" + blob[4:]})}),
        ("a_redirect_to_another_text_of_its_url", {"shelf": dict(shelf, redirects={blob: other.replace("http", "HTTP")})}),
    ]
    for title, members in no_case:
        stdin = case(members.pop("answers", None), [signature], **members)
        write(f"shelves/{title}", stdin.replace('"shelf":{}', '"shelf":null'), [], 3)
    # Ten redirects lead, and eleven do not.
    hosts = [blob] + [f"http://h{i}.example/v2/app/blobs/{digest(CONTENT)}" for i in range(1, 12)]
    ten = dict(shelf, redirects=dict(zip(hosts[:10], hosts[1:11])))
    write("shelves/ten_redirects", case(None, [signature], shelf=ten), ["moment 100"] + asked + [f"GET {h}" for h in hosts[1:11]] + image_lines(signature))
    eleven = dict(shelf, redirects=dict(zip(hosts[:11], hosts[1:12])))
    write("shelves/eleven_redirects", case(None, [signature], shelf=eleven), [], 3)


# ---- bundles of referrers


def bundle(subject, kind="sha256", material=None):
    """A bundle about the image of this digest, and the text that its signature signs."""
    statement = compact({"_type": "https://in-toto.io/Statement/v1", "subject": [{"name": "app", "digest": {kind: subject.partition(":")[2]}}], "predicate": {}})
    envelope = {"payload": base64_of(statement), "payloadType": "application/vnd.in-toto+json", "signatures": [{"sig": base64_of("sig1")}]}
    content = compact({"mediaType": BUNDLE, "verificationMaterial": material or {}, "dsseEnvelope": envelope})
    return content, f"DSSEv1 28 application/vnd.in-toto+json {len(statement)} {statement}"


def refers(content):
    """A manifest with this bundle."""
    return manifest("{}", [descriptor(BUNDLE, content)])


def referrers():
    """Pulls of a registry in memory without signature tag."""
    content, text = bundle(digest(IMAGE))
    referrer = refers(content)
    signs = [{"key": "k1", "message": digest(text), "signature": "sig1"}]
    no_tag = requests(("HEAD", "manifests/v1"), f"manifests/{TAG}")
    tag = compact(f"{REGISTRY}/app:{TAG}")
    url = compact(f"{BASE}app/manifests/{TAG}")
    skipped_tag = f"skipped Source Tag Refused RegistryPullManifestError {tag} ServerError 404 {url} 0"
    listed = [f"GET {BASE}"] + requests(f"referrers/{digest(IMAGE)}")
    fallback = digest(IMAGE).replace(":", "-")
    unsatisfied = "refused Unsatisfied " + compact(digest(IMAGE))
    pulled = requests("manifests/" + digest(IMAGE), "blobs/" + digest("{}"), "blobs/" + digest(CONTENT))

    def asks(*contents):
        """The pull of a referrer with these bundles."""
        document = manifest("{}", [descriptor(BUNDLE, c) for c in contents])
        return requests("manifests/" + digest(document), *["blobs/" + digest(c) for c in ("{}",) + contents])

    def one(title, lines, signatures=signs, documents=(), blobs=(), tags=None, **others):
        """A pull of a shelf with these referrers, their documents and their blobs."""
        shelf = shelf_of(dict({"v1": digest(IMAGE)}, **(tags or {})), [IMAGE, *documents], ["{}", CONTENT, *blobs], **others)
        write(f"referrers/{title}", case(None, shelf=shelf, signatures=signatures), ["moment 100"] + no_tag + lines, 0 if lines[-1].startswith("signature") else 1)

    def answers_to(text):
        return {digest(IMAGE): text}

    found = asks(content) + pulled + image_lines(content)
    index = index_of(descriptor(MANIFEST, referrer))
    held = {"documents": [referrer], "blobs": [content]}
    one("a_bundle", listed + found, referrers=answers_to(index), **held)
    one("a_bundle_under_the_tag_of_referrers", listing(digest(IMAGE)) + found, documents=[referrer, index], blobs=[content], tags={fallback: digest(index)})
    one("a_bundle_that_no_key_signed", listed + asks(content) + [unsatisfied, "collected " + digest(content), skipped_tag], signatures=[], referrers=answers_to(index), **held)
    one("no_list", listing(digest(IMAGE)) + [unsatisfied, skipped_tag])
    one("an_empty_list", listed + [unsatisfied, skipped_tag], referrers=answers_to(index_of()))
    refused = f"skipped Source Referrers Refused RegistryPullManifestError {compact(REGISTRY + '/app@' + digest(IMAGE))} "
    one("a_manifest_under_the_tag_of_referrers", listing(digest(IMAGE)) + [unsatisfied, skipped_tag, refused + f"SpecViolationError ReferrersTag {compact(fallback)}"], documents=[referrer], tags={fallback: digest(referrer)})
    both = both_kinds([descriptor(BUNDLE, content)])
    one("a_list_that_does_not_read", listed + [unsatisfied, skipped_tag, refused + "ManifestParsingError 2"], referrers=answers_to("{}"))
    for title, text, error in [
        ("an_array_in_place_of_the_list", "[]", "ManifestParsingError 2"),
        ("a_manifest_in_place_of_the_list", referrer, f"ManifestParsingError {len(referrer)}"),
        ("a_list_that_is_a_manifest_too", both, f"AmbiguousManifest {len(both)}"),
    ]:
        one(title, listed + [unsatisfied, skipped_tag, refused + error], referrers=answers_to(text), **held)
    lines = listing(digest(IMAGE)) + [unsatisfied, skipped_tag, refused + f"AmbiguousManifest {len(both)}"]
    one("a_list_that_is_a_manifest_too_under_the_tag_of_referrers", lines, documents=[both], blobs=[content], tags={fallback: digest(both)})
    told = [f"skipped Referrer {compact(digest(both))} Refused RegistryPullError {compact(f'{REGISTRY}/app@{digest(both)}')} AmbiguousManifest {len(both)}"]
    lines = listed + requests("manifests/" + digest(both)) + [unsatisfied, skipped_tag] + told
    one("a_referrer_that_is_an_index_too", lines, documents=[both], blobs=[content], referrers=answers_to(index_of(descriptor(MANIFEST, both))))
    # An entry that is refused does not hide the others.
    other, third = manifest("{}", [descriptor(LAYER, "x")]), refers("third")
    entries = [dict(descriptor(MANIFEST, referrer), digest="x"), descriptor(MANIFEST, other), descriptor(MANIFEST, third), descriptor(MANIFEST, referrer)]
    by_other = compact(f"{REGISTRY}/app@{digest(other)}")
    lines = requests("manifests/" + digest(other), "blobs/" + digest("{}")) + asks("third") + asks(content)
    told = [f"skipped Referrer \"x\" NotAReference \"{REGISTRY}/app@x\""]
    told += [f"skipped Referrer {compact(digest(other))} Refused RegistryPullError {by_other} IncompatibleLayerMediaTypeError {compact(LAYER)}"]
    told += [f"skipped Layer Referrers {compact(digest('third'))} Unreadable Content"]
    many = {"documents": [other, third, referrer], "blobs": ["third", content]}
    one("entries_that_are_refused", listed + lines + [unsatisfied, "collected " + digest(content), skipped_tag] + told, signatures=[], referrers=answers_to(index_of(*entries)), **many)
    one("a_bundle_behind_entries_that_are_refused", listed + lines + pulled + image_lines(content), referrers=answers_to(index_of(*entries)), **many)
    unread = [dict(descriptor(MANIFEST, referrer), digest=f"x{i}") for i in range(1000)]
    told = [f'skipped Referrer "x{i}" NotAReference "{REGISTRY}/app@x{i}"' for i in range(1000)]
    one("a_thousand_entries", listed + [unsatisfied, skipped_tag] + told, referrers=answers_to(index_of(*unread)))
    elsewhere, signed_text = bundle(digest("x"))
    lines = listed + asks(elsewhere) + [unsatisfied, skipped_tag, f"skipped Layer Referrers {compact(digest(elsewhere))} OtherDigest"]
    one("a_bundle_of_another_image", lines, signatures=[{"key": "k1", "message": digest(signed_text), "signature": "sig1"}], referrers=answers_to(index_of(descriptor(MANIFEST, refers(elsewhere)))), documents=[refers(elsewhere)], blobs=[elsewhere])
    # By a digest of SHA-512 the tag of the signatures is too long, and is not requested.
    named = digest(IMAGE, "sha512")
    by_long, long_text = bundle(named, "sha512")
    shelf = shelf_of({"v1": named}, [refers(by_long)], ["{}", CONTENT, by_long], referrers={named: index_of(descriptor(MANIFEST, refers(by_long)))})
    shelf["documents"][named] = {"media_type": MANIFEST, "content": IMAGE}
    lines = ["moment 100"] + requests(("HEAD", "manifests/v1")) + [f"GET {BASE}"] + requests(f"referrers/{named}") + asks(by_long)
    answered = requests("manifests/" + named, "blobs/" + digest("{}"), "blobs/" + digest(CONTENT))
    answered += [f"ok {named}", f"manifest {named}"] + image_lines(by_long)[2:]
    long_tag = compact(f"{REGISTRY}/app:{named.replace(':', '-')}.sig")
    signs = [{"key": "k1", "message": digest(long_text), "signature": "sig1"}]
    write("referrers/a_bundle_of_an_image_by_sha512", case(None, shelf=shelf, signatures=signs), lines + answered)
    told = [f"refused Unsatisfied {compact(named)}", "collected " + digest(by_long), f"skipped Source Tag NotAReference {long_tag}"]
    write("referrers/a_tag_that_is_too_long", case(None, shelf=shelf, signatures=[]), lines + told, 1)
    # A bundle with its log entry.
    logged = {"body": base64_of("{}"), "integratedTime": 1, "logIndex": 2, "logID": "ab"}
    promise = {"signedEntryTimestamp": base64_of("set1")}
    material = {"tlogEntries": [{"inclusionPromise": promise, "logId": {"keyId": "qw=="}, "integratedTime": "1", "logIndex": "2", "canonicalizedBody": logged["body"]}]}
    entry_content, entry_text = bundle(digest(IMAGE), material=material)
    document = refers(entry_content)
    signs = [{"key": "k1", "message": digest(entry_text), "signature": "sig1"}, log_signs(json.dumps(logged, separators=(",", ":"), sort_keys=True))]
    shelf = shelf_of({"v1": digest(IMAGE)}, [IMAGE, document], ["{}", CONTENT, entry_content], referrers=answers_to(index_of(descriptor(MANIFEST, document))))
    lines = ["moment 100"] + no_tag + listed + asks(entry_content)
    write("referrers/a_bundle_with_its_log_entry", case(None, shelf=shelf, signatures=signs, log_keys={"ab": "lk"}), lines + pulled + image_lines(entry_content))
    told = [unsatisfied, skipped_tag, f'skipped Layer Referrers {compact(digest(entry_content))} UnknownLogKey "ab"']
    write("referrers/a_bundle_of_an_unknown_log", case(None, shelf=shelf, signatures=signs, log_keys={"cd": "lk"}), lines + told, 1)


# ---- chains that are held to a case


def chain_of(first, layers, signature, notes, image=None):
    """A chain from this document to an image with these layers."""
    found = {"digest": digest(first), "first": first, "config": "{}", "layers": layers}
    if image is not None:
        found["entry"] = {"digest": digest(image), "content": image}
    found["signature"] = {"kind": "payload", "content": signature, "annotations": notes}
    return found


def chains():
    signature = payload()
    notes = {SIGNATURE: base64_of("sig1")}
    policy = json.loads(case([], [signature]))
    chain = chain_of(IMAGE, [CONTENT], signature, notes)

    def one(title, status, chain, case=policy):
        lines = {0: ["chain holds"], 1: ["chain fails"], 3: []}[status]
        write(f"chains/{title}", compact({"case": case, "chain": chain}), lines, status, args=["check"])

    one("an_image", 0, chain)
    one("an_image_by_its_digest", 0, chain, dict(policy, reference=f"{REGISTRY}/app@{digest(IMAGE, 'sha512')}"))
    one("another_image_by_its_digest", 1, chain, dict(policy, reference=f"{REGISTRY}/app@{digest('x')}"))
    # Each part of the chain, broken once.
    other = payload(image="other")
    for title, changes in [
        ("another_digest", {"digest": digest("x")}),
        ("a_digest_by_sha512", {"digest": digest(IMAGE, "sha512")}),
        ("another_first_document", {"first": IMAGE + " "}),
        ("a_first_document_that_is_no_json", {"first": "x", "digest": digest("x")}),
        ("another_configuration", {"config": "x"}),
        ("another_layer", {"layers": ["x"]}),
        ("no_layers", {"layers": []}),
        ("a_layer_too_many", {"layers": [CONTENT, CONTENT]}),
        ("a_signature_of_another_image", {"signature": {"kind": "payload", "content": other, "annotations": notes}}),
        ("a_signature_of_other_bytes", {"signature": {"kind": "payload", "content": signature, "annotations": {SIGNATURE: base64_of("sig2")}}}),
        ("a_payload_without_signature", {"signature": {"kind": "payload", "content": signature, "annotations": {}}}),
        ("a_payload_as_a_bundle", {"signature": {"kind": "bundle", "content": signature, "annotations": notes}}),
        ("an_entry_beside_a_manifest", {"entry": {"digest": digest(IMAGE), "content": IMAGE}}),
    ]:
        one(title, 1, dict(chain, **changes))
    # And the policy and the tables that it is held to.
    for title, changes in [
        ("no_key", {"keys": []}),
        ("another_key", {"keys": ["k2"]}),
        ("no_constraint", {"constraints": []}),
        ("a_constraint_that_is_not_satisfied", {"constraints": [{"annotations": {"a": "1"}}]}),
        ("a_signature_that_is_not_valid", {"signatures": []}),
        ("a_layer_of_a_type_that_is_not_accepted", {"accepted": ["application/octet-stream"]}),
    ]:
        one(title, 1, chain, dict(policy, **changes))
    two = manifest("{}", [descriptor(LAYER, CONTENT), descriptor(LAYER, "second", {"a": "1"})])
    by_two = payload(image=two)
    signs = dict(policy, signatures=[{"key": "k1", "message": digest(by_two), "signature": "sig1"}])
    one("two_layers", 0, chain_of(two, [CONTENT, "second"], by_two, notes), signs)
    one("two_layers_in_another_order", 1, chain_of(two, ["second", CONTENT], by_two, notes), signs)
    one("a_layer_too_few", 1, chain_of(two, [CONTENT], by_two, notes), signs)
    old = compact(dict(json.loads(IMAGE), schemaVersion=1))
    by_old = payload(image=old)
    one("a_manifest_of_another_version", 1, chain_of(old, [CONTENT], by_old, notes), dict(policy, signatures=[{"key": "k1", "message": digest(by_old), "signature": "sig1"}]))
    # An index, of which the platform picks the manifest.
    index = index_of(entry("arm64", "x"), entry("amd64", IMAGE))
    by_index = payload(image=index)
    signs = dict(policy, signatures=[{"key": "k1", "message": digest(by_index), "signature": "sig1"}], platform="linux/amd64")
    indexed = chain_of(index, [CONTENT], by_index, notes, IMAGE)
    one("an_image_of_an_index", 0, indexed, signs)
    one("an_image_of_an_index_by_its_digest", 0, indexed, dict(signs, platform={"digest": digest(IMAGE)}))
    one("an_image_of_an_index_without_platform", 1, indexed, dict(signs, platform=None))
    one("an_image_of_an_index_for_another_platform", 1, indexed, dict(signs, platform="linux/arm64"))
    one("an_index_without_entry", 1, chain_of(index, [CONTENT], by_index, notes), signs)
    one("an_entry_of_other_bytes", 1, dict(indexed, entry={"digest": digest(IMAGE), "content": IMAGE + " "}), signs)
    one("an_entry_of_another_digest", 1, dict(indexed, entry={"digest": digest("x"), "content": IMAGE}), signs)
    # A certificate with its log entry.
    note, _, canonical = log_entry(log_body(signature))
    keyless = dict(policy, keys=[], constraints=[{"email": "a@b.example", "issuer": None}], log_keys={"ab": "lk"}, vouched=[{"certificate": "CERT", "key": "ck", "email": "a@b.example"}])
    keyless["signatures"] = [{"key": "ck", "message": digest(signature), "signature": "sig1"}, log_signs(canonical)]
    certified = chain_of(IMAGE, [CONTENT], signature, dict(notes, **{ENTRY: note, CERTIFICATE: "CERT"}))
    one("a_certificate", 0, certified, keyless)
    one("a_certificate_that_nobody_vouches_for", 1, certified, dict(keyless, vouched=[]))
    one("a_certificate_where_no_log_is_known", 1, certified, dict(keyless, log_keys={}))
    # Input that is not a case and a chain.
    for title, changes in [
        ("a_chain_with_another_member", {"at": 1}),
        ("an_entry_of_null", {"entry": None}),
        ("an_entry_without_digest", {"entry": {"content": IMAGE}}),
        ("a_kind_that_is_not_known", {"signature": dict(chain["signature"], kind="other")}),
        ("a_signature_without_annotations", {"signature": {"kind": "payload", "content": signature}}),
        ("layers_that_are_no_list", {"layers": CONTENT}),
        ("a_digest_that_is_no_text", {"digest": 1}),
    ]:
        one(title, 3, dict(chain, **changes))
    one("a_chain_without_configuration", 3, {n: v for n, v in chain.items() if n != "config"})
    one("a_case_without_moment", 3, chain, dict(policy, moments=[]))
    write("chains/a_case_alone", compact(policy), [], 3, args=["check"])
    write("chains/no_json", "x", [], 3, args=["check"])


def policies():
    signature = payload()
    write("policies/no_constraint", case([], [signature], constraints=[]), ["moment 100", "refused EmptyPolicy"], 1)
    unsatisfied = "refused Unsatisfied " + compact(digest(IMAGE))
    # One signature layer satisfies the first constraint, and another one the second.
    layers = [payload({"a": "1"}), payload({"b": "2"})]
    answers, asked = search(manifest("{}", [signed(s) for s in layers]), layers)
    constraints = [{"annotations": {"a": "1"}}, {"annotations": {"b": "2"}}]
    collected = ["collected " + digest(s) for s in layers]
    write("policies/each_layer_satisfies_one_constraint", case(answers, layers, constraints), ["moment 100"] + asked + [unsatisfied] + collected, 1)
    answers, asked = search(manifest("{}", [signed(signature)]), [signature])
    lines = ["moment 100"] + asked + [unsatisfied, "collected " + digest(signature)]
    write("policies/a_key_of_no_policy", case(answers, [signature], keys=["k2"]), lines, 1)
    write("policies/a_signature_that_is_not_valid", case(answers, []), lines, 1)
    other = payload(image="other")
    answers, asked = search(manifest("{}", [signed(other)]), [other])
    lines = ["moment 100"] + asked + [unsatisfied, f"skipped Layer Tag {compact(digest(other))} OtherDigest"]
    write("policies/a_signature_of_another_image", case(answers, [other]), lines, 1)
    bare = descriptor(PAYLOAD, signature)
    answers, asked = search(manifest("{}", [bare]), [signature])
    lines = ["moment 100"] + asked + [unsatisfied, f"skipped Layer Tag {compact(digest(signature))} NoSignature"]
    write("policies/a_payload_without_signature", case(answers, [signature]), lines, 1)


# ---- signature layers with log entries and certificates, and the constraints on whom certificates are for


def log_body(content, signature="sig1"):
    """What a log holds of a signature of this content, in base64."""
    hashed = {"hash": {"algorithm": "sha256", "value": digest(content).partition(":")[2]}}
    spec = {"data": hashed, "signature": {"content": base64_of(signature)}}
    return base64_of(compact({"apiVersion": "0.0.1", "kind": "hashedrekord", "spec": spec}))


def log_entry(body, timestamp="set1"):
    """The annotation with the entry, and the texts of its four members in that order and in canonical order."""
    members = {"logIndex": 2, "logID": "ab", "integratedTime": 1, "body": body}
    note = compact({"SignedEntryTimestamp": base64_of(timestamp), "Payload": members})
    return note, compact(members), json.dumps(members, separators=(",", ":"), sort_keys=True)


def log_signs(text, key="lk", signature="set1"):
    return {"key": key, "message": digest(text), "signature": signature}


def layer_case(notes, lines, signatures, keys=("k1",), constraints=None, **others):
    """A case with one signature layer with these annotations, its lines and its status."""
    signature = payload()
    answers, asked = search(manifest("{}", [signed(signature, **notes)]), [signature])
    if lines:
        lines = ["refused Unsatisfied " + compact(digest(IMAGE))] + lines
    else:
        image_answers, image_asked = base_run()[:2]
        answers, asked, lines = answers + image_answers[15:], asked + image_asked[15:], image_lines(signature)
    stdin = case(answers, keys=list(keys), constraints=constraints, signatures=signatures, **others)
    return stdin, ["moment 100"] + asked + lines


def layers():
    content = payload()
    by_key = {"key": "k1", "message": digest(content), "signature": "sig1"}
    by_certificate = dict(by_key, key="ck")
    skipped = f"skipped Layer Tag {compact(digest(content))} "
    collected = "collected " + digest(content)

    def one(title, notes, lines, signatures, **others):
        write(f"layers/{title}", *layer_case(notes, lines, signatures, **others), 1 if lines else 0)

    note, sent, canonical = log_entry(log_body(content))
    logged, known = {ENTRY: note}, {"ab": "lk"}
    one("a_log_entry", logged, [], [by_key, log_signs(canonical)], log_keys=known)
    one("a_log_entry_signed_as_it_came", logged, [skipped + "BadLogSignature"], [by_key, log_signs(sent)], log_keys=known)
    one("a_log_entry_of_an_unknown_log", logged, [skipped + 'UnknownLogKey "ab"'], [by_key, log_signs(canonical)], log_keys={"cd": "lk"})
    one("a_log_entry_where_no_log_is_known", logged, [], [by_key])
    one("a_log_entry_that_does_not_read", {ENTRY: "x"}, [skipped + "Unreadable LogEntry"], [by_key], log_keys=known)
    for title, body in [
        ("of_no_signature", base64_of("{}")),
        ("of_another_content", log_body(payload({"a": "1"}))),
        ("of_another_signature", log_body(content, "sig2")),
    ]:
        other, _, text = log_entry(body)
        one(f"a_log_entry_{title}", {ENTRY: other}, [skipped + f"OtherLogEntry {compact(body)}"], [by_key, log_signs(text)], log_keys=known)
    # What one check finds is reported before what the next one would find.
    other, sent, text = log_entry(base64_of("{}"))
    one("a_log_entry_of_an_unknown_log_before_its_signature", {ENTRY: other}, [skipped + 'UnknownLogKey "ab"'], [by_key], log_keys={"cd": "lk"})
    one("a_log_entry_without_signature_before_its_body", {ENTRY: other, CERTIFICATE: "CERT"}, [skipped + "BadLogSignature"], [by_key, log_signs(sent)], log_keys=known)

    # Certificates.
    logged[CERTIFICATE] = "CERT"
    vouched = {"certificate": "CERT", "key": "ck", "email": "a@b.example"}
    signs = [by_certificate, log_signs(canonical)]
    of_anyone = [{"email": "a@b.example", "issuer": None}]
    whole = {"keys": [], "constraints": of_anyone, "log_keys": known, "vouched": [vouched]}
    one("a_certificate", logged, [], signs, **whole)
    one("a_certificate_that_nobody_vouches_for", logged, [skipped + "NotVouched"], signs, **dict(whole, vouched=None))
    one("a_certificate_where_no_log_is_known", logged, [skipped + "NoLogEntry"], signs, **dict(whole, log_keys=None))
    one("a_certificate_of_an_unknown_log", logged, [skipped + 'UnknownLogKey "ab"'], signs, **dict(whole, log_keys={"cd": "lk"}))
    one("a_certificate_without_log_entry", {CERTIFICATE: "CERT"}, [skipped + "NoLogEntry"], signs, **whole)
    one("a_certificate_beside_a_key_of_the_policy", logged, [collected], [by_key, log_signs(canonical)], **dict(whole, keys=["k1"]))

    # Constraints on whom it is for.
    of_login = dict(vouched, url="https://ci.example/a", issuer="https://login.example")
    for title, constraint, stands in [
        ("an_email_of_its_issuer", {"email": "a@b.example", "issuer": "https://login.example"}, True),
        ("an_email_of_another_issuer", {"email": "a@b.example", "issuer": "https://other.example"}, False),
        ("another_email", {"email": "c@b.example", "issuer": None}, False),
        ("a_url_of_its_issuer", {"url": "https://ci.example/a", "issuer": "https://login.example"}, True),
        ("a_url_of_another_issuer", {"url": "https://ci.example/a", "issuer": "https://other.example"}, False),
        ("another_url", {"url": "https://ci.example/", "issuer": "https://login.example"}, False),
    ]:
        one(title, logged, [] if stands else [collected], signs, **dict(whole, constraints=[constraint], vouched=[of_login]))
    one("an_email_of_an_issuer_that_is_not_vouched", logged, [collected], signs, **dict(whole, constraints=[{"email": "a@b.example", "issuer": "i"}]))
    one("an_email_without_certificate", {}, [collected], [by_key], constraints=of_anyone)
    # A layer as current tools write it, with more members than are read.
    identity = {"url": "https://github.com/a/b/.github/workflows/c.yml@refs/heads/main", "issuer": "https://token.actions.githubusercontent.com"}
    log_id = "c0d23d6ad406973f9559f3ba2d1ca01f84147d8ffc5b8445c224f98b9591801d"
    pem = "-----BEGIN CERTIFICATE-----\nMIIC\n-----END CERTIFICATE-----\n"
    body = json.loads(base64.b64decode(log_body(content)))
    body["spec"]["signature"]["publicKey"] = {"content": base64_of(pem)}
    members = {"body": base64_of(compact(body)), "integratedTime": 1728000000, "logIndex": 137000000, "logID": log_id}
    notes = {ENTRY: compact({"SignedEntryTimestamp": base64_of("set1"), "Payload": members}), CERTIFICATE: pem, "dev.sigstore.cosign/chain": pem}
    text = json.dumps(members, separators=(",", ":"), sort_keys=True)
    one("a_keyless_signature", notes, [], [by_certificate, log_signs(text)], keys=[], constraints=[identity], log_keys={log_id: "lk"},
        vouched=[{"certificate": pem, "key": "ck", "email": None, **identity}])


# ---- images of an index


def entry(architecture, content):
    return dict(descriptor(MANIFEST, content), platform={"architecture": architecture, "os": "linux"})


def index_of(*entries):
    return compact({"schemaVersion": 2, "mediaType": INDEX, "manifests": list(entries)})


def indexes():
    index = index_of(entry("arm64", "x"), entry("amd64", IMAGE))
    behind = index_of(entry("amd64", index))
    by_x, by_image = {"digest": digest("x")}, {"digest": digest(IMAGE)}

    def one(title, first, platform, documents, lines):
        """A pull of this index, after which these documents are answered, each asked by its digest."""
        signature = payload(image=first)
        tag = digest(first).replace(":", "-") + ".sig"
        signatures = manifest("{}", [signed(signature)])
        answers = [TOKEN, answer(None, digest(first))] + served(signatures) * 2 + served("{}") + served(signature) + NO_REFERRERS + served(first)
        asked = requests(("HEAD", "manifests/v1"), f"manifests/{tag}", f"manifests/{tag}", "blobs/" + digest("{}"), "blobs/" + digest(signature))
        asked += listing(digest(first)) + requests("manifests/" + digest(first))
        for document in documents:
            answers += served(document)
            asked += requests("manifests/" + digest(document))
        if lines is None:
            answers += served("{}") + served(CONTENT)
            asked += requests("blobs/" + digest("{}"), "blobs/" + digest(CONTENT))
            lines = ["ok " + digest(first)] + image_lines(signature)[1:]
        else:
            lines = [f"refused RegistryPullError {compact(REGISTRY + '/app@' + digest(first))} {lines}"]
        write(f"indexes/{title}", case(answers, [signature], platform=platform), ["moment 100"] + asked + lines, 0 if lines[0].startswith("ok") else 1)

    one("an_image_by_its_platform", index, "linux/amd64", [IMAGE], None)
    one("an_image_by_its_digest", index, by_image, [IMAGE], None)
    one("another_system", index, "windows/amd64", [], 'ImageManifestNotFoundError ""')
    one("a_digest_of_no_entry", index, {"digest": digest("y")}, [], f"ImageManifestNotFoundError {compact(digest('y'))}")
    one("a_platform_with_a_variant", index, "linux/amd64/v2", [], 'ImageManifestNotFoundError ""')
    one("no_platform", index, None, [], "ImageIndexParsingNoPlatformResolverError")
    one("an_index_behind_an_index", behind, "linux/amd64", [index], f"ImageManifestNotFoundError {compact(digest(index))}")
    one("an_entry_that_is_no_document", index, by_x, ["x"], "VersionedParsingError 1")
    # An array is not a document, and a document that parses as both kinds is refused.
    both = both_kinds([descriptor(LAYER, CONTENT)])
    one("an_image_that_is_an_array", "[]", None, [], "VersionedParsingError 2")
    one("an_entry_that_is_an_array", index_of(entry("amd64", "[]")), "linux/amd64", ["[]"], "VersionedParsingError 2")
    one("an_image_that_is_an_index_too", both, None, [], f"AmbiguousManifest {len(both)}")
    one("an_entry_that_is_an_index_too", index_of(entry("amd64", both)), "linux/amd64", [both], f"AmbiguousManifest {len(both)}")


# ---- layers that may be somewhere else too


def elsewhere():
    """Pulls of an image whose layer's descriptor lists URLs, which are requested while the status is 4xx or 5xx."""
    web, second, other = "http://cdn.example/l", "https://cdn.example:8443/m?x=1", "ftp://cdn.example/l"
    secret, unreadable = "http://u:p@cdn.example/l", "http://[cdn.example/l"
    gone, down, given = answer(status=404), answer(status=503), answer(CONTENT, digest(CONTENT))

    def one(title, urls, at_registry, further, refused=None):
        """The registry's answer for the layer, and the URLs that are asked after it, each with its answer."""
        image = manifest("{}", [dict(descriptor(LAYER, CONTENT), urls=urls)])
        signature = payload(image=image)
        answers, asked = search(manifest("{}", [signed(signature)]), [signature], image)
        answers += served(image) + served("{}") + [TOKEN, at_registry] + [found for _, found in further]
        asked += requests("manifests/" + digest(image), "blobs/" + digest("{}"), "blobs/" + digest(CONTENT))
        asked += [f"GET {url}" for url, _ in further]
        lines = ["ok " + digest(image), "manifest " + digest(image)] + image_lines(signature)[2:]
        if refused is not None:
            lines = [f"refused RegistryPullError {compact(REGISTRY + '/app@' + digest(image))} {refused}"]
        write(f"elsewhere/{title}", case(answers, [signature]), ["moment 100"] + asked + lines, 0 if refused is None else 1)

    one("at_the_registry", [web], given, [])
    one("at_a_url", [web], gone, [(web, given)])
    one("at_a_url_after_a_fault_of_the_server", [web], down, [(web, given)])
    one("at_the_second_url", [web, second], gone, [(web, down), (second, given)])
    one("a_url_of_another_scheme", [other, web], gone, [(web, given)])
    one("a_redirect_from_a_url", [web], gone, [(web, answer(status=302, headers=[["location", second]])), (second, given)])
    one("a_url_with_a_user_name", [secret], gone, [], f"UrlParseError {compact(secret)}")
    one("a_url_that_does_not_read", [web, unreadable], gone, [(web, gone)], f"UrlParseError {compact(unreadable)}")
    one("a_url_that_does_not_read_and_is_not_looked_at", [web, unreadable], gone, [(web, given)])
    one("no_url_is_left", [web, other], gone, [(web, answer("no", status=502))], f"ServerError 502 {compact(web)} 2")
    one("a_status_that_is_no_error", [web], answer(status=304), [], f"ServerError 304 {compact(BASE + 'app/blobs/' + digest(CONTENT))} 0")
    one("other_bytes_at_a_url", [web], gone, [(web, answer("hello"))], f"DigestError VerificationError {compact(digest(CONTENT))} {compact(digest('hello'))}")
    one("a_send_to_the_registry_that_fails", [web], "fail", [], "TransportFault")
    one("a_body_of_an_error_that_fails", [web], answer("x", status=404, fault=0), [(web, given)])


# ---- the digest


def digests():
    url = compact(f"{BASE}app/manifests/v1")
    name = "sha256:ab"
    refused = [
        ("a_send_that_fails", "fail", "TransportFault"),
        ("status_401", answer(None, name, 401), f"UnauthorizedError {url}"),
        ("status_404", answer(None, name, 404), f"ServerError 404 {url} 0"),
        ("status_404_with_errors", answer('{"errors":[{"code":"NAME_UNKNOWN"},{"code":"DENIED"}]}', name, 404), f"RegistryError 2 {url}"),
        ("status_204", answer(None, name, 204), f"SpecViolationError Status 200 204 {url}"),
        ("status_500", answer("no", name, 500), f"ServerError 500 {url} 2"),
        ("a_digest_past_ascii", answer(None, "é"), "DigestError InvalidHeader 2"),
        ("a_body_that_fails", answer("x", name, fault=0), "TransportFault"),
    ]
    for title, head, text in refused:
        lines = ["moment 100"] + requests(("HEAD", "manifests/v1")) + [f'refused RegistryFetchManifestError "{REGISTRY}/app:v1" {text}']
        write(f"digests/{title}", case([TOKEN, head], accepted=[]), lines, 1)
    # The digest that is returned is malformed: the tag's reference with it does not parse to itself.
    answers = [TOKEN, answer(None, "sha256")]
    lines = ["moment 100"] + requests(("HEAD", "manifests/v1")) + [f'refused OciReferenceNotValidError "{REGISTRY}/app@sha256"']
    write("digests/no_digest_for_a_tag", case(answers), lines, 1)
    by_digest = f"{REGISTRY}/app@{digest(IMAGE)}"
    lines = ["moment 100"] + requests(("HEAD", "manifests/" + digest(IMAGE)))
    lines += [f"refused RegistryFetchManifestError {compact(by_digest)} DigestError MissingAlgorithm"]
    write("digests/no_digest_for_a_digest", case(answers, reference=by_digest), lines, 1)
    answers = [TOKEN, answer(None, digest("x"))]
    lines = lines[:-1] + [f"refused RegistryFetchManifestError {compact(by_digest)} DigestError VerificationError {compact(digest(IMAGE))} {compact(digest('x'))}"]
    write("digests/another_digest_of_one_algorithm", case(answers, reference=by_digest), lines, 1)
    # A digest of another algorithm is compared when the image is pulled.
    wanted = "sha512:" + "0" * 128
    answers, asked, signature = base_run()
    asked[1] = f"HEAD {BASE}app/manifests/{wanted}"
    lines = ["moment 100"] + asked[:17]
    lines += [f"refused RegistryPullError {compact(by_digest)} DigestError VerificationError {compact(wanted)} {compact(digest(IMAGE, 'sha512'))}"]
    write("digests/another_digest_of_another_algorithm", case(answers[:17], [signature], reference=f"{REGISTRY}/app@{wanted}"), lines, 1)


# ---- the signatures' manifest and its image


def signatures():
    url = compact(f"{BASE}app/manifests/{TAG}")
    tag = compact(f"{REGISTRY}/app:{TAG}")
    unsatisfied = "refused Unsatisfied " + compact(digest(IMAGE))
    front = ["moment 100"] + requests(("HEAD", "manifests/v1"), f"manifests/{TAG}") + listing(digest(IMAGE)) + [unsatisfied]
    both = f"DigestError VerificationError {compact(digest('{}'))} {compact(digest('x'))}"
    ambiguous = both_kinds([])
    refused = [
        ("a_send_that_fails", "fail", "TransportFault"),
        ("status_401", answer(status=401), f"UnauthorizedError {url}"),
        ("status_404", answer(status=404), f"ServerError 404 {url} 0"),
        ("status_404_with_errors", answer('{"errors":[{"code":"MANIFEST_UNKNOWN"}]}', status=404), f"RegistryError 1 {url}"),
        ("status_404_with_an_error_without_code", answer('{"errors":[{"code":1}]}', status=404), f"ServerError 404 {url} 23"),
        ("status_502_with_bytes", answer([{"base64": "//5vaw=="}], status=502), f"ServerError 502 {url} 4"),
        ("status_204", answer(status=204), f"SpecViolationError Status 200 204 {url}"),
        ("status_303_without_location", answer(status=303), f"ServerError 303 {url} 0"),
        ("a_header_without_colon", answer("x", "nocolon"), "DigestError MissingAlgorithm"),
        ("a_header_of_md5", answer("x", "md5:d41d8cd98f00b204e9800998ecf8427e"), 'DigestError UnsupportedAlgorithm "md5"'),
        ("a_header_of_other_bytes", answer("x", digest("{}")), both),
        ("a_header_past_ascii", answer("x", "é"), "DigestError InvalidHeader 2"),
        ("a_body_that_is_no_json", answer("x"), "VersionedParsingError 1"),
        ("a_body_that_is_an_array", answer("[]"), "VersionedParsingError 2"),
        ("a_body_with_a_float", answer('{"schemaVersion":2.0}'), "VersionedParsingError 21"),
        ("schema_version_1", answer('{"schemaVersion":1}'), "UnsupportedSchemaVersionError 1"),
        ("schema_version_minus_2", answer('{"schemaVersion":-2}'), "UnsupportedSchemaVersionError -2"),
        ("another_media_type", answer('{"schemaVersion":2,"mediaType":"text/plain"}'), 'UnsupportedMediaTypeError "text/plain"'),
        ("no_manifest", answer('{"schemaVersion":2}'), "ManifestParsingError 19"),
        ("a_manifest_that_is_an_index_too", answer(ambiguous), f"AmbiguousManifest {len(ambiguous)}"),
        ("a_body_that_fails_behind_a_piece", answer(["x", "y"], fault=1), "TransportFault"),
    ]
    for title, reply, text in refused:
        lines = front + [f"skipped Source Tag Refused RegistryPullManifestError {tag} {text}"]
        write(f"signatures/{title}", case([TOKEN, NAMED, TOKEN, reply] + NO_REFERRERS, accepted=[]), lines, 1)
    # A body as long as the limit is read, and a longer one is not.
    for title, body, text in [("a_body_within_the_limit", ["x", "2", "3", "4", "5"], "VersionedParsingError 5"), ("a_body_past_the_limit", ["x", "2", "3", "4", "5", "6"], "BodyTooLong")]:
        lines = front + [f"skipped Source Tag Refused RegistryPullManifestError {tag} {text}"]
        write(f"signatures/{title}", case([TOKEN, NAMED, TOKEN, answer(body)] + NO_REFERRERS, limit=5), lines, 1)
    front = ["moment 100"] + requests(("HEAD", "manifests/v1"), f"manifests/{TAG}", f"manifests/{TAG}")
    none = answer(manifest("{}", []))
    images = [
        ("no_layers", none, answer("{}"), True, "PullNoLayersError"),
        ("a_configuration_of_other_bytes", none, answer("x"), True, both),
        ("an_index", answer('{"schemaVersion":2,"manifests":[]}'), TOKEN, False, "ImageIndexParsingNoPlatformResolverError"),
        ("a_layer_of_another_type", answer(manifest("{}", [signed(payload()), descriptor("application/octet-stream", "x")])), answer("{}"), True, 'IncompatibleLayerMediaTypeError "application/octet-stream"'),
    ]
    for title, document, config, asked, text in images:
        lines = front + (requests("blobs/" + digest("{}")) if asked else []) + listing(digest(IMAGE))
        lines += [unsatisfied, f"skipped Source Tag Refused RegistryPullError {tag} {text}"]
        answers = [TOKEN, NAMED] + [TOKEN, document] * 2 + ([TOKEN, config] if asked else []) + NO_REFERRERS
        write(f"signatures/{title}", case(answers, [payload()]), lines, 1)


# ---- tokens


REALM = "http://auth.example/token"
SCOPE = "?scope=repository%3Aapp%3Apull"


def challenged(text, status=401):
    return answer(None, None, status, headers=[["www-authenticate", text]])


def tokens():
    refusal = f'refused RegistryFetchManifestError "{REGISTRY}/app:v1" UnauthorizedError "{BASE}app/manifests/v1"'
    refused = answer(None, "sha256:ab", 401)
    asked = f"HEAD {BASE}app/manifests/v1"
    bearer, given = challenged(f'Bearer realm="{REALM}"'), answer('{"token":"t1"}')
    basic = {"auth": {"basic": ["user", "secret"]}, "accepted": []}

    def one(title, answers, lines, **others):
        write(f"tokens/{title}", case(answers + [refused], **dict(basic, **others)), ["moment 100"] + lines + [asked, refusal], 1)

    one("a_realm_with_credentials", [bearer, given], [f"GET {BASE}", f"GET {REALM}{SCOPE}"])
    one("a_realm_without_credentials", [bearer, given], [f"GET {BASE}", f"GET {REALM}{SCOPE}"], auth="anonymous")
    one("a_token_of_the_users", [], [], auth={"bearer": "t0"})
    one("no_challenge", [TOKEN], [f"GET {BASE}"])
    one("a_challenge_with_status_200", [challenged(f'Bearer realm="{REALM}"', 200), given], [f"GET {BASE}", f"GET {REALM}{SCOPE}"])
    one("a_service", [challenged(f'Bearer realm="{REALM}",service="r.example"'), given], [f"GET {BASE}", f"GET {REALM}{SCOPE}&service=r.example"])
    one("a_realm_behind_another_scheme", [challenged(f'Basic realm="x", Bearer realm="{REALM}"'), given], [f"GET {BASE}", f"GET {REALM}{SCOPE}"])
    one("a_realm_with_a_backslash_before_a_character", [challenged(r'Bearer realm="http://auth.example\/token"'), given], [f"GET {BASE}", f"GET {REALM}{SCOPE}"])
    one("a_scheme_without_realm", [challenged('Basic realm="x"')], [f"GET {BASE}"])
    one("a_challenge_that_stops_to_read", [challenged(f'Bearer realm="{REALM}')], [f"GET {BASE}"])
    # A step that is refused gives no token, and the request is sent without one.
    one("a_first_request_that_fails", ["fail"], [f"GET {BASE}"])
    one("a_realm_that_fails", [bearer, "fail"], [f"GET {BASE}", f"GET {REALM}{SCOPE}"])
    one("a_realm_with_status_403", [bearer, answer("no", status=403)], [f"GET {BASE}", f"GET {REALM}{SCOPE}"])
    one("a_realm_whose_body_is_no_token", [bearer, answer('{"token":1}')], [f"GET {BASE}", f"GET {REALM}{SCOPE}"])
    one("a_realm_of_another_scheme", [challenged('Bearer realm="ftp://auth.example/"')], [f"GET {BASE}"])
    # A token that does not say when it ends is used for sixty seconds, and not longer.
    lines = ["moment 100", f"GET {BASE}", f"GET {REALM}{SCOPE}", asked, refusal, "moment 160", asked, refusal]
    lines += ["moment 161", f"GET {BASE}", f"GET {REALM}{SCOPE}", asked, refusal]
    answers = [bearer, given, refused, refused, bearer, given, refused]
    write("tokens/a_kept_token_until_it_expires", case(answers, moments=[100, 160, 161], **basic), lines, 1)
    # So is one of five parts, which is not a JSON web token.
    five = [bearer, answer('{"token":"a.b.c.d.e"}'), refused, refused, bearer, answer('{"token":"a.b.c.d.e"}'), refused]
    write("tokens/a_token_of_five_parts", case(five, moments=[100, 160, 161], **basic), lines, 1)
    # A payload with padding cannot be decoded (RFC 7515, 2), so its token is not kept.
    first = [f"GET {BASE}", f"GET {REALM}{SCOPE}", asked, refusal]
    padded = [bearer, answer('{"token":"a.e30=.c"}'), refused] * 2
    write("tokens/a_padded_payload", case(padded, moments=[100, 101], **basic), ["moment 100"] + first + ["moment 101"] + first, 1)
    # The greatest number of seconds is kept for a day.
    last = "a." + base64.urlsafe_b64encode(b'{"exp":18446744073709551615}').decode().rstrip("=") + ".c"
    day = [bearer, answer(compact({"token": last})), refused, refused, bearer, answer(compact({"token": last})), refused]
    lines = ["moment 100"] + first + ["moment 86500", asked, refusal, "moment 86501"] + first
    write("tokens/a_token_of_the_greatest_moment", case(day, moments=[100, 86500, 86501], **basic), lines, 1)
    first_of_referrers()


def first_of_referrers():
    """Before the referrers a token is requested, and there a refused step refuses the source: its requests are not made."""
    answers, asked, signature = base_run()
    secret, other = "http://u:p@auth.example/t", "ftp://auth.example/t"
    bearer = challenged(f'Bearer realm="{REALM}"')
    url = compact(f"{BASE}app/manifests/{TAG}")
    unsigned = ["refused Unsatisfied " + compact(digest(IMAGE))]
    unsigned += [f"skipped Source Tag Refused RegistryPullManifestError {compact(f'{REGISTRY}/app:{TAG}')} ServerError 404 {url} 0"]
    for title, step, error in [
        ("a_refused_realm", [bearer, answer("no", status=403)], "AuthenticationFailure 2"),
        ("a_realm_that_is_not_found", [bearer, answer(status=404)], "AuthenticationFailure 0"),
        ("another_status_of_success", [bearer, answer('{"token":"t1"}', status=201)], "AuthenticationFailure 14"),
        ("no_token", [bearer, answer('{"token":1}')], "RegistryTokenDecodeError 11"),
        ("a_realm_that_fails", [bearer, "fail"], "TransportFault"),
        ("a_realm_with_a_user_name", [challenged(f'Bearer realm="{secret}"')], f"UrlParseError {compact(secret)}"),
        ("a_realm_of_another_scheme", [challenged(f'Bearer realm="{other}"')], f"UrlParseError {compact(other)}"),
    ]:
        steps = [f"GET {BASE}"] + [f"GET {REALM}{SCOPE}"] * (len(step) - 1)
        lines = ["moment 100"] + asked[:10] + steps + asked[15:] + image_lines(signature)
        write(f"tokens/{title}_before_the_referrers", case(answers[:10] + step + answers[15:], [signature]), lines)
        told = f"skipped Source Referrers Refused RegistryFetchManifestError {compact(f'{REGISTRY}/app@{digest(IMAGE)}')} {error}"
        lines = ["moment 100"] + asked[:4] + steps + unsigned + [told]
        write(f"tokens/{title}_and_no_signatures", case(answers[:3] + [answer(status=404)] + step, [signature]), lines, 1)
    # A step that is refused before each request gives none a token, and refuses the referrers alone.
    whole = [f"GET {BASE}", f"GET {REALM}{SCOPE}"]
    refused = [bearer, answer("no", status=403)]
    given, lines = [], ["moment 100"]
    for at in (1, 3, 5, 7, 9, None, 16, 18, 20):
        given += refused + ([] if at is None else [answers[at]])
        lines += whole + ([] if at is None else [asked[at]])
    basic = {"auth": {"basic": ["user", "secret"]}}
    write("tokens/a_realm_that_refuses_each_step", case(given, [signature], **basic), lines + image_lines(signature))
    each = [challenged(f'Bearer realm="{secret}"') if a is TOKEN else a for a in answers]
    lines = ["moment 100"] + asked[:11] + asked[15:] + image_lines(signature)
    write("tokens/a_realm_with_a_user_name_at_each_step", case(each[:11] + each[15:], [signature], **basic), lines)


# ---- references


def references():
    hub = "https://index.docker.io/v2/"
    fetched = [
        ("a_name_alone", "busybox", f"{hub}library/busybox/manifests/latest", "docker.io/library/busybox:latest"),
        ("a_name_of_a_user", "some/app:1", f"{hub}some/app/manifests/1", "docker.io/some/app:1"),
        ("a_name_alone_with_a_digest", f"busybox@{digest('x')}", f"{hub}library/busybox/manifests/{digest('x')}", f"docker.io/library/busybox@{digest('x')}"),
        ("a_name_of_the_library", "library/alpine", f"{hub}library/alpine/manifests/latest", "docker.io/library/alpine:latest"),
        ("a_name_of_docker_io", "docker.io/alpine:3", f"{hub}library/alpine/manifests/3", "docker.io/library/alpine:3"),
        ("a_name_of_index_docker_io", "index.docker.io/alpine", f"{hub}library/alpine/manifests/latest", "docker.io/library/alpine:latest"),
        ("a_name_of_a_user_of_docker_io", "docker.io/some/app", f"{hub}some/app/manifests/latest", "docker.io/some/app:latest"),
        ("a_registry_with_a_port", "r.example:8443/a/b", "https://r.example:8443/v2/a/b/manifests/latest", "r.example:8443/a/b:latest"),
        ("a_tag_and_a_digest", f"r.example/a:1@{digest('x')}", f"https://r.example/v2/a/manifests/{digest('x')}", f"r.example/a:1@{digest('x')}"),
    ]
    for title, text, url, whole in fetched:
        base = url[: url.index("/v2/") + 4]
        lines = ["moment 100", f"GET {base}", f"HEAD {url}", f"refused RegistryFetchManifestError {compact(whole)} TransportFault"]
        write(f"references/{title}", case([TOKEN, "fail"], reference=text, protocol=None), lines, 1)
    none = [
        ("nothing", ""),
        ("a_path_behind_a_tag", "a:t/b"),
        ("more_than_255_characters", "r.io/" + "a" * 256),
        ("a_digest_of_md5", "app@md5:ab"),
        ("a_digest_with_too_few_digits", "app@sha256:ab"),
        ("upper_case", "App"),
        ("an_empty_port", "r.io:/app"),
    ]
    for title, text in none:
        write(f"references/{title}", case([], reference=text), [], 3)


# ---- faults


def kept():
    """A client that caches: the digest and the signatures are returned again for less than 60 seconds."""
    answers, asked, signature = base_run()
    again, more = answers[-6:], asked[-6:]
    image = image_lines(signature)

    def moments(title, *at):
        """Pulls at these moments, each with whether all is asked."""
        lines, told = [], []
        for moment, whole in at:
            lines += [f"moment {moment}"] + (asked if whole else more) + image
            told += answers if whole else again
        write(f"kept/{title}", case(told, [signature], caching=True, moments=[moment for moment, _ in at]), lines)

    moments("59_seconds_later", (100, True), (159, False))
    moments("60_seconds_later", (100, True), (160, True))
    moments("61_seconds_later", (100, True), (161, True))
    moments("at_the_same_moment", (100, True), (100, False))
    moments("a_moment_back", (100, True), (99, True))
    # What was cached later is not returned at an earlier moment, and what replaces it expires sooner.
    moments("a_moment_back_and_on", (100, True), (90, True), (149, False), (150, True))
    # A given answer is not kept anew.
    moments("from_the_first_answer_on", (100, True), (140, False), (159, False), (160, True))
    moments("at_the_greatest_moment", (2**64 - 60, True), (2**64 - 1, False))
    write("kept/nothing", case(answers * 2, [signature], caching=False, moments=[100, 101]), [f"moment {m}" if l is None else l for m in (100, 101) for l in [None] + asked + image])
    # A refusal is not kept, and what was kept before it is: here the list of referrers fails, and then the signatures' image.
    at = 13
    failed = answers[: at - 2] + [TOKEN, "fail"] + answers[-6:]
    lines = ["moment 100"] + asked[:at] + more + image
    lines += ["moment 101"] + listing(digest(IMAGE)) + more + image
    write("kept/a_refused_list_of_referrers", case(failed + NO_REFERRERS + again, [signature], caching=True, moments=[100, 101]), lines)
    for title, value in [("in_words", "true"), ("as_null", None)]:
        write(f"kept/said_{title}", compact(dict(json.loads(case([])), caching=value)), [], 3)


def faults():
    """A fault at each request of a pull, and at each piece of an answer. One of the token step is ignored, and one of the
    referrers skips them."""
    answers, asked, signature = base_run()
    tag, by_digest = compact(f"{REGISTRY}/app:{TAG}"), compact(f"{REGISTRY}/app@{digest(IMAGE)}")
    ends = {2: [f'refused RegistryFetchManifestError "{REGISTRY}/app:v1" TransportFault']}
    for line in (17, 19, 21):
        ends[line] = [f"refused RegistryPullError {by_digest} TransportFault"]
    for line in range(1, len(asked) + 1):
        changes = [("fails", "fail"), ("breaks_at_once", dict(answers[line - 1], fault=0))]
        if "pieces" in answers[line - 1]:
            changes.append(("breaks_at_its_end", dict(answers[line - 1], fault=1)))
        for title, change in changes:
            front = asked[:line]
            if line in ends:
                given, lines = answers[: line - 1] + [change], front + ends[line]
            elif line in (4, 6, 8, 10):
                called = "RegistryPullManifestError" if line == 4 else "RegistryPullError"
                lines = ["refused Unsatisfied " + compact(digest(IMAGE)), f"skipped Source Tag Refused {called} {tag} TransportFault"]
                given, lines = answers[: line - 1] + [change] + answers[10:15], front + asked[10:15] + lines
            elif line in (13, 15) or (line == 11 and title == "fails"):
                given, lines = answers[: line - 1] + [change] + answers[15:], front + asked[15:] + image_lines(signature)
            else:
                given, lines = answers[: line - 1] + [change] + answers[line:], asked + image_lines(signature)
            status = 0 if lines[-1].startswith("signature") else 1
            write(f"faults/answer_{line:02}_{title}", case(given, [signature]), ["moment 100"] + lines, status)
    # A fault after the last piece and the end never occurs.
    late = [dict(a, fault=len(a.get("pieces", [])) + 1) for a in answers]
    write("faults/behind_the_end", case(late, [signature]), ["moment 100"] + asked + image_lines(signature))


# ---- input


def inputs():
    write("input/no_words", "", [], 2, args=[])
    write("input/another_word", "", [], 2, args=["push"])
    write("input/a_word_too_many", base_case()[0], [], 2, args=["pull", "pull"])
    write("input/no_json", "x", [], 3)
    write("input/nothing", "", [], 3)
    others = [
        ("a_member_that_is_not_known", {"at": 1}),
        ("a_float", {"moments": [100, 1.5]}),
        ("no_reference", {"reference": None}),
        ("no_moment", {"moments": []}),
        ("a_moment_below_zero", {"moments": [-1]}),
        ("a_moment_past_64_bits", {"moments": [1 << 64]}),
        ("a_protocol_that_is_not_known", {"protocol": "ftp"}),
        ("credentials_without_password", {"auth": {"basic": ["user"]}}),
        ("credentials_of_two_kinds", {"auth": {"basic": ["user", "secret"], "bearer": "t"}}),
        ("a_platform_without_slash", {"platform": "linux"}),
        ("a_platform_of_another_kind", {"platform": ["linux", "amd64"]}),
        ("a_platform_with_another_member", {"platform": {"digest": "sha256:ab", "at": 1}}),
        ("a_limit_below_zero", {"limit": -1}),
        ("a_limit_in_words", {"limit": "5"}),
        ("a_key_that_is_no_base64", {"keys": [{"base64": "a"}]}),
        ("a_constraint_with_another_member", {"constraints": [{"annotations": {}, "at": 1}]}),
        ("a_constraint_of_two_kinds", {"constraints": [{"annotations": {}, "email": "a", "issuer": None}]}),
        ("an_email_without_issuer", {"constraints": [{"email": "a"}]}),
        ("a_url_with_an_issuer_of_null", {"constraints": [{"url": "a", "issuer": None}]}),
        ("a_signature_without_key", {"signatures": [{"message": "m", "signature": "s"}]}),
        ("a_log_key_that_is_no_bytes", {"log_keys": {"ab": 1}}),
        ("what_is_vouched_without_key", {"vouched": [{"certificate": "c"}]}),
        ("what_is_vouched_of_one_certificate_twice", {"vouched": [{"certificate": "c", "key": "k"}, {"certificate": {"base64": "Yw=="}, "key": "l"}]}),
        ("a_status_of_two_digits", {"answers": [{"status": 99}]}),
        ("a_status_of_four_digits", {"answers": [{"status": 1000}]}),
        ("an_empty_piece", {"answers": [{"status": 200, "pieces": [""]}]}),
        ("a_header_with_a_line_feed", {"answers": [{"status": 200, "headers": [["a", "b\nc"]]}]}),
        ("a_header_with_a_space_in_its_name", {"answers": [{"status": 200, "headers": [["a b", "c"]]}]}),
        ("an_answer_in_other_words", {"answers": ["fails"]}),
    ]
    for title, members in others:
        write(f"input/{title}", case(members.pop("answers", []), **members), [], 3)
    null = json.loads(case([]))
    for title, name in [("a_limit", "limit"), ("log_keys", "log_keys"), ("nothing_vouched", "vouched")]:
        write(f"input/{title}_of_null", compact(dict(null, **{name: None})), [], 3)


def canonical_texts():
    def canon(title, text, lines, status=0):
        write(f"canon/{title}", text, lines, status, args=["canon"])

    canon("members_in_order", '{"c":120,"b":false,"a":"Hello!"}', ['{"a":"Hello!","b":false,"c":120}'])
    # U+1F600 begins with the unit 0xD83D, which is before U+FB33, though its bytes are after.
    canon("names_in_the_order_of_their_units", r'{"\ufb33":1,"\ud83d\ude00":2}', ['{"\U0001f600":2,"\ufb33":1}'])
    canon("a_whole_number_past_the_range", "9007199254740992", ["refused IntegerOutOfRange"], 1)
    canon("the_greatest_whole_number", "9007199254740991", ["9007199254740991"])
    canon("a_float", "1.5", ["refused Float"], 1)
    canon("input_that_is_no_json", '{"a":1', [], 3)


def generated():
    def gen(title, count, lines, status=0):
        write(f"generated/{title}", "", lines, status, args=["gen"] + count)

    for title, count in [("one_layer", 1), ("three_layers", 3), ("a_hundred_layers", 100), ("a_thousand_layers", 1000)]:
        image = manifest("{}", [descriptor(LAYER, f"layer {i}\n" * 1000) for i in range(count)])
        gen(title, [str(count)], [f"requests {19 + 2 * count}", f"layers {count}", f"ok {digest(image)}"])
    others = {"no_layer": "0", "a_layer_too_many": "1001", "a_zero_in_front": "03", "a_sign": "+3", "a_word": "three", "an_empty_count": "", "a_long_count": "9" * 30}
    for title, count in others.items():
        gen(title, [count], [], 2)
    gen("no_count", [], [], 2)
    gen("two_counts", ["3", "3"], [], 2)


# ---- admission reviews


def container(name, image, **others):
    return dict({"name": name, "image": image}, **others)


def admission(containers, uid="u1", **others):
    """A review of a Pod with these containers and these other members of its specification."""
    spec = {"containers": containers}
    spec.update(others)
    return {"apiVersion": "admission.k8s.io/v1", "kind": "AdmissionReview", "request": {"uid": uid, "object": {"spec": spec}}}


def canonical(value):
    return json.dumps(value, separators=(",", ":"), ensure_ascii=False, sort_keys=True)


def respond(uid, denials):
    """The response with these denials: each a name and a cause on one line."""
    found = {"allowed": not denials, "uid": uid}
    if denials:
        found["status"] = {"message": "; ".join(f"{name}: {cause}" for name, cause in denials)}
    return canonical({"apiVersion": "admission.k8s.io/v1", "kind": "AdmissionReview", "response": found})


def review_settings(answers=None, **others):
    """A case of the image in memory, or of these answers, without a reference."""
    if answers is None:
        others.setdefault("shelf", base_shelf())
    return {n: v for n, v in json.loads(case(answers, [payload()], **others)).items() if n != "reference"}


def review(title, asked, denials=(), uid="u1", settings=None):
    stdin = compact({"settings": review_settings() if settings is None else settings, "review": asked})
    write(f"reviews/{title}", stdin, [respond(uid, list(denials))], 1 if denials else 0, args=["review"])


def no_review(title, value):
    write(f"reviews/{title}", value if isinstance(value, str) else compact(value), [], 3, args=["review"])


def missing(tag="v2"):
    """The cause of an image whose tag the registry does not have."""
    return f'RegistryFetchManifestError "{REGISTRY}/app:{tag}" ServerError 404 "{BASE}app/manifests/{tag}" 0'


def api_server_review(images):
    """A review as an API server of version 1.32 sends it when a Pod is created."""
    pod = {"group": "", "version": "v1"}
    fields = {"f:metadata": {"f:labels": {".": {}, "f:app": {}}}, "f:spec": {"f:containers": {'k:{"name":"app"}': {".": {}, "f:image": {}, "f:name": {}}}}}
    managed = {"manager": "kubectl-create", "operation": "Update", "apiVersion": "v1", "time": "2024-12-11T09:00:00Z", "fieldsType": "FieldsV1", "fieldsV1": fields}
    metadata = {"name": "app", "namespace": "web", "uid": "a1", "creationTimestamp": "2024-12-11T09:00:00Z", "labels": {"app": "app"}, "annotations": {"note": "x"}, "managedFields": [managed]}
    token = {"name": "kube-api-access", "mountPath": "/var/run/secrets/kubernetes.io/serviceaccount", "readOnly": True}
    others = {"ports": [{"containerPort": 80, "protocol": "TCP"}], "resources": {"limits": {"cpu": "500m", "memory": "64Mi"}}, "volumeMounts": [token], "imagePullPolicy": "Always", "terminationMessagePath": "/dev/termination-log", "securityContext": {"runAsNonRoot": True, "runAsUser": 1000}}
    spec = {
        "volumes": [{"name": "kube-api-access", "projected": {"sources": [{"serviceAccountToken": {"expirationSeconds": 3607, "path": "token"}}], "defaultMode": 420}}],
        "containers": [container(name, image, **others) for name, image in images],
        "restartPolicy": "Always", "terminationGracePeriodSeconds": 30, "dnsPolicy": "ClusterFirst", "serviceAccountName": "default", "serviceAccount": "default",
        "securityContext": {}, "schedulerName": "default-scheduler", "tolerations": [{"key": "node.kubernetes.io/not-ready", "operator": "Exists", "effect": "NoExecute", "tolerationSeconds": 300}],
        "priority": 0, "enableServiceLinks": True, "preemptionPolicy": "PreemptLowerPriority",
    }
    user = {"username": "kubernetes-admin", "groups": ["kubeadm:cluster-admins", "system:authenticated"], "extra": {"authentication.kubernetes.io/credential-id": ["X509SHA256=ab"]}}
    request = {
        "uid": "705ab4f5-6393-11e8-b7cc-42010a800002", "kind": dict(pod, kind="Pod"), "resource": dict(pod, resource="pods"), "requestKind": dict(pod, kind="Pod"), "requestResource": dict(pod, resource="pods"),
        "name": "app", "namespace": "web", "operation": "CREATE", "userInfo": user,
        "object": {"kind": "Pod", "apiVersion": "v1", "metadata": metadata, "spec": spec, "status": {"phase": "Pending", "qosClass": "Burstable"}},
        "oldObject": None, "dryRun": False, "options": {"kind": "CreateOptions", "apiVersion": "meta.k8s.io/v1", "fieldManager": "kubectl-create", "fieldValidation": "Strict"},
    }
    return {"kind": "AdmissionReview", "apiVersion": "admission.k8s.io/v1", "request": request}


def reviews():
    image, other = f"{REGISTRY}/app:v1", f"{REGISTRY}/app:v2"
    one = [container("a", image)]
    review("one_image", admission(one))
    review("an_image_that_is_missing", admission(one + [container("b", other)]), [("b", missing())])
    review("a_text_that_is_no_reference", admission(one + [container("b", "a:t/b")]), [("b", 'NotAReference "a:t/b"')])
    review("an_image_twice", admission(one * 2))
    review("a_denied_image_between_two_allowed", admission([container("a", image), container("b", other), container("c", image)]), [("b", missing())])
    review("all_images_denied", admission([container("a", other), container("b", f"{REGISTRY}/app:v3")]), [("a", missing()), ("b", missing("v3"))])
    review("a_digest", admission([container("a", f"{REGISTRY}/app@{digest(IMAGE)}"), container("b", f"{REGISTRY}/app:v1@{digest(IMAGE)}")]))
    hub = "http://index.docker.io/v2/library/busybox/manifests/latest"
    review("a_short_name_of_docker_hub", admission([container("a", "busybox")]), [("a", f'RegistryFetchManifestError "docker.io/library/busybox:latest" ServerError 404 "{hub}" 0')])
    review("a_repository_in_upper_case", admission([container("a", f"{REGISTRY}/App:v1")]), [("a", f'NotAReference "{REGISTRY}/App:v1"')])
    # The order is that of initContainers, containers, ephemeralContainers, whatever their order in the specification.
    both = admission([container("b", other)], ephemeralContainers=[container("c", f"{REGISTRY}/app:v3")], initContainers=[container("a", f"{REGISTRY}/app:v4")])
    review("containers_of_three_kinds", both, [("a", missing("v4")), ("b", missing()), ("c", missing("v3"))])
    review("an_init_container_that_is_denied", admission(one, initContainers=[container("i", other)]), [("i", missing())])
    review("an_ephemeral_container_that_is_denied", admission(one, ephemeralContainers=[container("e", other)]), [("e", missing())])
    review("empty_lists_beside_the_containers", admission(one, initContainers=[], ephemeralContainers=[]))
    odd = 'x"\u2028\u0001'
    review("a_message_with_quotes_and_controls", admission([container('a"\u0001\u2028', odd)]), [('a"\u0001\u2028', "NotAReference " + compact(odd))])
    review("two_names_that_are_equal", admission([container("a", other)] * 2), [("a", missing())] * 2)
    review("an_empty_uid", admission(one, uid=""), uid="")
    review("an_api_server_1_32", api_server_review([("app", image)]), uid="705ab4f5-6393-11e8-b7cc-42010a800002")
    review("an_api_server_1_32_with_an_unsigned_image", api_server_review([("app", image), ("side", other)]), [("side", missing())], uid="705ab4f5-6393-11e8-b7cc-42010a800002")
    noted = admission(one)
    noted["request"]["object"]["metadata"] = {"annotations": {"a": 1}}
    review("a_number_in_an_annotations_place", noted)
    # What the policy says.
    review("no_constraint", admission(one + [container("b", "B")]), [("a", "EmptyPolicy"), ("b", 'NotAReference "B"')], settings=review_settings(constraints=[]))
    review("another_key", admission(one), [("a", f'Unsatisfied "{digest(IMAGE)}"')], settings=review_settings(keys=["k2"]))
    review("without_caching", admission(one), settings=review_settings(caching=False))
    # What the registry answers, one image after the other.
    answers, _, _ = base_run()
    review("answers_for_one_of_two_images", admission([container("a", image), container("b", image)]), [("b", f'RegistryFetchManifestError "{image}" TransportFault')], settings=review_settings(answers))
    review("no_answer_for_a_text_that_is_no_reference", admission([container("a", "A"), container("b", image)]), [("a", 'NotAReference "A"')], settings=review_settings(answers))
    unread_reviews(one)


def unread_reviews(one):
    """Input that is not a review with settings."""
    good = admission(one)

    def changed(path, value):
        found = json.loads(compact(good))
        at = found
        for name in path[:-1]:
            at = at[name]
        if value is None:
            del at[path[-1]]
        else:
            at[path[-1]] = value[0]
        return found

    spec = ["request", "object", "spec"]
    nulls = [("uid", ["request", "uid"]), ("object", ["request", "object"]), ("spec", spec), ("containers", spec + ["containers"])]
    for title, path in nulls:
        no_review(f"no_{title}", {"settings": review_settings(), "review": changed(path, None)})
        no_review(f"{title}_null", {"settings": review_settings(), "review": changed(path, [None])})
    others = [
        ("another_kind", ["kind"], "Pod"),
        ("another_version", ["apiVersion"], "admission.k8s.io/v1beta1"),
        ("a_uid_that_is_no_text", ["request", "uid"], 1),
        ("no_container", spec + ["containers"], []),
        ("containers_that_are_no_list", spec + ["containers"], {}),
        ("a_container_without_image", spec + ["containers"], [{"name": "a"}]),
        ("a_container_without_name", spec + ["containers"], [{"image": "a"}]),
        ("an_image_that_is_no_text", spec + ["containers"], [{"name": "a", "image": None}]),
        ("init_containers_of_null", spec + ["initContainers"], None),
        ("ephemeral_containers_of_null", spec + ["ephemeralContainers"], None),
        ("an_init_container_without_image", spec + ["initContainers"], [{"name": "i"}]),
        ("a_float_in_an_annotations_place", ["request", "object", "metadata"], {"annotations": {"a": 1.5}}),
    ]
    for title, path, value in others:
        no_review(title, {"settings": review_settings(), "review": changed(path, [value])})
    deleted = changed(["request", "object"], [None])
    deleted["request"].update(operation="DELETE", oldObject=good["request"]["object"])
    no_review("a_deletion", {"settings": review_settings(), "review": deleted})
    no_review("a_review_alone", good)
    no_review("settings_alone", {"settings": review_settings()})
    no_review("settings_and_a_review_beside_another_member", {"settings": review_settings(), "review": good, "at": 1})
    no_review("input_that_is_no_json", "{")
    for title, settings in [
        ("settings_with_a_reference", dict(review_settings(), reference=f"{REGISTRY}/app:v1")),
        ("settings_with_a_reference_of_null", dict(review_settings(), reference=None)),
        ("settings_with_two_moments", review_settings(moments=[100, 200])),
        ("settings_without_a_moment", review_settings(moments=[])),
        ("settings_that_cache", review_settings(caching=True)),
        ("settings_with_another_member", dict(review_settings(), at=1)),
        ("settings_without_keys", {n: v for n, v in review_settings().items() if n != "keys"}),
        ("settings_that_are_no_object", []),
    ]:
        no_review(title, {"settings": settings, "review": good})


TABLES = {
    "pulls": pulls,
    "shelves": shelves,
    "referrers": referrers,
    "chains": chains,
    "policies": policies,
    "layers": layers,
    "indexes": indexes,
    "elsewhere": elsewhere,
    "digests": digests,
    "signatures": signatures,
    "tokens": tokens,
    "references": references,
    "kept": kept,
    "faults": faults,
    "input": inputs,
    "canon": canonical_texts,
    "generated": generated,
    "reviews": reviews,
}

if __name__ == "__main__":
    from locks import locks
    from mirrors import mirrors

    TABLES |= {"locks": locks, "mirrors": mirrors}
    for table, make in TABLES.items():
        shutil.rmtree(os.path.join(HERE, table), ignore_errors=True)
        make()
