"""Whether a chain holds, decided a second time: from recorded bytes alone, with nothing of the program and in other terms than its own.

Run by itself it decides the recorded cases below tests/rows: each image that is answered there, or is one of an allowed Pod, has a chain that holds,
and each recorded chain holds or fails as it is recorded. `holds(case, chain)` is what is wrong with a chain as the program's subcommand `check` reads it, or none. `chains(case, lines)` are the chains that a report's
image may have, made of the bodies that the case records.
"""
import base64
import glob
import hashlib
import json
import os
import sys

PAYLOAD, BUNDLE = "application/vnd.dev.cosign.simplesigning.v1+json", "application/vnd.dev.sigstore.bundle.v0.3+json"
SIGNATURE, ENTRY, CERTIFICATE = "dev.cosignproject.cosign/signature", "dev.sigstore.cosign/bundle", "dev.sigstore.cosign/certificate"


class Broken(Exception):
    """A check that fails."""


def check(holds, what):
    if not holds:
        raise Broken(what)


def as_bytes(value):
    return value.encode() if isinstance(value, str) else base64.b64decode(value["base64"], validate=True)


def names(digest, content):
    algorithm, _, digits = digest.partition(":")
    return algorithm in ("sha256", "sha384", "sha512") and hashlib.new(algorithm, content).hexdigest() == digits


def unpadded(text):
    return base64.b64decode(text, validate=True)


def valid(case, key, message, signature):
    return any(as_bytes(row["key"]) == key and as_bytes(row["signature"]) == signature and names(row["message"], message)
               for row in case["signatures"])


# ---- what a layer shows


def of_payload(content, notes, digest):
    payload = json.loads(content)
    critical = payload["critical"]
    check(critical["type"] == "cosign container image signature", "a payload of another type")
    check(isinstance(critical["identity"]["docker-reference"], str), "a payload of no reference")
    check(critical["image"]["docker-manifest-digest"] == digest, "a payload of another digest")
    entry = None
    if ENTRY in notes:
        noted = json.loads(notes[ENTRY])
        entry = dict(noted["Payload"], timestamp=unpadded(noted["SignedEntryTimestamp"]))
    certificate = notes[CERTIFICATE].encode() if CERTIFICATE in notes else None
    return content, notes[SIGNATURE], entry, certificate, payload.get("optional")


def of_bundle(content, digest):
    bundle = json.loads(content)
    check(bundle["mediaType"] == BUNDLE, "a bundle of another type")
    envelope = bundle["dsseEnvelope"]
    (one,) = envelope["signatures"]
    payload = unpadded(envelope["payload"])
    algorithm, _, digits = digest.partition(":")
    subjects = json.loads(payload)["subject"]
    check(any(subject["digest"].get(algorithm) == digits for subject in subjects), "a statement of other subjects")
    kind = envelope["payloadType"].encode()
    text = b" ".join([b"DSSEv1", str(len(kind)).encode(), kind, str(len(payload)).encode(), payload])
    material = bundle["verificationMaterial"]
    entry = None
    if material.get("tlogEntries"):
        noted = material["tlogEntries"][0]
        entry = {"body": noted["canonicalizedBody"], "integratedTime": int(noted["integratedTime"]), "logIndex": int(noted["logIndex"]),
                 "logID": unpadded(noted["logId"]["keyId"]).hex(), "timestamp": unpadded(noted["inclusionPromise"]["signedEntryTimestamp"])}
    certificate = unpadded(material["certificate"]["rawBytes"]) if material.get("certificate") else None
    return text, one["sig"], entry, certificate, None


# ---- what stands for a digest


def check_entry(case, kind, content, signature, entry):
    """A log whose key is known signed the entry, and the one beside a payload names this signature."""
    check(entry["logID"] in case["log_keys"], "a log that is not known")
    members = {name: entry[name] for name in ("body", "integratedTime", "logID", "logIndex")}
    text = json.dumps(members, sort_keys=True, separators=(",", ":"), ensure_ascii=False).encode()
    check(valid(case, as_bytes(case["log_keys"][entry["logID"]]), text, entry["timestamp"]), "an entry that its log did not sign")
    if kind == "payload":
        spec = json.loads(unpadded(entry["body"]))["spec"]
        check(spec["data"]["hash"]["value"] == hashlib.sha256(content).hexdigest(), "an entry of another payload")
        check(unpadded(spec["signature"]["content"]) == signature, "an entry of another signature")


def check_constraint(constraint, kind, optional, vouched):
    if "annotations" in constraint:
        asked = constraint["annotations"]
        said = optional if isinstance(optional, dict) else {}
        check(not asked if kind == "bundle" else all(said.get(name) == value for name, value in asked.items()), "other annotations")
        return
    name = "email" if "email" in constraint else "url"
    check(vouched is not None and vouched.get(name) == constraint[name], f"another {name}")
    check(constraint["issuer"] is None or vouched.get("issuer") == constraint["issuer"], "another issuer")


def check_signature(case, chain):
    layer = chain["signature"]
    kind, content, notes = layer["kind"], as_bytes(layer["content"]), layer["annotations"]
    shown = of_payload(content, notes, chain["digest"]) if kind == "payload" else of_bundle(content, chain["digest"])
    text, signature, entry, certificate, optional = shown
    signature, vouched = unpadded(signature), None
    if case["log_keys"] and entry:
        check_entry(case, kind, content, signature, entry)
    if certificate is not None:
        check(case["log_keys"] and entry, "a certificate without an entry")
        vouched = next((row for row in case["vouched"] if as_bytes(row["certificate"]) == certificate), None)
        check(vouched, "a certificate that nobody vouches for")
        keys = [as_bytes(vouched["key"])]
    else:
        keys = [as_bytes(key) for key in case["keys"]]
    check(any(valid(case, key, text, signature) for key in keys), "a signature of no key")
    check(case["constraints"], "no constraint")
    for constraint in case["constraints"]:
        check_constraint(constraint, kind, optional, vouched)


# ---- what the digests name


def is_for(platform, entry):
    found = entry.get("platform") or {}
    system, _, architecture = platform.partition("/")
    return found.get("os") == system and found.get("architecture") == architecture


def check_documents(case, chain):
    first, platform = as_bytes(chain["first"]), case.get("platform")
    check(names(chain["digest"], first), "a first document of another digest")
    _, at, digest = case["reference"].partition("@")
    check(not at or names(digest, first), "another document than the reference's")
    manifest = first
    if chain.get("entry"):
        manifest = as_bytes(chain["entry"]["content"])
        check(names(chain["entry"]["digest"], manifest), "an entry of another digest")
        entries = [entry for entry in json.loads(first)["manifests"] if entry["digest"] == chain["entry"]["digest"]]
        if isinstance(platform, str):
            entries = [entry for entry in entries if is_for(platform, entry)]
        else:
            check(platform and platform["digest"] == chain["entry"]["digest"], "another entry than was asked")
        check(entries, "no such entry")
    manifest = json.loads(manifest)
    check(manifest["schemaVersion"] == 2, "another version")
    check(names(manifest["config"]["digest"], as_bytes(chain["config"])), "another configuration")
    check(manifest["layers"] and len(manifest["layers"]) == len(chain["layers"]), "another number of layers")
    for descriptor, content in zip(manifest["layers"], chain["layers"]):
        check(names(descriptor["digest"], as_bytes(content)), "another layer")
        check(descriptor["mediaType"] in case["accepted"], "a layer of another type")


def holds(case, chain):
    """What is wrong with the chain under the case's policy, or none."""
    case = {"log_keys": {}, "vouched": [], "platform": None} | case
    try:
        check_documents(case, chain)
        check_signature(case, chain)
        return None
    except Broken as broken:
        return str(broken)
    except (KeyError, TypeError, ValueError, AttributeError, RecursionError) as error:
        return f"it does not read: {error!r}"


# ---- the chains of a report


def bodies(case):
    """All bytes that a registry answered, or has."""
    if "shelf" in case:
        shelf = case["shelf"]
        held = [document["content"] for document in shelf["documents"].values()]
        return [as_bytes(value) for value in [*held, *shelf["blobs"].values(), *shelf["referrers"].values()]]
    return [b"".join(as_bytes(piece) for piece in answer.get("pieces", [])) for answer in case["answers"] if answer != "fail"]


def object_in(content):
    try:
        value = json.loads(content)
        return value if isinstance(value, dict) else {}
    except (ValueError, RecursionError):
        return {}


def in_base64(content):
    return {"base64": base64.b64encode(content).decode()}


def chains(case, lines):
    """The chains of the bodies that have the digests of the report's lines, with the annotations of each manifest that lists the signature layer."""
    found = {}
    for line in lines:
        word, _, rest = line.partition(" ")
        found.setdefault(word, []).append(rest)
    held = bodies(case)

    def named(digest):
        return next(content for content in held if names(digest, content))

    first = named(found["ok"][0])
    chain = {"digest": found["ok"][0], "first": in_base64(first), "config": in_base64(named(found["config"][0])),
             "layers": [in_base64(named(digest)) for digest in found["layer"]]}
    if "manifests" in object_in(first):
        chain["entry"] = {"digest": found["manifest"][0], "content": in_base64(named(found["manifest"][0]))}
    content = in_base64(named(found["signature"][0]))
    for body in held:
        for descriptor in object_in(body).get("layers") or []:
            kind = {PAYLOAD: "payload", BUNDLE: "bundle"}.get(descriptor.get("mediaType")) if isinstance(descriptor, dict) else None
            if kind and descriptor.get("digest") == found["signature"][0]:
                yield chain | {"signature": {"kind": kind, "content": content, "annotations": descriptor.get("annotations") or {}}}


def digests_of(case, text):
    """The digests that the registry may have named for an image of a Pod: its own, that of its tag, or those of the answers' headers."""
    name, _, own = text.partition("@")
    if own:
        return [own]
    if "shelf" in case:
        return [case["shelf"]["tags"].get(name.rpartition(":")[2])]
    headers = [header for answer in case["answers"] if answer != "fail" for header in answer.get("headers", [])]
    return [value for field, value in headers if field == "docker-content-digest"]


def is_allowed(case, text):
    """Whether an image of a Pod has a chain, made of a manifest that the registry names for it and of any signature layer."""
    case = case | {"reference": text}
    held = bodies(case)
    listed = [descriptor for body in held for descriptor in object_in(body).get("layers") or []]
    signatures = [descriptor["digest"] for descriptor in listed if descriptor["mediaType"] in (PAYLOAD, BUNDLE)]
    for digest in digests_of(case, text):
        for first in (object_in(body) for body in held if digest and names(digest, body)):
            parts = [f"ok {digest}", f"manifest {digest}", f"config {first['config']['digest']}"] + [f"layer {layer['digest']}" for layer in first["layers"]]
            if any(holds(case, chain) is None for name in signatures for chain in chains(case, parts + [f"signature {name}"])):
                return True
    return False


def canonical(value):
    """The canonical text of a value without numbers, whose names are ASCII."""
    return json.dumps(value, separators=(",", ":"), ensure_ascii=False, sort_keys=True)


def images_of(review):
    """The texts of the images of a review's Pod."""
    spec = review["request"]["object"]["spec"]
    return [entry["image"] for name in ("initContainers", "containers", "ephemeralContainers") for entry in spec.get(name, [])]


def pushed_for(lines):
    """The digests that a mirror of the image of this report pushes, but the last: the signature's manifest."""
    found = {}
    for line in lines:
        word, _, rest = line.partition(" ")
        found.setdefault(word, []).append(rest)
    blobs = [*found["layer"], found["config"][0], found["signature"][0], "sha256:" + hashlib.sha256(b"{}").hexdigest()]
    return [*dict.fromkeys(blobs), *(name for name in found["manifest"] if name != found["ok"][0]), found["ok"][0]]


def of_pull(lines):
    """The lines of a mirror's report that are those of its pull: up to the signature, or to what was collected and skipped."""
    at = next((at for at, line in enumerate(lines) if line.startswith("signature ")), len(lines))
    return lines[: at + 1]


def reports(out):
    """The lines of the report of each moment."""
    found = []
    for line in out.splitlines():
        if line.startswith("moment "):
            found.append([])
        found[-1].append(line)
    return found


# ---- the recorded cases


def read(folder, name, otherwise):
    path = os.path.join(folder, name)
    if not os.path.exists(path):
        return otherwise
    with open(path, encoding="utf-8") as file:
        return file.read()


def main():
    images = decided = wrong = 0
    for folder in sorted(glob.glob(os.path.join(os.path.dirname(os.path.abspath(__file__)), "rows/*/*/"))):
        word, status, out = read(folder, "args", "pull").strip(), int(read(folder, "status", "0")), read(folder, "stdout", "")
        found = object_in(read(folder, "stdin", "").encode())
        if word == "check" and status < 2:
            decided += 1
            fails = (holds(found["case"], found["chain"]) is not None) != (status == 1)
        elif word == "pull" and status < 2:
            pulled = [lines for lines in reports(out) if any(line.startswith("ok ") for line in lines)]
            images += len(pulled)
            fails = any(all(holds(found, chain) for chain in chains(found, lines)) for lines in pulled)
        elif word == "mirror" and status == 0:
            lines = of_pull(out.splitlines())
            images += 1
            told = [line.removeprefix("pushed ") for line in out.splitlines() if line.startswith("pushed ")]
            fails = all(holds(found["case"], chain) for chain in chains(found["case"], lines)) or told[:-1] != pushed_for(lines)
        elif word == "review" and status == 0:
            asked = images_of(found["review"])
            images += len(asked)
            fails = not all(is_allowed(found["settings"], text) for text in asked)
        else:
            continue
        if fails:
            wrong += 1
            print(f"{folder}: decided otherwise")
    print(f"{images} images, {decided} chains, {wrong} wrong")
    return 1 if wrong else 0


if __name__ == "__main__":
    sys.exit(main())
