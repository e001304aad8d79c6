"""The cases of lock files: what `lock` writes of recorded pulls, and what `lockcheck` says of a file.

A file is written here from the rules of crates/pull_lock/README.md with the canonical form of RFC 8785: names in order, no space.
"""
import json

from make import (
    CERTIFICATE, CONTENT, ENTRY, IMAGE, LAYER, REGISTRY, SIGNATURE, TAG, base64_of, base_run, base_shelf, bundle, case, chain_of, compact, descriptor,
    digest, entry, index_of, log_body, log_entry, log_signs, manifest, payload, refers, shelf_of, signed, write,
)

NOTES = {SIGNATURE: base64_of("sig1")}


def canonical(value):
    """The canonical text of a value without numbers but whole ones and with names in ASCII."""
    return json.dumps(value, separators=(",", ":"), ensure_ascii=False, sort_keys=True)


def locked(image, first, content, notes=None, kind="payload", found=None, name=None, **others):
    """The entry of an image, `found` being the manifest that an index led to."""
    last = first if found is None else found
    entry = {
        "accepted": [LAYER],
        "digest": name or digest(first),
        "first": first,
        "image": image,
        "manifest": last,
        "manifest_digest": (name or digest(first)) if found is None else digest(last),
        "signature": {"annotations": NOTES if notes is None else notes, "content": content, "kind": kind, "oci_digest": digest(content)},
    }
    entry.update(others)
    return entry


def file_of(*entries, version=1):
    return canonical({"entries": list(entries), "version": version})


def signs(content, key="k1"):
    return {"key": key, "message": digest(content), "signature": "sig1"}


def shelf_case(reference, first, content, documents=(), platform=None, **others):
    """A case over a registry in memory with this document under the reference's tag, signed by a payload."""
    repository, _, tag = reference.removeprefix(f"{REGISTRY}/").partition(":")
    signatures = manifest("{}", [signed(content)])
    tags = {tag: digest(first), digest(first).replace(":", "-") + ".sig": digest(signatures)}
    shelf = shelf_of(tags, [first, signatures, *documents], ["{}", CONTENT, content], repository=repository)
    return json.loads(case(None, [content], reference=reference, shelf=shelf, platform=platform, **others))


def lock(title, cases, lines, status=0):
    """The file has no line feed at its end."""
    write(f"locks/{title}", compact(cases), lines if status else [], status, args=["lock"])
    if status == 0:
        with open(write.__globals__["os"].path.join(write.__globals__["HERE"], f"locks/{title}/stdout"), "w", encoding="utf-8") as out:
            out.write(lines)


def check(title, policy, text, line, status=None):
    status = (0 if line == "lock holds" else 1) if status is None else status
    stdin = compact({"case": policy, "lock": text})
    write(f"locks/{title}", stdin, [line] if line else [], status, args=["lockcheck"])


def written():
    """What `lock` writes."""
    app, signature = f"{REGISTRY}/app:v1", payload()
    base = json.loads(case(None, [signature], shelf=base_shelf()))
    whole = file_of(locked(app, IMAGE, signature))
    lock("an_image", [base], whole)
    answers, _, _ = base_run()
    lock("an_image_of_recorded_answers", [json.loads(case(answers, [signature]))], whole)
    # Another image, in another repository.
    other = manifest("{}", [descriptor(LAYER, CONTENT, {"a": "1"})])
    by_other = payload(image=other)
    second = shelf_case(f"{REGISTRY}/other:v2", other, by_other)
    both = file_of(locked(app, IMAGE, signature), locked(f"{REGISTRY}/other:v2", other, by_other))
    lock("two_images", [base, second], both)
    lock("two_images_in_another_order", [second, base], [], 3)
    lock("one_image_twice", [base, base], [], 3)
    # The references are compared as whole texts, and the entry has the whole text.
    hub = dict(base, reference="alpine", protocol="https", shelf=dict(base["shelf"], repository="library/alpine", tags=dict(base["shelf"]["tags"], latest=digest(IMAGE))))
    lock("a_name_alone", [hub], file_of(locked("docker.io/library/alpine:latest", IMAGE, signature)))
    lock("a_name_alone_behind_a_greater_one", [base, hub], [], 3)
    # The first image that is refused is reported alone, and no later one is pulled.
    third = dict(base, reference=f"{REGISTRY}/third:v3", shelf=dict(base["shelf"], repository="third"))
    unsigned = dict(second, signatures=[])
    refused = f"refused {compact(f'{REGISTRY}/other:v2')} Unsatisfied {compact(digest(other))}"
    lock("a_refused_image_in_second_place", [base, unsigned, third], [refused], 1)
    lock("a_refused_image", [dict(base, keys=["k2"])], [f"refused {compact(app)} Unsatisfied {compact(digest(IMAGE))}"], 1)
    lock("a_policy_without_constraint", [dict(base, constraints=[])], [f"refused {compact(app)} EmptyPolicy"], 1)
    lock("a_policy_without_constraint_in_second_place", [base, dict(second, constraints=[])], [f"refused {compact(f'{REGISTRY}/other:v2')} EmptyPolicy"], 1)
    # A document that is not UTF-8 is not JSON.
    latin = {"base64": base64_of("x").replace("eA==", "/w==")}
    broken = json.loads(json.dumps(base))
    broken["shelf"]["documents"]["sha256:" + __import__("hashlib").sha256(b"\xff").hexdigest()] = {"media_type": "m", "content": latin}
    name = "sha256:" + __import__("hashlib").sha256(b"\xff").hexdigest()
    broken["shelf"]["tags"]["v1"] = name
    lock("a_document_that_is_no_text", [broken], [f"refused {compact(app)} Unsatisfied {compact(name)}"], 1)
    # Of an index the entry has the manifest that the platform picked.
    index = index_of(entry("arm64", "x"), entry("amd64", IMAGE))
    by_index = payload(image=index)
    indexed = shelf_case(app, index, by_index, [IMAGE], "linux/amd64")
    lock("an_image_of_an_index", [indexed], file_of(locked(app, index, by_index, found=IMAGE)))
    error = f"RegistryPullError {compact(REGISTRY + '/app@' + digest(index))} ImageIndexParsingNoPlatformResolverError"
    lock("an_image_of_an_index_without_platform", [dict(indexed, platform=None)], [f"refused {compact(app)} {error}"], 1)
    bundles(app)
    # Input that is not a list of such cases.
    for title, value in [
        ("no_case", []),
        ("a_case_without_list", base),
        ("two_moments", [dict(base, moments=[100, 200])]),
        ("two_moments_in_second_place", [base, dict(second, moments=[100, 200])]),
        ("a_bad_case_in_second_place", [base, dict(second, at=1)]),
        ("a_refused_image_before_a_bad_case", [dict(base, keys=[]), dict(second, at=1)]),
    ]:
        lock(title, value, [], 3)


def bundles(app):
    """A bundle of a referrer, and one of an image that is named by SHA-512."""
    content, text = bundle(digest(IMAGE))
    shelf = shelf_of({"v1": digest(IMAGE)}, [IMAGE, refers(content)], ["{}", CONTENT, content], referrers={digest(IMAGE): index_of(descriptor("application/vnd.oci.image.manifest.v1+json", refers(content)))})
    by_bundle = json.loads(case(None, shelf=shelf, signatures=[signs(text)]))
    of_bundle = file_of(locked(app, IMAGE, content, {}, "bundle"))
    lock("a_bundle", [by_bundle], of_bundle)
    check("a_bundle_that_holds", by_bundle, of_bundle, "lock holds")
    check("a_bundle_as_a_payload", by_bundle, file_of(locked(app, IMAGE, content, {}, "payload")), f"lock fails {compact(app)}")
    named = digest(IMAGE, "sha512")
    by_long, long_text = bundle(named, "sha512")
    shelf = shelf_of({"v1": named}, [refers(by_long)], ["{}", CONTENT, by_long], referrers={named: index_of(descriptor("application/vnd.oci.image.manifest.v1+json", refers(by_long)))})
    shelf["documents"][named] = {"media_type": "m", "content": IMAGE}
    long = json.loads(case(None, shelf=shelf, signatures=[signs(long_text)]))
    of_long = file_of(locked(app, IMAGE, by_long, {}, "bundle", name=named))
    lock("an_image_by_sha512", [long], of_long)
    check("an_image_by_sha512_that_holds", long, of_long, "lock holds")


def held():
    """What `lockcheck` says of files that are in their form."""
    app, signature = f"{REGISTRY}/app:v1", payload()
    policy = json.loads(case([], [signature]))
    one = locked(app, IMAGE, signature)
    fails = f"lock fails {compact(app)}"
    check("a_lock_that_holds", policy, file_of(one), "lock holds")
    check("a_lock_without_entries", policy, file_of(), "lock holds")
    by_digest = f"{REGISTRY}/app@{digest(IMAGE, 'sha512')}"
    check("a_reference_by_digest", policy, file_of(dict(one, image=by_digest)), "lock holds")
    # Each text of an entry with a change.
    other = payload(image="other")
    signed_other = dict(one["signature"], content=other, oci_digest=digest(other))
    for title, changes in [
        ("a_digest_of_another_document", {"image": f"{REGISTRY}/app@{digest('x')}"}),
        ("an_image_without_registry", {"image": "app:v1"}),
        ("an_image_that_is_no_reference", {"image": "App"}),
        ("an_empty_image", {"image": ""}),
        ("no_accepted_type", {"accepted": []}),
        ("another_accepted_type", {"accepted": ["application/octet-stream"]}),
        ("another_digest", {"digest": digest("x")}),
        ("a_digest_by_another_algorithm", {"digest": digest(IMAGE, "sha512")}),
        ("both_digests_by_another_algorithm", {"digest": digest(IMAGE, "sha512"), "manifest_digest": digest(IMAGE, "sha512")}),
        ("another_first_document", {"first": IMAGE.replace('"size":11', '"size":12')}),
        ("another_manifest", {"manifest": IMAGE + " "}),
        ("another_manifest_digest", {"manifest_digest": digest("x")}),
        ("both_documents_changed", {"first": IMAGE + " ", "manifest": IMAGE + " "}),
        ("a_signature_of_another_image", {"signature": signed_other}),
        ("another_content", {"signature": dict(one["signature"], content=signature + " ")}),
        ("another_kind", {"signature": dict(one["signature"], kind="bundle")}),
        ("another_digest_of_the_content", {"signature": dict(one["signature"], oci_digest=digest("x"))}),
        ("a_digest_of_the_content_by_sha512", {"signature": dict(one["signature"], oci_digest=digest(signature, "sha512"))}),
        ("another_signature", {"signature": dict(one["signature"], annotations={SIGNATURE: base64_of("sig2")})}),
        ("no_annotations", {"signature": dict(one["signature"], annotations={})}),
    ]:
        changed = dict(one, **changes)
        line = f"lock fails {compact(changed['image'])}" if title != "a_digest_of_the_content_by_sha512" else "lock holds"
        check(f"a_lock_with_{title}", policy, file_of(changed), line)
    more = dict(one, accepted=["application/octet-stream", LAYER])
    check("a_lock_with_more_accepted_types", policy, file_of(more), "lock holds")
    # Another policy.
    for title, changes in [
        ("no_key", {"keys": []}),
        ("another_key", {"keys": ["k2"]}),
        ("no_constraint", {"constraints": []}),
        ("another_constraint", {"constraints": [{"annotations": {"a": "1"}}]}),
        ("no_valid_signature", {"signatures": []}),
    ]:
        check(f"a_lock_under_{title}", dict(policy, **changes), file_of(one), fails)
        check(f"a_lock_without_entries_under_{title}", dict(policy, **changes), file_of(), "lock holds")
    # What the case says of its own pull does not count.
    check("a_lock_under_another_reference", dict(policy, reference=f"{REGISTRY}/z:v9", accepted=[], moments=[1, 2], caching=True), file_of(one), "lock holds")
    several(policy, one)
    indexed(app)
    keyless(app, signature, policy)


def several(policy, one):
    """The first entry that is not locked is reported."""
    second = dict(one, image=f"{REGISTRY}/b:v1")
    third = dict(one, image=f"{REGISTRY}/c:v1")
    check("three_entries_that_hold", policy, file_of(one, second, third), "lock holds")
    bad = {"accepted": []}
    line = {0: one["image"], 1: second["image"], 2: third["image"]}
    for title, places in [("first", [0]), ("second", [1]), ("last", [2]), ("second_and_the_last", [1, 2])]:
        entries = [dict(e, **(bad if i in places else {})) for i, e in enumerate([one, second, third])]
        check(f"the_{title}_of_three_entries_fails", policy, file_of(*entries), f"lock fails {compact(line[places[0]])}")


def indexed(app):
    index = index_of(entry("arm64", "x"), entry("amd64", IMAGE))
    by_index = payload(image=index)
    policy = json.loads(case([], [by_index], platform="linux/amd64"))
    one = locked(app, index, by_index, found=IMAGE)
    fails = f"lock fails {compact(app)}"
    check("an_index_for_its_platform", policy, file_of(one), "lock holds")
    check("an_index_for_its_digest", dict(policy, platform={"digest": digest(IMAGE)}), file_of(one), "lock holds")
    check("an_index_without_platform", dict(policy, platform=None), file_of(one), fails)
    check("an_index_for_another_platform", dict(policy, platform="linux/arm64"), file_of(one), fails)
    check("an_index_for_another_digest", dict(policy, platform={"digest": digest("x")}), file_of(one), fails)
    check("an_index_that_is_its_own_manifest", policy, file_of(locked(app, index, by_index)), fails)
    check("an_index_of_another_manifest", policy, file_of(dict(one, manifest=IMAGE + " ")), fails)
    none = manifest("{}", [])
    without = index_of(entry("amd64", none))
    by_none = payload(image=without)
    empty = json.loads(case([], [by_none], platform="linux/amd64"))
    check("an_index_of_a_manifest_without_layers", empty, file_of(locked(app, without, by_none, found=none)), fails)
    by_empty = payload(image=none)
    check("a_manifest_without_layers", json.loads(case([], [by_empty])), file_of(locked(app, none, by_empty)), fails)
    two = manifest("{}", [descriptor(LAYER, CONTENT), descriptor("application/octet-stream", "x")])
    by_two = payload(image=two)
    check("a_second_layer_of_another_type", json.loads(case([], [by_two])), file_of(locked(app, two, by_two)), fails)
    old = compact(dict(json.loads(IMAGE), schemaVersion=1))
    by_old = payload(image=old)
    check("a_manifest_of_an_old_version", json.loads(case([], [by_old])), file_of(locked(app, old, by_old)), fails)


def keyless(app, signature, policy):
    """A certificate with its log entry."""
    note, _, text = log_entry(log_body(signature))
    found = dict(policy, keys=[], constraints=[{"email": "a@b.example", "issuer": None}], log_keys={"ab": "lk"}, vouched=[{"certificate": "CERT", "key": "ck", "email": "a@b.example"}])
    found["signatures"] = [signs(signature, "ck"), log_signs(text)]
    one = file_of(locked(app, IMAGE, signature, dict(NOTES, **{ENTRY: note, CERTIFICATE: "CERT"})))
    fails = f"lock fails {compact(app)}"
    check("a_lock_of_a_certificate", found, one, "lock holds")
    check("a_lock_of_a_certificate_that_nobody_vouches_for", dict(found, vouched=[]), one, fails)
    check("a_lock_of_a_certificate_where_no_log_is_known", dict(found, log_keys={}), one, fails)


def refused():
    """Files that are not locks."""
    app, signature = f"{REGISTRY}/app:v1", payload()
    policy = json.loads(case([], [signature]))
    one = locked(app, IMAGE, signature)
    text = file_of(one)

    def no(title, found, why):
        check(f"a_file_{title}", policy, found, f"lock refused {why}")

    # Members that are absent, null, doubled, of another type, or one too many.
    value = {"entries": [one], "version": 1}
    places = [("lock", [], value), ("entry", ["entries", 0], one), ("signature", ["entries", 0, "signature"], one["signature"])]

    def at(path, part):
        whole = json.loads(canonical(value))
        if not path:
            return canonical(part)
        inner = whole
        for step in path[:-1]:
            inner = inner[step]
        inner[path[-1]] = part
        return canonical(whole)

    for name, path, part in places:
        for member in part:
            no(f"with_a_{name}_without_{member}", at(path, {k: v for k, v in part.items() if k != member}), "Unreadable")
            no(f"with_a_{name}_with_{member}_of_null", at(path, dict(part, **{member: None})), "Unreadable")
            no(f"with_a_{name}_with_{member}_of_another_type", at(path, dict(part, **{member: True})), "Unreadable")
            pair = f"{compact(member)}:{canonical(part[member])}"
            no(f"with_a_{name}_with_{member}_twice", text.replace(canonical(part), canonical(part).replace(pair, f"{pair},{pair}", 1)), "NotCanonical")
        no(f"with_a_{name}_with_another_member", at(path, dict(part, x="")), "Unreadable")
    for title, version in [("2", "2"), ("0", "0"), ("1_as_a_float", "1.0"), ("1_as_a_text", '"1"'), ("minus_1", "-1"), ("257", "257"), ("1_as_a_power", "1e0")]:
        no(f"of_version_{title}", text.replace('"version":1', f'"version":{version}'), "Unreadable")
    for title, found in [("that_is_empty", ""), ("that_is_no_json", text[:-1]), ("that_is_a_list", f"[{text}]"), ("that_is_null", "null"), ("with_more_behind_it", text + "{}"), ("with_a_byte_order_mark", "\ufeff" + text)]:
        no(title, found, "Unreadable")
    no("with_a_kind_that_is_not_known", file_of(dict(one, signature=dict(one["signature"], kind="other"))), "Unreadable")
    # JSON of a lock, in another text.
    for title, found in [
        ("with_a_space", text.replace("{", "{ ", 1)),
        ("with_a_line_feed_at_its_end", text + "\n"),
        ("with_names_in_another_order", f'{{"version":1,"entries":[{canonical(one)}]}}'),
        ("with_an_escape_of_a_letter", text.replace('"payload"', '"\\u0070ayload"')),
        ("with_an_escaped_slash", text.replace("localhost:5000/app:v1", "localhost:5000\\/app:v1", 1)),
        ("with_entries_of_an_entry_in_another_order", text.replace(canonical(one), compact(dict(reversed(list(one.items())))))),
    ]:
        assert found != text, title
        no(title, found, "NotCanonical")
    # The canonical text of entries that do not increase.
    second = dict(one, image=f"{REGISTRY}/b:v1")
    no("with_an_entry_twice", file_of(one, one), "Order")
    no("with_entries_turned", file_of(second, one), "Order")
    no("with_the_last_entries_turned", file_of(one, dict(one, image=f"{REGISTRY}/c:v1"), second), "Order")
    no("with_entries_turned_and_a_space", file_of(second, one).replace("{", "{ ", 1), "NotCanonical")
    # Whatever the file is, the input must be a case and a text.
    for title, stdin in [
        ("a_bad_case", {"case": dict(policy, at=1), "lock": text}),
        ("a_bad_case_beside_a_bad_file", {"case": dict(policy, at=1), "lock": ""}),
        ("no_file", {"case": policy}),
        ("a_file_that_is_no_text", {"case": policy, "lock": json.loads(text)}),
        ("another_member", {"case": policy, "lock": text, "at": 1}),
        ("no_case_beside_a_file", {"lock": text}),
    ]:
        write(f"locks/input_with_{title}", compact(stdin), [], 3, args=["lockcheck"])


def locks():
    written()
    held()
    refused()
