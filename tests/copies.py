"""Cases of `tests/live`: images that are verified and copied to another registry, both real."""
import base64
import contextlib
import json
import os
import shutil
import signal
import subprocess
import sys
import time
import urllib.parse
from pathlib import Path

TOP = Path(__file__).resolve().parent.parent
sys.path[:0] = [str(TOP), str(TOP / "tests")]
import keyless  # noqa: E402
from cryptography.hazmat.primitives.serialization import load_pem_private_key  # noqa: E402
from locks import indexed  # noqa: E402
from pulls import MOST, children, large_image, layers_like, runs, watched  # noqa: E402
from real_parts import certificates  # noqa: E402
from registry import HASH, MANIFEST, PLAIN, Registry, asked, digest_of, door, json_token, layers_of, make_layout, put_referrers, ran, sign  # noqa: E402

COMMAND, RELATIVE = TOP / "bin/roksnaep", ", relativeurls: true"


@contextlib.contextmanager
def target(live, name, auth="", more=""):
    """Another registry, empty, whose locations are paths, so that a door before it sees all requests."""
    folder = live.folder / name
    shutil.rmtree(folder / "files", ignore_errors=True)
    registry = Registry(folder, auth, RELATIVE + more)
    try:
        yield registry
    finally:
        registry.stop()


def copies(live, source, to, *words, key=None, **more):
    """It is copied; what the command said as JSON."""
    status, out, err = live.ran(["copy", source, to, "--key", key or live.public, "--json", *words], **more)
    told = json.loads(out)
    assert (status, err, told["outcome"]) == (0, "", "copied"), (status, out, err)
    return told


def fails(live, told, source, to, *words, key=None, status=1, **more):
    ended, out, err = live.ran(["copy", source, to, "--key", key or live.public, *words], **more)
    assert (ended, out) == (status, "") and err.count("\n") == 1 and told in err, (ended, out, err)
    return err


def raw(reference, *words):
    return ran("skopeo", "inspect", "--raw", "--tls-verify=false", *words, f"docker://{reference}")


def is_empty(registry, repository="copy"):
    """Whether nothing was pushed to it: no manifest has a name."""
    path = registry.folder / f"files/docker/registry/v2/repositories/{repository}/_manifests"
    return not path.exists() or not any(path.rglob("link"))


def copies_an_image(live):
    """Byte for byte, and what is verified at the target is what was verified at the source. The second copy sends no blob."""
    source = f"{live.place}/app:v1"
    with target(live, "copied") as registry:
        seen = []
        with door({"/": lambda at: seen.append((at.command, at.path)) or at.hand_on()}, registry.place) as place:
            told = copies(live, source, f"{place}/copy:v1", "--annotation", "stage=production")
            assert told["digest"] == live.image["digest"], told
            assert raw(source) == raw(f"{registry.place}/copy:v1")
            for blob in (live.folder / "image/blobs/sha256").iterdir():
                assert registry.blob_file(f"sha256:{blob.name}").read_bytes() == blob.read_bytes()
            live.pulls(f"{place}/copy:v1", live.folder / "image")
            assert live.ran(["verify", f"{place}/copy:v1", "--key", live.public, "--blobs", "--annotation", "stage=production"])[0] == 0
            seen.clear()
            again = copies(live, source, f"{place}/copy:v1")
            small = [path for command, path in seen if command == "PATCH"]
            assert len(small) <= 2, small  # of the payload, and of {}
            assert again["sentence"].endswith("; 5 of 5 blobs were there already, and not pulled") and set(map(digest_of, live.layers)) < set(again["there"]), again
    return told["sentence"]


def copies_large_layers_in_constant_memory(live):
    """Whatever their sizes are, the command, its processes and its cores hold less than a pull may."""
    _, layers = large_image(live, "with-large-ones", [200, 64, 64, 64, 1])
    with target(live, "large-copied") as registry:
        words = ["copy", f"{live.place}/with-large-ones:v1", f"{registry.place}/copy:v1", "--key", live.public]
        status, _, err, most = watched(live, words)
        assert (status, err) == (0, ""), err
        for layer in layers:
            assert registry.blob_file(layer["digest"]).stat().st_size == layer["size"], layer
        assert live.ran(["verify", f"{registry.place}/copy:v1", "--key", live.public, "--blobs"])[0] == 0
        assert most < MOST, most
    return f"at most {most:.0f} MiB held"


def goes_on_with_a_copy_whose_source_broke_off(live):
    """Into the same upload, by a range or from the start."""
    layers, told = layers_like(live, "broken-source"), []
    large = layers[2]
    for way in (lambda at: at.hand_on(), lambda at: at.hand_on(without=("host", "range"))):
        seen, uploads = [], []
        cut = {digest_of(large): lambda at: seen.append(at.headers.get("range")) or (at.hand_on(cut=3_000_000) if len(seen) == 1 else way(at))}
        with target(live, "gone-on") as registry, door(cut, live.place) as here, door({"/uploads/": lambda at: uploads.append(at.command) or at.hand_on()}, registry.place) as there:
            copies(live, f"{here}/broken-source:v1", f"{there}/copy:v1")
            assert registry.blob_file(digest_of(large)).read_bytes() == large
        assert len(seen) == 2 and seen[1] and uploads.count("POST") == 6, (seen, uploads)
        told.append(f"{seen[1]} of {len(large)}")
    return ", ".join(told)


def commits_no_copy_of_other_bytes(live):
    """The source answers with as many other ones, or with a byte less or more: of that layer the target has nothing but an upload."""
    layers, told = layers_like(live, "other-bytes"), []
    large = layers[2]
    for content, why in ((large[:-1] + bytes([large[-1] ^ 1]), "has the digest sha256:"), (large[:-1], "has the digest sha256:"), (large + b"x", "a body is longer than the limit")):
        puts = []
        with target(live, "other-bytes-copied") as registry, door({"/uploads/": lambda at: (puts.append(at.path) if at.command == "PUT" else None) or at.hand_on()}, registry.place) as there, door(
                {digest_of(large): lambda at, content=content: at.answer(200, content)}, live.place) as here:
            told.append(fails(live, why, f"{here}/other-bytes:v1", f"{there}/copy:v1"))
            assert is_empty(registry) and not any(registry.blob_file(digest_of(x)).exists() for x in (large, content))
            assert not any(urllib.parse.quote(digest_of(x), "") in path or digest_of(x) in path for x in (large, content) for path in puts), puts
    return "".join(told)


def copies_an_empty_layer(live):
    """skopeo pushes it, and the cores the other one."""
    layers = [b"", b"a layer"]
    named = make_layout(live.folder / "with-an-empty-one", layers, media_type=PLAIN)
    live.push(live.folder / "with-an-empty-one", "with-an-empty-one:v1")
    sign(live.place, "with-an-empty-one", named["digest"], live.key)
    with target(live, "empty-copied") as registry:
        told = copies(live, f"{live.place}/with-an-empty-one:v1", f"{registry.place}/copy:v1")
        assert all(registry.blob_file(digest_of(layer)).read_bytes() == layer for layer in layers)
    return told["sentence"]


def copies_nothing_that_another_key_signed(live):
    with target(live, "unsigned") as registry:
        told = fails(live, "matches the given keys and annotations", f"{live.place}/app:v1", f"{registry.place}/copy:v1", key=live.other)
        asked(registry.place, "GET", "/v2/copy/tags/list", expected=(404,))
        assert is_empty(registry)
    return told


def copies_an_index(live):
    """One image of it alone is refused by this registry; with --all each is there before the index."""
    digest = indexed(live, "many-platforms")
    source, seen = f"{live.place}/many-platforms:v1", []
    with target(live, "indexed") as registry:
        told = fails(live, "/manifests/", source, f"{registry.place}/copy:v1", "--platform", "linux/amd64")
        asked(registry.place, "GET", "/v2/copy/manifests/v1", expected=(404,))
        with door({"/manifests/": lambda at: (seen.append(at.path) if at.command == "PUT" else None) or at.hand_on()}, registry.place) as place:
            whole = copies(live, source, f"{place}/copy:v1", "--all", "--platform", "linux/amd64")
            assert whole["digest"] == digest and raw(source) == raw(f"{registry.place}/copy:v1")
        for architecture in ("amd64", "arm64"):
            found = json.loads(ran("skopeo", "inspect", "--override-arch", architecture, "--override-os", "linux", "--tls-verify=false", f"docker://{registry.place}/copy:v1"))
            assert found["Architecture"] == architecture, found
            assert live.ran(["verify", f"{registry.place}/copy:v1", "--key", live.public, "--platform", f"linux/{architecture}", "--blobs"])[0] == 0
        assert seen.index("/v2/copy/manifests/v1") >= 2, seen
    return told


def goes_on_with_a_copy_that_broke_off(live):
    """From the third on each PATCH is refused, or its connection is lost: no tag is there. The next copy sends what is not."""
    told = []
    for way, why in ((lambda at: at.answer(500, b""), "returned the status 500"), (lambda at: setattr(at, "close_connection", True), "the connection failed")):
        with target(live, "broken-copy") as registry:
            seen = []

            def cut(at):
                seen.append(at.path)
                return way(at) if len(seen) >= 3 else at.hand_on()

            def uploads(at):
                return cut(at) if at.command == "PATCH" else at.hand_on()
            with door({"/blobs/uploads/": uploads}, registry.place) as place:
                told.append(fails(live, why, f"{live.place}/app:v1", f"{place}/copy:v1"))
            assert len(seen) >= 3
            asked(registry.place, "GET", "/v2/copy/manifests/v1", expected=(404,))
            assert is_empty(registry)
            copies(live, f"{live.place}/app:v1", f"{registry.place}/copy:v1")
    return "".join(told)


def copies_with_credentials_of_each(live):
    """The source wants a password and the target a token: neither sees anything of the other."""
    folder, given, seen = live.folder / "sides", [], {"source": [], "target": []}
    folder.mkdir()
    shutil.copytree(live.registry.folder / "files", folder / "source/files")
    (folder / "users").write_text(f"user:{HASH}\n")
    key, certificate = folder / "tls.key", folder / "tls.pem"
    ran("openssl", "req", "-x509", "-newkey", "rsa:2048", "-nodes", "-keyout", key, "-out", certificate, "-subj", "/CN=localhost", "-days", "2")
    source = Registry(folder / "source", f"auth: {{htpasswd: {{realm: live, path: {folder}/users}}}}\n")

    def give(at):
        query = urllib.parse.parse_qs(urllib.parse.urlsplit(at.path).query)
        given.append(query["scope"][0])
        kind, name, actions = given[-1].split(":")
        if at.headers.get("authorization") != "Basic " + base64.b64encode(b"target:a password").decode():
            return at.answer(401, b'{"errors":[{"code":"UNAUTHORIZED"}]}')
        now = int(time.time())
        claims = {"iss": "live", "sub": "target", "aud": query["service"][0], "exp": now + 300, "nbf": now - 10, "iat": now, "jti": "x",
                  "access": [{"type": kind, "name": name, "actions": actions.split(",")}]}
        return at.answer(200, json.dumps({"token": json_token(key, certificate, claims)}).encode(), [("Content-Type", "application/json")])

    def noting(side):
        return {"/": lambda at: (seen[side].append(at.headers.get("authorization")), give(at) if at.path.startswith("/token") else at.hand_on())[1]}

    try:
        with door({}, "") as spare:
            pass
        port = int(spare.rpartition(":")[2])
        auth = f"auth: {{token: {{realm: 'http://localhost:{port}/token', service: live, issuer: live, rootcertbundle: {certificate}}}}}\n"
        with target(live, "sides/target", auth) as registry, door(noting("source"), source.place) as here, door(noting("target"), registry.place, port=port) as there:
            words = ("--username", "user", "--target-username", "target", "--password-stdin", "--http", "--target-http")
            told = copies(live, f"{here}/app:v1", f"{there}/copy:v1", *words, input="right password\na password\n")
            pairs = {side: "Basic " + base64.b64encode(text).decode() for side, text in (("source", b"user:right password"), ("target", b"target:a password"))}
            assert set(seen["source"]) == {None, pairs["source"]}, set(seen["source"])
            assert pairs["target"] in seen["target"] and all(text in (None, pairs["target"]) or text.startswith("Bearer ") for text in seen["target"])
            assert given and all(scope.startswith("repository:copy:pull") for scope in given) and "repository:copy:pull,push" in given, given
            config = {"auths": {here: {"auth": pairs["source"][6:]}, there: {"auth": pairs["target"][6:]}}}
            (folder / "auth.json").write_text(json.dumps(config))
            copies(live, f"{here}/app:v1", f"{there}/copy:v2", "--authfile", folder / "auth.json")
            fails(live, "two users have two passwords", f"{here}/app:v1", f"{there}/copy:v1", *words, input="one\n", status=2)
            fails(live, "needs credentials, or other ones", f"{here}/app:v1", f"{there}/copy:v3", *words, input="right password\nwrong\n")
    finally:
        source.stop()
    return told["sentence"]


def replaces_a_tag_only_if_it_may_copy(live):
    """A tag that is there with another digest, also that of the signatures, refuses the copy before anything is sent."""
    other = make_layout(live.folder / "in-the-way", layers_of("in-the-way", [900]))
    with target(live, "replaced") as registry:
        to = f"{registry.place}/copy:v1"
        live.push(live.folder / "in-the-way", "copy:v1", registry.place)
        told = fails(live, other["digest"], f"{live.place}/app:v1", to)
        assert digest_of(raw(to)) == other["digest"] and not registry.blob_file(digest_of(live.layers[3])).exists()
        copies(live, f"{live.place}/app:v1", to, "--replace")
        assert digest_of(raw(to)) == live.image["digest"]
        copies(live, f"{live.place}/app:v1", to)
        signatures = f"copy:{live.image['digest'].replace(':', '-')}.sig"
        live.push(live.folder / "in-the-way", signatures, registry.place)
        assert signatures in fails(live, other["digest"], f"{live.place}/app:v1", to)
        assert digest_of(raw(f"{registry.place}/{signatures}")) == other["digest"]
        copies(live, f"{live.place}/app:v1", to, "--replace")
        assert digest_of(raw(f"{registry.place}/{signatures}")) != other["digest"]
    return told


def says_that_a_copied_bundle_is_not_listed(live):
    """This registry has no list of referrers."""
    named = make_layout(live.folder / "bundle-copied", layers_of("bundle-copied", [900]))
    live.push(live.folder / "bundle-copied", "bundle-copied:v1")
    bundle = keyless.Sigstore().bundle(named["digest"], key=load_pem_private_key(live.key.read_bytes(), None))
    put_referrers(live.place, "bundle-copied", named["digest"], [bundle])
    with target(live, "listed") as registry:
        said = copies(live, f"{live.place}/bundle-copied:v1", f"{registry.place}/copy:v1")
        told = said["sentence"]
        assert "the target does not list referrers" in told, told
        found = json.loads(asked(registry.place, "GET", f"/v2/copy/manifests/{said['pushed'][-1]}", headers={"Accept": MANIFEST})[1])
        assert found["subject"]["digest"] == named["digest"], found
    return told


def stalled(live, way):
    """A copy of which a layer does not come, and what becomes of it after a way of ending it: no tag, and none of its processes and cores."""
    layer = {digest_of(live.layers[3]): lambda at: time.sleep(25)}
    with target(live, "stopped-copy") as registry, door(layer, live.place) as here:
        words = [COMMAND, "copy", f"{here}/app:v1", f"{registry.place}/copy:v1", "--key", live.public]
        with subprocess.Popen(words, env=live.environment, stderr=subprocess.PIPE, text=True) as run:
            until, others, pair = time.monotonic() + 120, [[]], []
            while time.monotonic() < until and (others or len(pair) != 2):
                time.sleep(0.5)
                processes = children(run.pid)
                pair, *others = sorted(filter(None, map(children, processes)), key=len, reverse=True) or [[]]
            assert len(pair) == 2 and not others, (pair, others)
            way(run.pid, pair)
            err = run.communicate(timeout=30)[1]
        time.sleep(0.5)
        assert not any(map(runs, processes + pair)), (processes, pair)
        assert is_empty(registry)
        return run.returncode, err, f"{here}/app:v1"


def leaves_no_copy_when_stopped(live):
    """By a signal, or by the end of the one that is killed: the command, the core that pushes a blob or the one that pulls it."""
    status, err, source = stalled(live, lambda run, _: os.kill(run, signal.SIGINT))
    assert (status, err) == (4, f"stopped {source}: by SIGINT\n"), (status, err)
    status, err, _ = stalled(live, lambda run, _: os.kill(run, signal.SIGKILL))
    assert (status, err) == (-signal.SIGKILL, ""), (status, err)
    for which in 0, 1:
        status, err, source = stalled(live, lambda _, pair, which=which: os.kill(pair[which], signal.SIGKILL))
        assert (status, err) == (4, f"failed {source}: the core ended unexpectedly\n"), (status, err)
    return err


def copies_over_tls(live):
    """The target's root is for the target alone."""
    root = certificates(live.folder / "copy-tls", "localhost")
    folder = live.folder / "copy-tls"
    with target(live, "copy-tls/registry", more=f", tls: {{certificate: {folder}/localhost.pem, key: {folder}/localhost.key}}") as registry:
        copies(live, f"{live.place}/app:v1", f"{registry.place}/copy:v1", "--target-ca", root)
        return fails(live, "certificate", f"{live.place}/app:v1", f"{registry.place}/copy:v2", "--target-ca", certificates(live.folder / "copy-tls-other"))


CASES = [copies_an_image, copies_an_empty_layer, copies_nothing_that_another_key_signed, copies_an_index, goes_on_with_a_copy_that_broke_off, goes_on_with_a_copy_whose_source_broke_off, commits_no_copy_of_other_bytes,
         copies_with_credentials_of_each, replaces_a_tag_only_if_it_may_copy, says_that_a_copied_bundle_is_not_listed, leaves_no_copy_when_stopped, copies_over_tls, copies_large_layers_in_constant_memory]
