"""Cases of `tests/live`: documents alone and lock files, with a real registry."""
import json
import subprocess
import sys
from pathlib import Path

TOP = Path(__file__).resolve().parent.parent
sys.path[:0] = [str(TOP), str(TOP / "tests")]
import keyless  # noqa: E402
from cryptography.hazmat.primitives.serialization import load_pem_private_key  # noqa: E402
from registry import INDEX, asked, digest_of, door, layers_of, make_layout, put_referrers, ran, sign  # noqa: E402

COMMAND = TOP / "bin/roksnaep"


def noting(seen):
    """Ways of a door that hand everything on, and note the paths."""
    def hand_on(at):
        seen.append(at.path)
        return at.hand_on()
    return {"/": hand_on}


def verifies_documents_alone(live):
    """No layer and no configuration of the image is requested; with --blobs all are."""
    seen, config = [], json.loads((live.folder / "image/blobs/sha256" / live.image["digest"][7:]).read_bytes())["config"]["digest"]
    with door(noting(seen), live.place) as place:
        for words, count in (([], 0), (["--blobs"], 5)):
            seen.clear()
            told = live.ran(["verify", f"{place}/app:v1", "--key", live.public, *words])
            assert told[::2] == (0, ""), told
            found = {path.rpartition("/")[2] for path in seen} & {config, *map(digest_of, live.layers)}
            assert len(found) == count, (words, seen)
    assert live.ran(["verify", f"{live.place}/app:v1", "--key", live.other])[0] == 1
    return told[1]


def indexed(live, name, signed=True):
    """A signed index of two images."""
    entries = []
    for architecture in ("amd64", "arm64"):
        layout = live.folder / f"{name}-{architecture}"
        described = make_layout(layout, layers_of(f"{name}{architecture}", [700, 1300]), architecture)
        live.push(layout, f"{name}:{architecture}")
        entries.append(described | {"platform": {"os": "linux", "architecture": architecture}})
    index = json.dumps({"schemaVersion": 2, "mediaType": INDEX, "manifests": entries}).encode()
    asked(live.place, "PUT", f"/v2/{name}/manifests/v1", index, {"Content-Type": INDEX})
    sign(live.place, name, digest_of(index), live.key)
    return digest_of(index)


def locks_images(live):
    """An image, one of an index, and one that a bundle signs are locked; the file holds without a network, and says what it has."""
    indexed(live, "locked")
    layout = live.folder / "bundled-image"
    named = make_layout(layout, layers_of("bundled", [900]))
    live.push(layout, "bundledlock:v1")
    bundle = keyless.Sigstore().bundle(named["digest"], key=load_pem_private_key(live.key.read_bytes(), None))
    put_referrers(live.place, "bundledlock", named["digest"], [bundle])
    file = live.folder / "all.lock"
    images = [f"{live.place}/{name}:v1" for name in ("locked", "app", "bundledlock")]
    told = live.ran(["lock", *images, "--key", live.public, "--lock", file, "--platform", "linux/arm64"])
    assert told == (0, f"locked 3 images in {file}\n", ""), told
    entries = json.loads(file.read_text())["entries"]
    assert [entry["image"] for entry in entries] == sorted(images) and entries[1]["signature"]["kind"] == "bundle", entries
    check = ["lockcheck", "--key", live.public, "--lock", file]
    assert live.ran(check) == (0, f"checked {file}: 3 images, signed as required\n", "")
    offline = subprocess.run(["unshare", "--net", COMMAND, *check], capture_output=True, text=True, env=live.environment)
    assert offline.returncode == 0 or "unshare failed" in offline.stderr, offline
    assert live.ran([*check, *images])[0] == 0
    assert live.ran([*check, "--platform", "linux/amd64"])[0] == 1  # the file has the other image of the index
    assert live.ran([*check, f"{live.place}/app:v2"])[0] == 1
    status, _, err = live.ran(["lockcheck", "--key", live.other, "--lock", file])
    assert (status, err.startswith(f"refused {file}: {live.place}/app:v1: no signature of {live.image['digest']}")) == (1, True), err
    return told[1]


def refuses_an_edited_lock(live):
    """Whatever is edited, the file is refused as a whole."""
    file = live.folder / "edited.lock"
    assert live.ran(["lock", f"{live.place}/app:v1", "--key", live.public, "--lock", file])[0] == 0
    text, told = file.read_text(), []
    other = "sha256:" + 64 * "0"
    for edited in (text + "\n", text.replace('"version":1', '"version": 1'), text.replace(live.image["digest"], other), text.replace('"first":"{', '"first":"{ ', 1),
                   text.replace('"version":1', '"version":2'), text[:-1], text.replace("app:v1", "app:v2", 1)):
        assert edited != text
        file.write_text(edited)
        status, out, err = live.ran(["lockcheck", f"{live.place}/app:v1", "--key", live.public, "--lock", file])
        assert (status, out) == (1, ""), (status, out, err, edited[:200])
        told.append(err)
    assert "write it anew: roksnaep lock" in told[0]
    return "".join(told)


def pulls_what_is_locked(live):
    """A tag moves and the signature is gone: the lock still gives the old image, byte for byte, and no manifest is requested."""
    layout = live.folder / "pinned-image"
    named = make_layout(layout, layers_of("pinned", [5000, 60_000]))
    live.push(layout, "pinned:v1")
    sign(live.place, "pinned", named["digest"], live.key)
    file = live.folder / "pinned.lock"
    assert live.ran(["lock", f"{live.place}/pinned:v1", "--key", live.public, "--lock", file])[0] == 0
    moved = live.folder / "moved-image"
    other = make_layout(moved, layers_of("moved", [100]))
    live.push(moved, "pinned:v1")
    live.push(moved, f"pinned:{named['digest'].replace(':', '-')}.sig")
    live.refuses(f"{live.place}/pinned:v1", f"no signature of {other['digest']} was found")
    text, out = file.read_text(), live.folder / "pinned-out"
    told = live.ran(["pull", f"{live.place}/pinned:v1", "--key", live.public, "--lock", file, "--out", out])
    assert told[::2] == (0, ""), told
    for blob in (layout / "blobs/sha256").iterdir():
        assert (out / "blobs/sha256" / blob.name).read_bytes() == blob.read_bytes()
    assert json.loads(ran("skopeo", "inspect", f"oci:{out}"))["Digest"] == named["digest"]
    assert live.ran(["check", out, "--key", live.public])[0] == 0
    seen = []
    with door(noting(seen), live.place) as place:
        file.write_text(text.replace(f'"image":"{live.place}/', f'"image":"{place}/'))
        told = live.ran(["pull", f"{place}/pinned:v1", "--key", live.public, "--lock", file, "--out", live.folder / "pinned-again"])
        assert told[::2] == (0, "") and not [path for path in seen if "/manifests/" in path or "/referrers/" in path], (told, seen)
    file.write_text(text)
    live.refuses(f"{live.place}/pinned:v1", "no signature of", "--lock", file, key=live.other)
    return told[1]


CASES = [verifies_documents_alone, locks_images, refuses_an_edited_lock, pulls_what_is_locked]
