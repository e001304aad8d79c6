"""Cases of `tests/live`: blobs by cores side by side, of large images, that are cut off and go on, with a real registry."""
import hashlib
import json
import os
import random
import signal
import subprocess
import sys
import time
from pathlib import Path

TOP = Path(__file__).resolve().parent.parent
sys.path[:0] = [str(TOP), str(TOP / "tests")]
from registry import CONFIG, MANIFEST, PLAIN, digest_of, door, layers_of, make_layout, sign, write_blob  # noqa: E402

COMMAND, MIB, MOST = TOP / "bin/roksnaep", 1 << 20, 128


def large_layout(folder, sizes):
    """An OCI image layout with layers of these sizes in MiB, none of which is ever held; the descriptors of its manifest and its layers."""
    chance, layers = random.Random(str(sizes)), []
    blobs = folder / "blobs/sha256"
    blobs.mkdir(parents=True)
    for size in sizes:
        digest = hashlib.sha256()
        with open(folder / "layer", "wb") as file:
            for _ in range(size):
                digest.update(piece := chance.randbytes(MIB))
                file.write(piece)
        (folder / "layer").rename(blobs / digest.hexdigest())
        layers.append({"mediaType": PLAIN, "digest": f"sha256:{digest.hexdigest()}", "size": size * MIB})
    config = json.dumps({"architecture": "amd64", "os": "linux", "config": {}, "rootfs": {"type": "layers", "diff_ids": [layer["digest"] for layer in layers]}}).encode()
    manifest = json.dumps({"schemaVersion": 2, "mediaType": MANIFEST, "config": {"mediaType": CONFIG} | write_blob(folder, config), "layers": layers}).encode()
    named = {"mediaType": MANIFEST} | write_blob(folder, manifest)
    (folder / "oci-layout").write_text('{"imageLayoutVersion":"1.0.0"}')
    (folder / "index.json").write_text(json.dumps({"schemaVersion": 2, "manifests": [named]}))
    return named, layers


def large_image(live, name, sizes):
    """The same in the registry, signed."""
    named, layers = large_layout(live.folder / name, sizes)
    live.push(live.folder / name, f"{name}:v1")
    sign(live.place, name, named["digest"], live.key)
    return named, layers


def children(process):
    return [int(child) for path in Path(f"/proc/{process}").glob("task/*/children") for child in path.read_text().split()]


def runs(process):
    """Whether it exists, and has not ended (then it waits for its parent)."""
    path = Path(f"/proc/{process}/stat")
    return path.exists() and path.read_text().rpartition(")")[2].split()[0] != "Z"


def memory(process):
    """What a process and its children hold together, in MiB: of a page that some of them share each holds its part."""
    try:
        shares = dict(line.split(":", 1) for line in Path(f"/proc/{process}/smaps_rollup").read_text().splitlines()[1:])
        return int(shares["Pss"].split()[0]) / 1024 + sum(map(memory, children(process)))
    except (OSError, LookupError, ValueError):
        return 0


def written(folder):
    return sum(path.stat().st_size for path in folder.rglob("*") if path.is_file()) if folder.exists() else 0


def watched(live, words, until=lambda: False):
    """A run of the command until it ends, or is killed: its status, what it said, and the most memory that it and its cores held."""
    most, run = 0.0, subprocess.Popen([COMMAND, *words], env=live.environment, stdout=subprocess.PIPE, stderr=subprocess.PIPE, text=True)
    while run.poll() is None:
        most = max(most, memory(run.pid))
        if until():
            run.send_signal(signal.SIGKILL)
        time.sleep(0.02)
    out, err = run.communicate()
    return run.returncode, out, err, most


def goes_on(live, name, sizes):
    """A pull that is killed in the middle; the next one requests only what is missing, both in constant memory."""
    _, layers = large_image(live, name, sizes)
    asked, out, whole = [], live.folder / f"{name}-out/image", sum(sizes) * MIB
    words = ["pull", f"{live.place}/{name}:v1", "--key", live.public, "--out", out]
    status, _, err, most = watched(live, words, lambda: written(out.parent) > whole // 3)
    assert (status, len(os.listdir(out.parent))) == (-signal.SIGKILL, 1), (status, err)
    had = written(out.parent)
    status, _, err, later = watched(live, words)
    assert (status, err, os.listdir(out.parent)) == (0, "", ["image"]), (status, err)
    for layer in layers:
        assert (out / "blobs/sha256" / layer["digest"][7:]).stat().st_size == layer["size"], layer
    assert max(most, later) < MOST, (most, later)
    return f"{had / MIB:.0f} of {whole / MIB:.0f} MiB were there; at most {max(most, later):.0f} MiB held"


def pulls_a_gibibyte_in_eight_layers(live):
    return goes_on(live, "eight", [128] * 8)


def pulls_a_layer_of_two_gibibytes(live):
    return goes_on(live, "one", [2048])


def pulls_200_layers(live):
    """With about as many requests as there are layers."""
    _, layers = large_image(live, "many", [1] * 200)
    seen = []
    with door({"/": lambda at: seen.append((at.command, at.path)) or at.hand_on()}, live.place) as place:
        out = live.folder / "many-out/image"
        status, _, err, most = watched(live, ["pull", f"{place}/many:v1", "--key", live.public, "--out", out])
    assert (status, err) == (0, ""), err
    assert all((out / "blobs/sha256" / layer["digest"][7:]).stat().st_size == MIB for layer in layers)
    assert len(seen) < 215 and sum(path == "/v2/" for _, path in seen) == 1, [path for _, path in seen if "/blobs/" not in path]
    assert most < MOST, most
    return f"{len(seen)} requests; at most {most:.0f} MiB held"


def layers_like(live, name):
    """An image of a small layer, a middle one and a large one."""
    layers = layers_of(name, [3000, 300_000, 5_000_000])
    named = make_layout(live.folder / name, layers)
    live.push(live.folder / name, f"{name}:v1")
    sign(live.place, name, named["digest"], live.key)
    return layers


def goes_on_where_a_blob_broke_off(live):
    """By a range, if the registry takes it; if it ignores it, or answers with another one, from the start."""
    layers, told = layers_like(live, "broken"), []

    def whole(at):
        return at.hand_on(without=("host", "range"))

    def another(at):
        if not at.headers.get("range"):
            return whole(at)
        start = int(at.headers["range"][6:-1]) + 1
        return at.answer(206, large[start:], [("Content-Range", f"bytes {start}-{len(large) - 1}/{len(large)}")])

    large = layers[2]
    for way in (lambda at: at.hand_on(), whole, another):
        seen = []
        cut = {digest_of(large): lambda at: seen.append(at.headers.get("range")) or (at.hand_on(cut=3_000_000) if len(seen) == 1 else way(at))}
        with door(cut, live.place) as place:
            live.pulls(f"{place}/broken:v1", live.folder / "broken")
        assert len(seen) in (2, 3) and seen[1], seen
        told.append(f"{seen[1]} of {len(large)}")
    return ", ".join(told)


def refuses_layers_of_another_size(live):
    """A byte more, or one less, than the manifest says."""
    layers = layers_like(live, "sized")
    told = []
    for content, why in ((layers[1] + b"x", "a body is longer than the limit"), (layers[1][:-1], f"the content with the digest {digest_of(layers[1])} has the digest sha256:")):
        with door({digest_of(layers[1]): lambda at, content=content: at.answer(200, content)}, live.place) as place:
            told.append(live.refuses(f"{place}/sized:v1", why))
    return "".join(told)


def goes_on_after_a_401(live):
    """As of a token that ended: the blob is requested once more, and no more often."""
    layers, seen = layers_like(live, "ended"), []
    for count, way in ((2, live.pulls), (2, live.refuses)):
        seen.clear()
        closed = {digest_of(layers[2]): lambda at: seen.append(at.path) or (at.answer(401, b"") if way == live.refuses or len(seen) == 1 else at.hand_on())}
        with door(closed, live.place) as place:
            told = way(f"{place}/ended:v1", live.folder / "ended" if way == live.pulls else "needs credentials, or other ones")
        assert len(seen) == count, seen
    return told


def stalled(live, way):
    """A pull whose largest blob does not come, and what becomes of it after a way of ending it; its processes and cores are gone then."""
    layers, out = layers_like(live, "stalled"), live.folder / "stalled-out/image"
    with door({"/blobs/": lambda at: time.sleep(9) if at.path.endswith(digest_of(layers[2])) else at.hand_on()}, live.place) as place:
        words = [COMMAND, "pull", f"{place}/stalled:v1", "--key", live.public, "--out", out]
        with subprocess.Popen(words, env=live.environment, stderr=subprocess.PIPE, text=True) as run:
            until = time.monotonic() + 30
            while time.monotonic() < until and not (cores := [core for process in children(run.pid) for core in children(process)]):
                time.sleep(0.05)
            time.sleep(1)
            processes, cores = children(run.pid), [core for process in children(run.pid) for core in children(process)]
            way(run.pid, processes, cores)
            err = run.communicate(timeout=30)[1]
    time.sleep(0.5)
    assert cores and not any(map(runs, processes + cores)), (processes, cores)
    return run.returncode, err, out.parent


def tells_that_a_core_was_killed(live):
    """One of the cores, or a process that receives for it, is killed while it waits for its blob."""
    for killed in (lambda _, processes, cores: cores, lambda _, processes, cores: processes):
        status, err, folder = stalled(live, lambda *found, killed=killed: [os.kill(process, signal.SIGKILL) for process in killed(*found)])
        assert (status, folder.exists(), err.count("\n")) == (4, False, 1) and "the core ended unexpectedly" in err, (status, err)
    return err


def leaves_no_process(live):
    """Neither after a signal nor after the command was killed: only then its hidden folder is left."""
    status, err, folder = stalled(live, lambda run, *_: os.kill(run, signal.SIGTERM))
    assert (status, folder.exists(), "by SIGTERM" in err) == (4, False, True), (status, err)
    status, err, folder = stalled(live, lambda run, *_: os.kill(run, signal.SIGKILL))
    assert (status, err, len(os.listdir(folder))) == (-signal.SIGKILL, "", 1), (status, err)
    return "also its cores are gone"


CASES = [goes_on_where_a_blob_broke_off, refuses_layers_of_another_size, goes_on_after_a_401, tells_that_a_core_was_killed, leaves_no_process, pulls_200_layers, pulls_a_gibibyte_in_eight_layers,
         pulls_a_layer_of_two_gibibytes]
