"""The credentials for a registry, from the files and the programs that docker, podman and skopeo keep them in."""
import base64
import contextlib
import json
import os
import re
import selectors
import shutil
import subprocess
import time
from pathlib import Path
from subprocess import PIPE
from typing import Any

from host.files import read

FORMS = ("{}", "https://{}", "https://{}/", "https://{}/v1/", "https://{}/v2/", "http://{}")
HUB, LONGEST = ("docker.io", "index.docker.io"), 64 << 10  # bytes of a user, a password or a token
WAIT, WRITTEN = 30, 1 << 20  # seconds for a program, and bytes that it may write
TOKEN = "an identity token is kept for {}, which cannot be exchanged here; use a user and a password: --username and --password-stdin"


def files(authfile: Path | None) -> list[Path]:
    """Where credentials may be, in the order in which they count."""
    variable = os.environ.get
    if named := authfile or variable("REGISTRY_AUTH_FILE"):
        return [Path(named)]
    home = variable("HOME")
    folders = {"containers/auth.json": variable("XDG_RUNTIME_DIR"), "config.json": variable("DOCKER_CONFIG") or home and f"{home}/.docker"}
    return [Path(folder) / name for name, folder in folders.items() if folder and (Path(folder) / name).is_file()]


def run(program: str, server: str) -> tuple[int, bytes, bytes]:
    """The status of a program, and what it writes about a server on standard output and on standard error; within bounds, which subprocess.run has for the time alone."""
    until = time.monotonic() + WAIT
    with subprocess.Popen([program, "get"], stdin=PIPE, stdout=PIPE, stderr=PIPE) as process, selectors.DefaultSelector() as streams:
        assert process.stdin and process.stdout and process.stderr
        written = {process.stdout.fileno(): b"", process.stderr.fileno(): b""}
        try:
            with contextlib.suppress(BrokenPipeError), process.stdin:  # which it need not read
                process.stdin.write(server.encode())
            for number in written:
                streams.register(number, selectors.EVENT_READ)
            while streams.get_map():
                ready = streams.select(max(0, until - time.monotonic()))
                if not ready:
                    raise subprocess.TimeoutExpired(process.args, WAIT)
                for key, _ in ready:
                    piece = os.read(key.fd, WRITTEN)
                    written[key.fd] += piece
                    if not piece:
                        streams.unregister(key.fd)
                    if len(written[key.fd]) > WRITTEN:
                        raise ValueError(f"{Path(program).name} writes more than {WRITTEN} bytes, which are not credentials")
            out, errors = written.values()
            return process.wait(max(0, until - time.monotonic())), out, errors
        finally:
            process.kill()


def helped(helper: str, server: str) -> Any:
    """What docker-credential-HELPER, a program on the PATH, has for a server."""
    program = shutil.which(f"docker-credential-{helper}") if re.fullmatch(r"[\w.-]+", helper, re.ASCII) else None
    if not program:
        raise ValueError(f"there is no program docker-credential-{helper} on the PATH")
    status, written, errors = run(program, server)
    if status:
        if b"not found" in written:
            return None
        raise ValueError(f"docker-credential-{helper} failed: {(written or errors).decode(errors='replace').strip()[:300]}")
    found = json.loads(written)
    if found["Username"] == "<token>":
        raise ValueError(TOKEN.format(server))
    return {"basic": [found["Username"], found["Secret"]]} if found["Username"] or found["Secret"] else None


def entered(entry: dict[str, Any], name: str) -> Any:
    if token := entry.get("registrytoken"):
        return {"bearer": token}
    if entry.get("identitytoken"):
        raise ValueError(TOKEN.format(name))
    user, colon, password = base64.b64decode(entry.get("auth") or "").decode().partition(":")
    return {"basic": [user, password.rstrip("\0")]} if colon else None


def valid(auth: Any) -> Any:
    """The credentials; ValueError if a part of them is not a string that a request can have."""
    parts = auth.get("basic") or [auth["bearer"]]
    if not all(isinstance(part, str) and len(part.encode()) <= LONGEST for part in parts):
        raise ValueError(f"a user, a password or a token is not a string of at most {LONGEST} bytes; log in again")
    if "bearer" in auth and not re.fullmatch("[!-~]+", auth["bearer"]):
        raise ValueError("the registry token has a character that no token has; log in again")
    return auth


def credentials(repository: str, authfile: Path | None) -> Any:
    """The `auth` of the settings for a repository, whose first part is its registry: those of the longest name in the first file that has any."""
    registry, *path = repository.split("/")
    hosts = HUB if registry in HUB else (registry,)
    names = ["/".join((host, *path[:count])) for count in range(len(path), 0, -1) for host in hosts]
    names += [form.format(host) for host in hosts for form in FORMS]
    for file in files(authfile):
        try:
            content = json.loads(b"{}" if file.samefile(os.devnull) else read(file) or b"{}")
            auths, helpers = content.get("auths") or {}, content.get("credHelpers") or {}
            helper = next((helpers[host] for host in hosts if host in helpers), None) or content.get("credsStore")
            server = "https://index.docker.io/v1/" if registry in HUB else registry
            found = helper and helped(helper, server) or next(filter(None, (entered(auths[name], name) for name in names if name in auths)), None)
            if found:
                return valid(found)
        except (ValueError, RecursionError, subprocess.SubprocessError) as error:
            raise ValueError(f"{file} gives no credentials for {registry}: {error}") from None
        except (LookupError, TypeError, AttributeError):
            raise ValueError(f"{file} gives no credentials for {registry}: a member of it, or of what its program wrote, is missing or has another type") from None
    return "anonymous"
