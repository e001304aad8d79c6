"""Has blobs that no core carries, empty ones and those whose digests are not SHA-256, at a copy's target: skopeo pushes them from a hidden layout, under no tag."""
import base64
import json
import os
import re
import shutil
import subprocess
import tempfile
from pathlib import Path

from host.core import Frame
from host.places import repository_of
from host.terminal import End


class Skopeo:
    """skopeo for one target, with its credentials in a file that only this user can read."""

    def __init__(self, target: Frame, authority: Path | None, proxy: str | None) -> None:
        self.program, self.target, self.folder = shutil.which("skopeo"), target, tempfile.TemporaryDirectory(prefix="roksnaep-")
        if not self.program:
            raise End(1, "a copy needs skopeo for blobs that are empty, or have other digests than SHA-256: apt-get install skopeo")
        self.repository, auth = repository_of(target["reference"]), target["auth"]
        self.environment = os.environ | ({"HTTPS_PROXY": proxy, "HTTP_PROXY": proxy} if proxy else {})
        self.access = {"tls-verify": f"{'false' if target['protocol'] == 'http' else 'true'}"}
        if auth == "anonymous":
            self.access["no-creds"] = "true"
        else:
            self.access["authfile"] = self.written("auth.json", json.dumps({"auths": {self.repository.partition("/")[0]: {
                "auth": base64.b64encode(":".join(auth["basic"]).encode()).decode()}}}).encode())
        if authority:
            self.access["cert-dir"] = str(Path(self.written("certificates/ca.crt", authority.read_bytes())).parent)

    def written(self, name: str, content: bytes) -> str:
        path = Path(self.folder.name) / name
        path.parent.mkdir(mode=0o700, exist_ok=True)
        with open(os.open(path, os.O_WRONLY | os.O_CREAT | os.O_EXCL, 0o600), "wb") as file:
            file.write(content)
        return str(path)

    def push(self, layout: Path, digest: str) -> str:
        """Pushes the manifest of a layout under its digest, with its blobs; what went wrong, or nothing."""
        words = [f"--dest-{name}={value}" for name, value in self.access.items()]
        done = subprocess.run([str(self.program), "--insecure-policy", "copy", *words, "--quiet", "--preserve-digests", f"oci:{layout}", f"docker://{self.repository}@{digest}"],
                              env=self.environment, stdin=subprocess.DEVNULL, stdout=subprocess.DEVNULL, stderr=subprocess.PIPE, start_new_session=True)
        said = re.sub('^.*? msg="|"$', "", done.stderr.decode(errors="replace").strip().split("\n")[-1]).replace('\\"', '"')
        said = re.sub(r'\?[^\s"]*', "", said)  # of a URL the query, which may be a secret
        return said or "skopeo failed" if done.returncode else ""
