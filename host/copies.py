"""Copies: an image that is verified at its source, and pushed to a target with the signature that stood for it. Its blobs are carried by cores side by side."""
import argparse
import json
import tempfile
import time
from pathlib import Path
from typing import Callable, Iterable, Iterator

from host.blobs import Blobs, Refused, parsed, refused_layer
from host.carriers import Skopeo
from host.carry import Carry, is_carried
from host.conversation import Exchanges, Sent, converse
from host.core import Core, Frame
from host.layout import Layout
from host.network import Network
from host.refusals import Refusals
from host.rules import Rule
from host.signatures import Signatures
from host.terminal import End, failed


class Sides:
    """Two registries, each with its own rules and connections. The core says which one the next requests are for."""

    def __init__(self, source: Network, target: Network, pushed: list[bool]) -> None:
        self.both, self.now, self.failure, self.pushed = {"source": source, "target": target}, source, "", pushed  # of each manifest, whether a referrer is listed

    @property
    def base(self) -> str:
        return self.now.base

    @property
    def statuses(self) -> dict[str, int]:
        return self.both["source"].statuses | self.both["target"].statuses

    @property
    def blob(self) -> str:
        return self.now.blob

    @blob.setter
    def blob(self, digest: str) -> None:
        self.now.blob = digest

    def beside(self) -> "Sides":
        return Sides(self.both["source"].beside(), self.both["target"].beside(), self.pushed)

    def ahead(self) -> None:
        self.now.ahead()

    def turn(self, side: str) -> None:
        self.now.leave()
        self.now = self.both[side]

    def reply(self, frame: Frame, body: Iterable[bytes] = ()) -> tuple[Frame, bytes]:
        answer, data = self.now.reply(frame, body)
        self.failure = self.now.failure or self.failure
        if frame["frame"] == "request" and frame["method"] == "PUT" and "/manifests/" in frame["url"] and self.now is self.both["target"]:
            self.pushed.append(any(name == "oci-subject" for name, _ in answer.get("headers", [])))
        return answer, data


class NotCarried(Exception):
    """A blob was refused, so that the core is not replied to any more."""

    def __init__(self, refused: Refused) -> None:
        self.refused = refused


class Copied(Exchanges):
    """The same of a copy: its core says which registry it asks, and when the target has to have the blobs."""
    last = "copied"

    def __init__(self, sides: Sides, carry: Callable[[Sent], Refused | None]) -> None:
        super().__init__(sides, None)
        self.sides, self.carry = sides, carry

    def answer(self, core: Core, frame: Frame, body: Iterator[bytes], signatures: Signatures) -> bool:
        match frame["frame"]:
            case "side":
                self.sides.turn(frame["side"])
            case "carry":
                if refused := self.carry(self.sent):
                    raise NotCarried(refused)
                core.write({"frame": "carried"})
        return super().answer(core, frame, body, signatures)


class Copy:
    """One copy; with `--all` also of each image of its index, all of which the target has before the index."""

    def __init__(self, option: argparse.Namespace, rule: Rule, settings: Frame, target: Frame, sides: Sides) -> None:
        self.option, self.rule, self.settings, self.target, self.sides = option, rule, settings, target, sides
        self.signatures, self.states = Signatures(rule), dict[str, str]()  # of each blob, whether it was `there` or `pushed`
        if target["auth"] != "anonymous" and "basic" not in target["auth"]:
            raise ValueError("a registry token is kept for the target, with which nothing can be pushed; use a user and a password")

    def decide(self, core: Core) -> tuple[int, str, Frame]:
        """The status, the sentence and the core's last frame."""
        name = self.option.place
        (end, registry), sent = self.copied(core, self.settings, self.sides, True)
        if end["frame"] == "ended":
            return failed(name, end["status"])
        if end["frame"] == "refused":
            return 1, Refusals(registry.statuses, registry.failure, self.signatures.why).sentence(name, end["report"]), end
        kinds = {kind: frame for kind, (frame, _) in sent.items()}
        manifest, signature, digest = kinds["manifest"]["digest"], kinds["signature"]["digest"], kinds.get("index", kinds["manifest"])["digest"]
        signer = self.signatures.signer(signature)
        told = f"copied {name} to {self.option.target}: {digest}, signed by {signature}{signer and f' ({signer})'}"
        if kinds["signature"]["kind"] == "bundle" and not (self.sides.pushed and self.sides.pushed[-1]):
            told += "; the target does not list referrers, so the signature is found there by its digest alone"
        there = [digest for digest, state in self.states.items() if state == "there"]
        told += f"; {len(there)} of {len(self.states)} blobs were there already, and not pulled" if there else ""
        return 0, told, end | {"there": there} | {"digest": digest, "manifest": manifest, "signature": signature, "signer": signer, "target": self.option.target}

    def copied(self, core: Core, settings: Frame, sides: Sides, tag: bool) -> tuple[Refused, Sent]:
        """The last frame of a core that copies, and who was asked before it; or why its blobs are not at the target. And the documents."""
        exchanges = Copied(sides, lambda sent: self.carried(settings, sent, tag))
        first = {"frame": "copy", "settings": settings | {"moment": int(time.time())}, "target": self.target, "replace": self.option.replace, "tag": tag}
        try:
            return (converse(core, first, exchanges, self.signatures), sides), exchanges.sent
        except NotCarried as stopped:
            return stopped.refused, exchanges.sent

    def carried(self, settings: Frame, sent: Sent, tag: bool) -> Refused | None:
        """Carries the blobs of the documents that the core has decided, and before them, if all are to be copied, copies the other images of the index."""
        manifest, content = sent["manifest"]
        if tag and self.option.all and "index" in sent:
            entries = dict.fromkeys(entry["digest"] for entry in json.loads(sent["index"][1])["manifests"])
            for other in (digest for digest in entries if digest != manifest["digest"]):
                refused, _ = self.copied(Core(), settings | {"platform": {"digest": other}}, self.sides.beside(), False)
                if refused[0]["frame"] != "copied":
                    return refused
        return self.carry_blobs(settings, manifest, content)

    def carry_blobs(self, settings: Frame, frame: Frame, content: bytes) -> Refused | None:
        """Has the blobs carried by cores, and those that these do not carry by skopeo."""
        try:
            manifest = parsed(content)
        except ValueError as error:
            raise End(1, f"its manifest cannot be copied, since a frame cannot have it: {error}") from None
        if refused := refused_layer(self.option.place, manifest, self.option.type):
            return refused, self.sides
        others = [blob for blob in (*manifest["layers"], manifest["config"]) if not is_carried(blob)]
        skopeo = Skopeo(self.target, self.option.target_ca, self.option.proxy) if others else None
        carry = Carry(settings, manifest, self.target, lambda: self.sides.beside().both)
        refusal = carry.run()
        self.states = carry.states | {blob["digest"]: "pushed" for blob in others} | self.states
        layers = [layer for layer in manifest["layers"] if layer in others] or manifest["layers"][:1]
        return refusal or (self.push(skopeo, {"frame": "blobs", "settings": settings, "manifest": manifest | {"layers": layers}}, frame, content) if skopeo else None)

    def push(self, skopeo: Skopeo, word: Frame, frame: Frame, content: bytes) -> Refused | None:
        """Has blobs checked as a pull does, into a layout that is removed again, and pushed from there."""
        with tempfile.TemporaryDirectory(prefix="roksnaep-") as folder:
            layout = Layout(Path(folder) / "image", "oci", None)
            layout.manifest = {"mediaType": frame["media_type"], "digest": frame["digest"], "size": frame["bytes"]}
            layout.add(frame["digest"], [content])
            if refusal := Blobs(word, self.sides.both["source"].beside, layout).run():
                return refusal
            layout.finish(self.option.place, frame["digest"], {})
            if said := skopeo.push(layout.work, frame["digest"]):
                raise End(1, f"its blobs that are empty, or have other digests than SHA-256, were not pushed to {self.option.target}: {said}")
        return None
