"""Answers the core's questions about signatures, under one rule: whether one is valid and logged, and whom a certificate names."""
import base64
import json
from hashlib import sha256
from typing import Any

from host.keys import normalized, verifies
from host.rules import Rule

Logged = tuple[str, str, bytes, bytes]


def logged_by(body: str) -> list[Logged]:
    """What the body of a log entry says was signed: the kind of entry, the hash of the signed bytes, the signer's key, and the signature."""
    entry = json.loads(base64.b64decode(body))
    kind, spec = entry["kind"], entry["spec"]
    if kind == "hashedrekord":
        found = [(spec["data"]["hash"]["value"], spec["signature"]["publicKey"]["content"], spec["signature"]["content"])]
    elif kind == "dsse":
        found = [(spec["payloadHash"]["value"], one["verifier"], one["signature"]) for one in spec["signatures"]]
    else:
        raise ValueError(f"its kind is {kind}")
    return [(kind, digest, normalized(base64.b64decode(key)), base64.b64decode(signature)) for digest, key, signature in found]


def statement_of(message: bytes) -> tuple[bytes, bytes]:
    """The type and the payload that a DSSE envelope signs as `DSSEv1 LENGTH TYPE LENGTH PAYLOAD`."""
    _, size, rest = message.split(b" ", 2)
    return rest[:int(size)], rest[int(size) + 1:].split(b" ", 1)[1]


class Signatures:
    """`reply` returns the replies to the core's `verify` and `judge` frames; `why` is the last reason against a signature."""

    def __init__(self, rule: Rule) -> None:
        self.rule, self.why, self.signers = rule, "", dict[str, str]()
        self.logged, self.vouched = dict[Logged, set[int]](), dict[bytes, dict[int, str]]()  # when; of a key, when and who

    def reply(self, frame: dict[str, Any], message: bytes = b"") -> dict[str, Any]:
        """The answer to a frame. Nothing is raised, whatever it holds."""
        try:
            if frame["frame"] == "judge":
                return {"frame": "vouched", "vouched": self.judge(base64.b64decode(frame["certificate"]), frame["integrated_time"])}
            key, signature = base64.b64decode(frame["key"]), base64.b64decode(frame["signature"])
            valid = verifies(key, message, signature) and (self.is_entry(key, message) or self.counts(key, message, signature))
            return {"frame": "verified", "valid": valid}
        except Exception as error:  # of any kind: the bytes are a registry's
            self.why = str(error) or type(error).__name__
            return {"frame": "vouched", "vouched": None} if frame["frame"] == "judge" else {"frame": "verified", "valid": False}

    def judge(self, certificate: bytes, time: int) -> dict[str, str]:
        """What the certificate vouches for at the time of its log entry."""
        if not self.rule.root:
            raise ValueError("it is signed with a certificate, and no identity with a trusted root is given to accept it by")
        from host.certificates import vouched  # loaded with the root
        found = vouched(certificate, time, self.rule.root, self.rule.identities)
        self.vouched.setdefault(base64.b64decode(found["key"]), {})[time] = f"{found.get('email') or found.get('url')} of {found['issuer']}"
        return found

    def is_entry(self, key: bytes, message: bytes) -> bool:
        """Whether the message is an entry of the rule's log with this key. What the entry says was signed is kept."""
        entry = json.loads(message) if message.startswith(b'{"body":') else {}
        log = self.rule.logs.get(entry.get("logID"))
        if not log or log.key != key or set(entry) != {"body", "integratedTime", "logID", "logIndex"}:
            return False
        if not log.start <= entry["integratedTime"] <= log.end:
            raise ValueError("its log did not sign with this key at the time of the log entry")
        try:
            for one in logged_by(entry["body"]):
                self.logged.setdefault(one, set()).add(entry["integratedTime"])
        except Exception as error:  # of any kind: the entry is valid all the same, and shows nothing
            self.why = f"its log entry cannot be parsed as hashedrekord or dsse ({error})"
        return True

    def counts(self, key: bytes, message: bytes, signature: bytes) -> bool:
        """Whether a valid signature is an image's. A certificate's must be logged, at a time that was judged; a key's if the rule requires it."""
        entries: list[Logged] = [("hashedrekord", sha256(message).hexdigest(), key, signature)]
        if message.startswith(b"DSSEv1 "):
            kind, payload = statement_of(message)
            predicate = json.loads(payload).get("predicateType")
            if kind != b"application/vnd.in-toto+json" or predicate not in self.rule.predicates:
                raise ValueError(f"it signs a statement of the type {predicate}, which is not a signature of an image")
            entries.append(("dsse", sha256(payload).hexdigest(), key, signature))
        times = {time for entry in entries for time in self.logged.get(entry, ())}
        names = [name for time, name in self.vouched.get(key, {}).items() if time in times]
        if key in self.rule.keys and (times or not self.rule.require_log):
            names = [self.rule.keys[key]]
        if not names:
            raise ValueError("it has no entry in a known log" if key in self.rule.keys else "its log entry is of another signature")
        self.signers.setdefault("sha256:" + sha256(message).hexdigest(), names[0])
        return True

    def signer(self, digest: str) -> str:
        """Who signed what has this digest, a key's file or an identity: if only one has signed at all, that one."""
        names = set(self.signers.values())
        return self.signers.get(digest) or (names.pop() if len(names) == 1 else "")
