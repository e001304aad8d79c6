"""Whom to trust: a rule of keys and identities, and the logs that are known. Nothing here reads certificates, which takes a while to load."""
import base64
import hashlib
import re
import warnings
from pathlib import Path
from typing import TYPE_CHECKING, Any, NamedTuple

from cryptography.hazmat.primitives.serialization import Encoding, PublicFormat

from host.keys import load, public_keys

if TYPE_CHECKING:
    from host.certificates import TrustedRoot

COSIGN_SIGN = "https://sigstore.dev/cosign/sign/v1"


class LogKey(NamedTuple):
    """The key of a log, as PEM text, and from when to when the log signs with it, in seconds since 1970."""
    key: bytes
    start: float = 0
    end: float = float("inf")


class Identity:
    """Who may sign: the email address or URL of the certificate and who vouched for it, each as a string or as a pattern to search for in it."""

    def __init__(self, subject: str | None, subject_pattern: str | None, issuer: str | None, issuer_pattern: str | None) -> None:
        self.exact = (subject or None, issuer or None)
        if bool(subject) == bool(subject_pattern) or bool(issuer) == bool(issuer_pattern):
            raise ValueError("an identity needs a subject and an issuer (--certificate-identity, --certificate-oidc-issuer), as strings or patterns")
        try:
            with warnings.catch_warnings(action="error"):  # of what cosign and Python read differently
                self.patterns = [re.compile(pattern or "", re.ASCII) for pattern in (subject_pattern, issuer_pattern)]
        except (re.error, Warning, RecursionError, OverflowError) as error:
            raise ValueError(f"a pattern of an identity is not a regular expression: {error}") from None

    def accepts(self, names: tuple[str, str]) -> bool:
        """Whether the subject and the issuer are these."""
        return all(exact in (None, name) and pattern.search(name) for name, exact, pattern in zip(names, self.exact, self.patterns))


def key_id(key: bytes) -> str:
    """SHA-256 of a key's DER form in hexadecimal: the id of a log."""
    return hashlib.sha256(load(key).public_bytes(Encoding.DER, PublicFormat.SubjectPublicKeyInfo)).hexdigest()


class Rule:
    """Who may sign: any of the keys or identities, with all of the annotations; the known logs, and whether a key's signature must be in one."""

    def __init__(self, keys: list[Path], identities: list[Identity], annotations: dict[str, str], trusted_root: Path | None = None,
                 log_keys: list[Path] | None = None, require_log: bool = False, predicates: list[str] | None = None) -> None:
        self.keys = {key: str(path) for path in keys for key in public_keys(path)}
        self.identities, self.annotations, self.require_log = identities, annotations, require_log
        self.predicates = [COSIGN_SIGN, *(predicates or [])]
        self.root: "TrustedRoot | None" = None
        if trusted_root:
            from host.certificates import TrustedRoot
            self.root = TrustedRoot(trusted_root)
        logs = {key_id(key): LogKey(key) for path in log_keys or [] for key in public_keys(path)}
        self.logs = logs | (self.root.logs if self.root else {})
        if not keys and not identities:
            raise ValueError("nobody is trusted: give a key, or an identity with a trusted root")
        if identities and not self.root:
            raise ValueError("an identity needs the trusted root under which it is vouched for (sigstore's trusted_root.json)")
        if (require_log or identities) and not self.logs:
            raise ValueError("a log entry is required, and no log is known: give a log's key or a trusted root that has one")

    def settings(self) -> dict[str, Any]:
        """Members of the core's settings. An identity without patterns, if nobody else may sign, becomes one of the core's constraints."""
        alone = self.identities if len(self.identities) == 1 and not self.keys else []
        names = [(str(one.exact[0]), one.exact[1]) for one in alone if None not in one.exact]
        return {"keys": [base64.b64encode(key).decode() for key in self.keys],
                "constraints": [{"annotations": self.annotations}] + [{"url" if "://" in one else "email": one, "issuer": by} for one, by in names],
                "log_keys": {name: base64.b64encode(log.key).decode() for name, log in self.logs.items()},
                "statements": self.predicates}


def annotations_of(pairs: list[str]) -> dict[str, str]:
    """Annotations from NAME=VALUE; ValueError if a name is given with two values, which cannot both hold."""
    found: dict[str, str] = {}
    for name, equals, value in (pair.partition("=") for pair in pairs):
        if not name or not equals or found.setdefault(name, value) != value:
            raise ValueError(f"the annotation {name}{equals}{value} is not NAME=VALUE, or {name} is given with two values, which cannot both hold")
    return found
