"""Certificates of signers under a sigstore trusted root: who is vouched for at the time of the log entry. Nothing is asked over the network."""
import base64
from calendar import timegm
from datetime import datetime, timezone
from pathlib import Path
from typing import Any

from cryptography import x509
from cryptography.exceptions import UnsupportedAlgorithm
from cryptography.hazmat.primitives.hashes import SHA256, SHA384, SHA512
from cryptography.hazmat.primitives.serialization import Encoding
from cryptography.x509.oid import ExtendedKeyUsageOID as Purpose

from host.files import read_json
from host.keys import normalized, verifies
from host.rules import Identity, LogKey, key_id

CHECKED = (x509.BasicConstraints, x509.KeyUsage, x509.ExtendedKeyUsage, x509.SubjectAlternativeName)
RAW_ISSUER, ISSUER = x509.ObjectIdentifier("1.3.6.1.4.1.57264.1.1"), x509.ObjectIdentifier("1.3.6.1.4.1.57264.1.8")
EPOCH = datetime(1970, 1, 1, tzinfo=timezone.utc)


def extension(certificate: x509.Certificate, kind: type) -> Any:
    """The extension of this kind, or None."""
    return next((one.value for one in certificate.extensions if isinstance(one.value, kind)), None)


def is_current(certificate: x509.Certificate, time: float) -> bool:
    """Whether it is valid at the time, and holds nothing critical that is not checked here."""
    return timegm(certificate.not_valid_before.timetuple()) <= time <= timegm(certificate.not_valid_after.timetuple()) and not any(
        one.critical and not isinstance(one.value, CHECKED) or isinstance(one.value, x509.NameConstraints) for one in certificate.extensions)


def issued(below: x509.Certificate, above: x509.Certificate, time: float, depth: int) -> bool:
    """Whether an authority that had `depth` others between itself and the signer issued the certificate below it, and could at the time."""
    basic, usage, purpose = (extension(above, kind) for kind in CHECKED[:3])
    is_authority = basic and basic.ca and (basic.path_length is None or basic.path_length >= depth) and usage and usage.key_cert_sign
    is_for_code = purpose is None or {Purpose.CODE_SIGNING, Purpose.ANY_EXTENDED_KEY_USAGE} & set(purpose)
    if not (is_authority and is_for_code and is_current(above, time) and below.issuer == above.subject):
        return False
    digest = below.signature_hash_algorithm or SHA256()  # none is Ed25519, which needs none
    return isinstance(digest, (SHA256, SHA384, SHA512)) and verifies(
        above.public_bytes(Encoding.PEM), below.tbs_certificate_bytes, below.signature, digest)


def issuers_of(certificate: x509.Certificate) -> set[str]:
    """Who vouched for the signer: in the newer extension as a DER string (a tag and a length come first), in the older one as it is."""
    own = {one.oid: one.value.value for one in certificate.extensions if isinstance(one.value, x509.UnrecognizedExtension)}
    newer = {own[ISSUER][2 + max(0, own[ISSUER][1] - 128):].decode()} if ISSUER in own else set()
    return newer | ({own[RAW_ISSUER].decode()} if RAW_ISSUER in own else set())


def names_of(certificate: x509.Certificate) -> dict[str, str]:
    """The signer's email address (`email`) or URL (`url`), and the `issuer` who vouched for it."""
    names, issuers = list(extension(certificate, x509.SubjectAlternativeName) or ()), issuers_of(certificate)
    if len(names) == len(issuers) == 1 and isinstance(names[0], (x509.RFC822Name, x509.UniformResourceIdentifier)):
        found = {"email" if isinstance(names[0], x509.RFC822Name) else "url": names[0].value, "issuer": issuers.pop()}
        if all(name.isprintable() for name in found.values()):
            return found
    raise ValueError("the signer's certificate does not name exactly one email address or URL, and one issuer (user names are not supported)")


def period(entry: dict[str, Any]) -> tuple[float, float]:
    """From when to when an entry of a trusted root is valid: without an end always, without a start never."""
    start, end = (datetime.fromisoformat(entry["validFor"].get(name) or "9999-12-31T00:00:00Z") for name in ("start", "end"))
    return (start - EPOCH).total_seconds(), (end - EPOCH).total_seconds()


def logs_of(entries: list[dict[str, Any]]) -> dict[str, LogKey]:
    """The keys of logs by their ids."""
    keys = [(normalized(base64.b64decode(entry["publicKey"]["rawBytes"])), period(entry["publicKey"])) for entry in entries]
    return {key_id(key): LogKey(key, *valid) for key, valid in keys}


class TrustedRoot:
    """A trusted_root.json: authorities, each as the chain from issuer to root and its period; logs of signatures, and of certificates."""

    def __init__(self, path: Path) -> None:
        try:
            root = read_json(path)
            if not root["mediaType"].startswith("application/vnd.dev.sigstore.trustedroot"):
                raise ValueError("its mediaType is another")
            self.logs, self.certificate_logs = logs_of(root["tlogs"]), logs_of(root["ctlogs"])
            self.authorities = [([x509.load_der_x509_certificate(base64.b64decode(one["rawBytes"])) for one in entry["certChain"]["certificates"]],
                                 period(entry)) for entry in root["certificateAuthorities"]]
        except (ValueError, LookupError, TypeError, AttributeError, RecursionError, Warning, x509.InvalidVersion, UnsupportedAlgorithm) as error:
            raise ValueError(f"{path} is not a sigstore trusted root (trusted_root.json): {type(error).__name__}: {error}") from None

    def issuer_of(self, certificate: x509.Certificate, time: float) -> x509.Certificate | None:
        """Who issued the signer's certificate, in a chain to a root, all of it valid at the time."""
        for chain, (start, end) in self.authorities:
            links = enumerate(zip([certificate, *chain], chain))
            if chain and start <= time <= end and all(issued(below, above, time, depth) for depth, (below, above) in links):
                return chain[0]
        return None

    def has_timestamp(self, certificate: Any, issuer: x509.Certificate) -> bool:
        """Whether a timestamp in the certificate (SCT: RFC 6962, 3.2) is by a log of certificates, of a time at which it signs with that key."""
        issuer_key = bytes.fromhex(key_id(issuer.public_bytes(Encoding.PEM)))
        for sct in extension(certificate, x509.PrecertificateSignedCertificateTimestamps) or ():
            tbs = certificate.tbs_precertificate_bytes
            entry = b"\0\1" + issuer_key + len(tbs).to_bytes(3, "big") + tbs
            log = self.certificate_logs.get(sct.log_id.hex())
            milliseconds = timegm(sct.timestamp.timetuple()) * 1000 + sct.timestamp.microsecond // 1000
            signed = b"\0\0" + milliseconds.to_bytes(8, "big") + entry + len(sct.extension_bytes).to_bytes(2, "big") + sct.extension_bytes
            if log and log.start <= milliseconds / 1000 <= log.end and verifies(log.key, signed, sct.signature):
                return True
        return False


def vouched(data: bytes, time: int, root: TrustedRoot, identities: list[Identity]) -> dict[str, str]:
    """What a certificate vouches for at the time of its log entry, as a `vouched` frame has it; ValueError with the reason if it is not accepted."""
    certificate = x509.load_pem_x509_certificate(data) if data.startswith(b"-----") else x509.load_der_x509_certificate(data)
    basic, usage, purpose = (extension(certificate, kind) for kind in CHECKED[:3])
    signs = usage and usage.digital_signature and purpose and Purpose.CODE_SIGNING in purpose and not (basic and basic.ca)
    if not signs or not is_current(certificate, time):
        raise ValueError("the signer's certificate is not for signing code, or was not valid at the time of the log entry")
    issuer = root.issuer_of(certificate, time)
    if not issuer:
        raise ValueError("the signer's certificate is not by an authority that the trusted root had at the time of the log entry")
    if not root.has_timestamp(certificate, issuer):
        raise ValueError("the signer's certificate holds no timestamp (SCT) by a certificate log of the trusted root")
    names = names_of(certificate)
    subject = names["email" if "email" in names else "url"]
    if not any(identity.accepts((subject, names["issuer"])) for identity in identities):
        raise ValueError(f"it is signed by {subject}, for whom {names['issuer']} vouched, and that identity is not accepted")
    return names | {"key": base64.b64encode(normalized(certificate.public_bytes(Encoding.PEM))).decode()}
