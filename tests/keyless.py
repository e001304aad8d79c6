#!/usr/bin/python3
"""A sigstore for tests: an authority (root and intermediate), a log of certificates, a log of signatures, and what signers get by them.

    tests/keyless.py FOLDER     writes a trusted root there, and the key of the log of signatures

As a module: `Sigstore().payload_annotations(..)` signs a payload as cosign does without a key, in the annotations of a layer; `.bundle(..)` signs
a digest as a sigstore bundle (v0.3); `.logged_annotations(..)` signs a payload with a key, and logs it. Each part can be made wrong.
"""
import base64
import datetime
import hashlib
import json
import sys
from pathlib import Path

from cryptography import x509
from cryptography.hazmat.primitives import hashes
from cryptography.hazmat.primitives.asymmetric import ec, ed25519, padding, rsa
from cryptography.hazmat.primitives.serialization import Encoding, PublicFormat
from cryptography.x509.oid import ExtendedKeyUsageOID, NameOID, ObjectIdentifier

BUNDLE, STATEMENT = "application/vnd.dev.sigstore.bundle.v0.3+json", "application/vnd.in-toto+json"
SIGN, ISSUER = "https://sigstore.dev/cosign/sign/v1", "https://accounts.example.com"
NOW = 1_760_000_000
YEAR = 31_536_000
SCTS, POISON = ObjectIdentifier("1.3.6.1.4.1.11129.2.4.2"), ObjectIdentifier("1.3.6.1.4.1.11129.2.4.3")
EMAIL, URL, USER = x509.RFC822Name, x509.UniformResourceIdentifier, ObjectIdentifier("1.3.6.1.4.1.57264.1.7")


def b64(data):
    return base64.b64encode(data).decode()


def moment(seconds):
    return datetime.datetime.fromtimestamp(seconds, datetime.timezone.utc).replace(tzinfo=None)


def written(seconds):
    return moment(seconds).isoformat() + "Z"


def canonical(value):
    """RFC 8785, of values with ASCII strings and integers alone."""
    return json.dumps(value, sort_keys=True, separators=(",", ":"), ensure_ascii=False).encode()


def der(key):
    return key.public_key().public_bytes(Encoding.DER, PublicFormat.SubjectPublicKeyInfo)


def pem(key):
    return key.public_key().public_bytes(Encoding.PEM, PublicFormat.SubjectPublicKeyInfo)


def signed(key, message):
    """As cosign signs: over SHA-256, or by Ed25519."""
    if isinstance(key, ec.EllipticCurvePrivateKey):
        return key.sign(message, ec.ECDSA(hashes.SHA256()))
    return key.sign(message, padding.PKCS1v15(), hashes.SHA256()) if isinstance(key, rsa.RSAPrivateKey) else key.sign(message)


def counted(tag, content):
    """A DER value of at most 65535 bytes."""
    size = len(content)
    return bytes([tag]) + (bytes([size]) if size < 128 else b"\x81" + bytes([size]) if size < 256 else b"\x82" + size.to_bytes(2, "big")) + content


def pre_authentication(content, kind=STATEMENT):
    return b"DSSEv1 %d %s %d %s" % (len(kind), kind.encode(), len(content), content)


def name(text):
    return x509.Name([x509.NameAttribute(NameOID.ORGANIZATION_NAME, "sigstore.example"), x509.NameAttribute(NameOID.COMMON_NAME, text)])


def usage(**on):
    return x509.KeyUsage(**{word: on.get(word, False) for word in (
        "digital_signature", "content_commitment", "key_encipherment", "data_encipherment", "key_agreement", "key_cert_sign", "crl_sign",
        "encipher_only", "decipher_only")})


class Sigstore:
    """Keys are new for each; `now` is when signers sign, in seconds since 1970."""

    def __init__(self, now=NOW, authority_key=None, log_key=None):
        self.now = now
        self.root_key, self.intermediate_key = ec.generate_private_key(ec.SECP384R1()), authority_key or ec.generate_private_key(ec.SECP384R1())
        self.certificate_log_key, self.log_key = ec.generate_private_key(ec.SECP256R1()), log_key or ec.generate_private_key(ec.SECP256R1())
        self.root = self.authority("root", self.root_key, "root", self.root_key, 1)
        self.intermediate = self.authority("intermediate", self.intermediate_key, "root", self.root_key, 0)
        self.index = 0

    # ---- the authority

    def authority(self, subject, key, issuer, issuer_key, length, start=-5 * YEAR, end=5 * YEAR, is_ca=True, key_usage=None, purposes=None, more=(),
                  digest=hashes.SHA384()):
        """The certificate of an authority."""
        builder = x509.CertificateBuilder().subject_name(name(subject)).issuer_name(name(issuer)).public_key(key.public_key())
        builder = builder.serial_number(x509.random_serial_number()).not_valid_before(moment(self.now + start)).not_valid_after(moment(self.now + end))
        builder = builder.add_extension(x509.BasicConstraints(is_ca, length if is_ca else None), True)
        builder = builder.add_extension(key_usage or usage(key_cert_sign=True, crl_sign=True), True)
        if subject != "root" or purposes:
            builder = builder.add_extension(x509.ExtendedKeyUsage(purposes or [ExtendedKeyUsageOID.CODE_SIGNING]), False)
        for extension, critical in more:
            builder = builder.add_extension(extension, critical)
        return builder.sign(issuer_key, None if isinstance(issuer_key, ed25519.Ed25519PrivateKey) else digest)

    def timestamp(self, tbs, at=None, key=None, issuer_key=None, extensions=b"", entry=1):
        """A signed certificate timestamp over the part of a certificate that is signed, without the timestamps."""
        key, stamp = key or self.certificate_log_key, int((at or self.now) * 1000)
        issuer = hashlib.sha256(der(issuer_key or self.intermediate_key)).digest()
        more = len(extensions).to_bytes(2, "big") + extensions
        head = b"\0\0" + stamp.to_bytes(8, "big") + entry.to_bytes(2, "big")
        signature = signed(key, head + issuer + len(tbs).to_bytes(3, "big") + tbs + more)
        kind = b"\4\3" if isinstance(key, ec.EllipticCurvePrivateKey) else b"\4\1"
        whole = b"\0" + hashlib.sha256(der(key)).digest() + stamp.to_bytes(8, "big") + more + kind + len(signature).to_bytes(2, "big") + signature
        return len(whole).to_bytes(2, "big") + whole

    def certificate(self, subject, issuer=ISSUER, key=None, names=None, start=-60, end=540, purposes=None, key_usage=None, basic=None, more=(),
                    issuers=None, stamps=None, issuer_key=None, issuer_name="intermediate", digest=hashes.SHA384(), **stamp):
        """A signer's certificate and its private key. `stamps` are the timestamps in it by the part that they sign; none leaves the extension out."""
        key = key or ec.generate_private_key(ec.SECP256R1())
        builder = x509.CertificateBuilder().subject_name(x509.Name([])).issuer_name(name(issuer_name)).public_key(key.public_key())
        builder = builder.serial_number(x509.random_serial_number()).not_valid_before(moment(self.now + start)).not_valid_after(moment(self.now + end))
        if purposes != []:
            builder = builder.add_extension(x509.ExtendedKeyUsage(purposes or [ExtendedKeyUsageOID.CODE_SIGNING]), False)
        if key_usage is not False:
            builder = builder.add_extension(key_usage or usage(digital_signature=True), True)
        if basic:
            builder = builder.add_extension(basic, True)
        if names is None:
            names = [URL(subject) if "://" in subject else EMAIL(subject)]
        if names:
            builder = builder.add_extension(x509.SubjectAlternativeName(names), True)
        if issuers is None:
            issuers = {1: issuer.encode(), 8: counted(12, issuer.encode())}
        for last, value in issuers.items():
            builder = builder.add_extension(x509.UnrecognizedExtension(ObjectIdentifier(f"1.3.6.1.4.1.57264.1.{last}"), value), False)
        for extension, critical in more:
            builder = builder.add_extension(extension, critical)
        signer, digest = issuer_key or self.intermediate_key, None if isinstance(self.intermediate_key, ed25519.Ed25519PrivateKey) else digest
        tbs = builder.sign(signer, digest).tbs_certificate_bytes
        stamps = stamps(tbs) if stamps else [self.timestamp(tbs, issuer_key=issuer_key, **stamp)] if stamps is None else []
        if stamps:
            listed = b"".join(stamps)
            value = counted(4, len(listed).to_bytes(2, "big") + listed)
            builder = builder.add_extension(x509.UnrecognizedExtension(SCTS, value), False)
        return key, builder.sign(signer, digest)

    # ---- the log of signatures

    def entry(self, body, at=None, key=None):
        """An entry as the log signs it: the payload of cosign's annotation, and the signature of the log (SET)."""
        self.index += 1
        key = key or self.log_key
        payload = {"body": b64(canonical(body)), "integratedTime": at or self.now, "logIndex": self.index, "logID": hashlib.sha256(der(key)).hexdigest()}
        return payload, signed(key, canonical(payload))

    @staticmethod
    def hashedrekord(message, signature, verifier):
        return {"apiVersion": "0.0.1", "kind": "hashedrekord", "spec": {
            "data": {"hash": {"algorithm": "sha256", "value": hashlib.sha256(message).hexdigest()}},
            "signature": {"content": b64(signature), "publicKey": {"content": b64(verifier)}}}}

    @staticmethod
    def dsse(payload, signature, verifier):
        return {"apiVersion": "0.0.1", "kind": "dsse", "spec": {
            "envelopeHash": {"algorithm": "sha256", "value": hashlib.sha256(b"envelope").hexdigest()},
            "payloadHash": {"algorithm": "sha256", "value": hashlib.sha256(payload).hexdigest()},
            "signatures": [{"signature": b64(signature), "verifier": b64(verifier)}]}}

    # ---- signatures as cosign keeps them

    def logged_annotations(self, payload, key, verifier=None, body=None, **more):
        """A payload signed with a key and logged, as annotations."""
        signature = signed(key, payload)
        entry, promise = self.entry(self.hashedrekord(payload, signature, verifier or pem(key)) if body is None else body, **more)
        return {"dev.cosignproject.cosign/signature": b64(signature),
                "dev.sigstore.cosign/bundle": json.dumps({"SignedEntryTimestamp": b64(promise), "Payload": entry})}

    def payload_annotations(self, payload, subject, issuer=ISSUER, at=None, body=None, **wrong):
        """A payload signed without a key, by a certificate, as annotations."""
        key, certificate = self.certificate(subject, issuer, **wrong)
        text = certificate.public_bytes(Encoding.PEM)
        chain = b"".join(one.public_bytes(Encoding.PEM) for one in (self.intermediate, self.root)).decode()
        return self.logged_annotations(payload, key, text, body, at=at) | {
            "dev.sigstore.cosign/certificate": text.decode(), "dev.sigstore.cosign/chain": chain}

    def bundle(self, digest, subject="", issuer=ISSUER, key=None, at=None, predicate=SIGN, body=None, kind=STATEMENT, **wrong):
        """A statement about a digest as a bundle, signed with a key, or by a subject without one. `body` makes the log's entry another."""
        algorithm, _, digits = digest.partition(":")
        statement = json.dumps({"_type": "https://in-toto.io/Statement/v1", "subject": [{"digest": {algorithm: digits}}],
                                "predicateType": predicate, "predicate": {}}).encode()
        material = {"publicKey": {"hint": ""}}
        verifier = pem(key) if key else b""
        if not key:
            key, certificate = self.certificate(subject, issuer, **wrong)
            material, verifier = {"certificate": {"rawBytes": b64(certificate.public_bytes(Encoding.DER))}}, certificate.public_bytes(Encoding.PEM)
        signature = signed(key, pre_authentication(statement, kind))
        entry, promise = self.entry(self.dsse(statement, signature, verifier) if body is None else body, at)
        logged = {"logIndex": str(entry["logIndex"]), "logId": {"keyId": b64(bytes.fromhex(entry["logID"]))}, "kindVersion": {"kind": "dsse", "version": "0.0.1"},
                  "integratedTime": str(entry["integratedTime"]), "inclusionPromise": {"signedEntryTimestamp": b64(promise)}, "canonicalizedBody": entry["body"]}
        return json.dumps({"mediaType": BUNDLE, "verificationMaterial": material | {"tlogEntries": [logged]}, "dsseEnvelope": {
            "payload": b64(statement), "payloadType": kind, "signatures": [{"sig": b64(signature)}]}}).encode()

    # ---- what a verifier has

    def trusted_root(self, chain=None, valid=(-4 * YEAR, None), logs=None, certificate_logs=None):
        """sigstore's trusted_root.json, as a value; each period is in seconds from `now`."""
        def period(start, end):
            return {"start": written(self.now + start)} | ({"end": written(self.now + end)} if end is not None else {})

        def log(key, start=-4 * YEAR, end=None):
            public = {"rawBytes": b64(der(key)), "keyDetails": "PKIX_ECDSA_P256_SHA_256", "validFor": period(start, end)}
            return {"baseUrl": "https://log.example", "hashAlgorithm": "SHA2_256", "publicKey": public, "logId": {"keyId": b64(hashlib.sha256(der(key)).digest())}}

        certificates = [{"rawBytes": b64(one.public_bytes(Encoding.DER))} for one in chain or [self.intermediate, self.root]]
        return {"mediaType": "application/vnd.dev.sigstore.trustedroot+json;version=0.1", "tlogs": [log(*one) for one in logs or [(self.log_key,)]],
                "certificateAuthorities": [{"subject": {"organization": "sigstore.example", "commonName": "root"}, "uri": "https://authority.example",
                                            "certChain": {"certificates": certificates}, "validFor": period(*valid)}],
                "ctlogs": [log(*one) for one in certificate_logs or [(self.certificate_log_key,)]], "timestampAuthorities": []}

    def write(self, folder, **more):
        """The trusted root as a file, and the log's key beside it."""
        (folder / "rekor.pub").write_bytes(pem(self.log_key))
        (folder / "trusted_root.json").write_text(json.dumps(self.trusted_root(**more)))
        return folder / "trusted_root.json"


if __name__ == "__main__":
    Sigstore().write(Path(sys.argv[1]))
