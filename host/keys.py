"""Public keys, and whether a signature is valid under one: ECDSA and RSA (PKCS #1 v1.5) over SHA-256, and Ed25519, as cosign signs."""
import contextlib
import functools
import re
import warnings
from pathlib import Path
from typing import Any

from cryptography.exceptions import UnsupportedAlgorithm
from cryptography.hazmat.primitives.asymmetric import ec, ed25519, padding, rsa, utils
from cryptography.hazmat.primitives.hashes import SHA256, HashAlgorithm
from cryptography.hazmat.primitives.serialization import Encoding, PublicFormat, load_der_public_key, load_pem_public_key
from cryptography.utils import CryptographyDeprecationWarning

from host.files import read

BLOCK = re.compile(rb"-----BEGIN ((?:RSA )?PUBLIC KEY)-----[^-]*-----END \1-----")
CURVES = (ec.SECP256R1, ec.SECP384R1, ec.SECP521R1)
ACCEPTED = "ECDSA on P-256, P-384 or P-521, RSA of 2048 to 16384 bits, or Ed25519"
warnings.simplefilter("error", CryptographyDeprecationWarning)  # such as of a negative serial number: refused, and not printed


@functools.lru_cache(256)
def load(data: bytes) -> Any:
    """The public key in these bytes, PEM or DER, or of a certificate in PEM; ValueError if there is none that is accepted."""
    key: Any = None
    with contextlib.suppress(ValueError, UnsupportedAlgorithm):
        if data.startswith(b"-----BEGIN CERTIFICATE"):
            from cryptography import x509  # which takes a while, and only certificates need
            key = x509.load_pem_x509_certificate(data).public_key()
        else:
            key = load_pem_public_key(data) if data.startswith(b"-----") else load_der_public_key(data)
    match key:
        case ec.EllipticCurvePublicKey() if isinstance(key.curve, CURVES):
            return key
        case rsa.RSAPublicKey() if 2048 <= key.key_size <= 16384 and key.public_numbers().e > 2:
            return key
        case ed25519.Ed25519PublicKey():
            return key
    raise ValueError(f"holds a public key that is malformed or not accepted ({ACCEPTED})")


def normalized(data: bytes) -> bytes:
    """The public key in these bytes as PEM text, in the one form in which the core gets it."""
    return bytes(load(data).public_bytes(Encoding.PEM, PublicFormat.SubjectPublicKeyInfo))


def public_keys(path: Path) -> list[bytes]:
    """Every key of a PEM file, normalized; ValueError with a sentence if one of its blocks is not an accepted public key, or if it has none."""
    data = read(path)
    blocks = [match[0] for match in BLOCK.finditer(data)]
    if b"PRIVATE KEY-----" in data:
        raise ValueError(f"{path} holds a private key; give the public key (cosign public-key --key FILE, or openssl pkey -pubout)")
    if not blocks or data.count(b"-----BEGIN") != len(blocks):
        raise ValueError(f"{path} is not a PEM file of public keys alone (BEGIN PUBLIC KEY), or one of its blocks is malformed")
    try:
        return [normalized(block) for block in blocks]
    except ValueError as error:
        raise ValueError(f"{path} {error}") from None


def verifies(key: bytes, message: bytes, signature: bytes, digest: HashAlgorithm = SHA256()) -> bool:
    """Whether this is exactly a signature of the message under the key, with no byte after it. Nothing is raised, whatever the bytes are."""
    try:
        match public := load(key):
            case ec.EllipticCurvePublicKey():
                public.verify(signature, message, ec.ECDSA(digest))
                return signature == utils.encode_dss_signature(*utils.decode_dss_signature(signature))
            case rsa.RSAPublicKey():
                public.verify(signature, message, padding.PKCS1v15(), digest)
                return bool(len(signature) == (public.key_size + 7) // 8)
            case _:
                public.verify(signature, message)
                return len(signature) == 64
    except Exception:  # of any kind: the bytes are a registry's
        return False
