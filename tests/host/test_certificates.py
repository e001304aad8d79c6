#!/usr/bin/python3
"""Tests of certificates, of trusted roots, and of what counts as a signature. Run it, or `python3 -m unittest` over it."""
import base64
import datetime
import hashlib
import json
import random
import subprocess
import sys
import tempfile
import unittest
from pathlib import Path

from cryptography import x509
from cryptography.hazmat.primitives import hashes
from cryptography.hazmat.primitives.asymmetric import ec, ed25519, rsa
from cryptography.hazmat.primitives.serialization import Encoding
from cryptography.x509.oid import ExtendedKeyUsageOID, ObjectIdentifier

sys.dont_write_bytecode = True
TOP = Path(__file__).resolve().parent.parent.parent
sys.path[:0] = [str(TOP), str(TOP / "tests")]

import keyless  # noqa: E402
from keyless import EMAIL, ISSUER, NOW, SIGN, URL, USER, YEAR, Sigstore, counted, pem, pre_authentication, signed, usage  # noqa: E402
from host.certificates import TrustedRoot, vouched  # noqa: E402
from host.rules import Identity, Rule  # noqa: E402
from host.signatures import Signatures as Answers  # noqa: E402

WHO, WORKFLOW = "release@example.com", "https://ci.example.com/team/app/.build/release.yml@refs/heads/main"
PAYLOAD, DIGEST = b'{"critical":{}}', "sha256:" + "a" * 64


class Signatures(Answers):
    """What is answered, without the frames."""

    def verify(self, key, message, signature):
        answer = self.reply({"frame": "verify", "key": keyless.b64(key), "signature": keyless.b64(signature), "bytes": len(message)}, message)
        assert set(answer) == {"frame", "valid"} and answer["frame"] == "verified" and isinstance(answer["valid"], bool), answer
        return answer["valid"]

    def judged(self, certificate, time):
        answer = self.reply({"frame": "judge", "certificate": keyless.b64(certificate), "integrated_time": time})
        assert set(answer) == {"frame", "vouched"} and answer["frame"] == "vouched", answer
        return answer["vouched"]


def any_identity():
    return Identity(None, ".", None, ".")


class WithRoot(unittest.TestCase):
    def setUp(self):
        kept = tempfile.TemporaryDirectory()
        self.addCleanup(kept.cleanup)
        self.folder = Path(kept.name)
        self.sigstore = Sigstore()

    def root(self, **more):
        return TrustedRoot(self.sigstore.write(self.folder, **more))

    def vouched(self, made, time=NOW, root=None, identities=None):
        """What is vouched for a certificate that was made, in both of its forms."""
        root = root or self.root()
        pems = vouched(made[1].public_bytes(Encoding.PEM), time, root, identities or [any_identity()])
        self.assertEqual(vouched(made[1].public_bytes(Encoding.DER), time, root, identities or [any_identity()]), pems)
        self.assertEqual(base64.b64decode(pems.pop("key")), pem(made[0]))
        return pems

    def refused(self, told, made, time=NOW, root=None, identities=None):
        with self.assertRaises(ValueError) as caught:
            vouched(made[1].public_bytes(Encoding.DER), time, root or self.root(), identities or [any_identity()])
        self.assertIn(told, str(caught.exception))


class Certificates(WithRoot):
    def test_an_email_and_a_url(self):
        self.assertEqual(self.vouched(self.sigstore.certificate(WHO)), {"email": WHO, "issuer": ISSUER})
        self.assertEqual(self.vouched(self.sigstore.certificate(WORKFLOW)), {"url": WORKFLOW, "issuer": ISSUER})

    def test_kinds_of_keys(self):
        for key in (rsa.generate_private_key(65537, 2048), ed25519.Ed25519PrivateKey.generate(), ec.generate_private_key(ec.SECP384R1())):
            self.assertEqual(self.vouched(self.sigstore.certificate(WHO, key=key)), {"email": WHO, "issuer": ISSUER})
        self.refused("malformed or not accepted", self.sigstore.certificate(WHO, key=rsa.generate_private_key(65537, 1024)))
        for key in (rsa.generate_private_key(65537, 3072), ed25519.Ed25519PrivateKey.generate(), ec.generate_private_key(ec.SECP256R1())):
            self.sigstore = Sigstore(authority_key=key)
            self.assertEqual(self.vouched(self.sigstore.certificate(WHO)), {"email": WHO, "issuer": ISSUER})
        self.sigstore = Sigstore(authority_key=rsa.generate_private_key(65537, 1024))
        self.refused("is not by an authority", self.sigstore.certificate(WHO))

    def test_the_time_of_the_log_entry(self):
        made, root = self.sigstore.certificate(WHO, start=-60, end=540), self.root()
        for time in (NOW - 60, NOW, NOW + 540):
            self.vouched(made, time, root)
        for time in (NOW - 61, NOW + 541, 0, -1, 1 << 53, 1 << 200):
            self.refused("was not valid at the time", made, time, root)

    def test_an_authority_that_was_not_valid(self):
        made = self.sigstore.certificate(WHO)
        for chain in ([self.sigstore.authority("intermediate", self.sigstore.intermediate_key, "root", self.sigstore.root_key, 0, end=-1), self.sigstore.root],
                      [self.sigstore.authority("intermediate", self.sigstore.intermediate_key, "root", self.sigstore.root_key, 0, start=1), self.sigstore.root],
                      [self.sigstore.intermediate, self.sigstore.authority("root", self.sigstore.root_key, "root", self.sigstore.root_key, 1, end=-1)]):
            self.refused("is not by an authority", made, root=self.root(chain=chain))
        for valid in ((-YEAR, -1), (1, None), (1, YEAR)):
            self.refused("is not by an authority", made, root=self.root(valid=valid))
        for valid in ((-YEAR, 0), (0, None), (0, 0)):
            self.vouched(made, root=self.root(valid=valid))

    def test_other_authorities(self):
        other, root = Sigstore(), self.root()
        self.refused("is not by an authority", other.certificate(WHO), root=root)
        self.refused("is not by an authority", self.sigstore.certificate(WHO, issuer_key=other.intermediate_key), root=root)
        self.refused("is not by an authority", self.sigstore.certificate(WHO, issuer_name="another"), root=root)
        self.refused("is not by an authority", self.sigstore.certificate(WHO, issuer_name="root", issuer_key=self.sigstore.root_key), root=root)
        # the chain of the root is a chain: an intermediate of another root does not count
        self.refused("is not by an authority", self.sigstore.certificate(WHO), root=self.root(chain=[self.sigstore.intermediate, other.root]))
        # a root alone, which issues to signers
        made = self.sigstore.certificate(WHO, issuer_name="root", issuer_key=self.sigstore.root_key)
        self.vouched(made, root=self.root(chain=[self.sigstore.root]))

    def test_a_certificate_that_was_changed(self):
        made, root = self.sigstore.certificate(WHO), self.root()
        data, chance = made[1].public_bytes(Encoding.DER), random.Random(1)
        for place in range(len(data)):
            changed = bytearray(data)
            changed[place] ^= 1 << chance.randrange(8)
            with self.assertRaises(Exception, msg=place):
                vouched(bytes(changed), NOW, root, [any_identity()])
        for changed in (data + b"\0", data[:-1], b"", b"\0", b"-----", b"-----BEGIN CERTIFICATE-----\n-----END CERTIFICATE-----"):
            with self.assertRaises(Exception, msg=changed):
                vouched(changed, NOW, root, [any_identity()])

    def test_what_an_authority_may(self):
        def chain(**more):
            return [self.sigstore.authority("intermediate", self.sigstore.intermediate_key, "root", self.sigstore.root_key, 0, **more), self.sigstore.root]

        made = self.sigstore.certificate(WHO)
        self.vouched(made, root=self.root(chain=chain()))
        self.vouched(made, root=self.root(chain=chain(purposes=[ExtendedKeyUsageOID.ANY_EXTENDED_KEY_USAGE])))
        constrained = x509.NameConstraints([x509.RFC822Name("other.example")], None)
        unknown = x509.UnrecognizedExtension(ObjectIdentifier("1.2.3.4"), b"\5\0")
        self.vouched(made, root=self.root(chain=chain(more=[(unknown, False)])))
        for wrong in ({"is_ca": False}, {"key_usage": usage(digital_signature=True)}, {"purposes": [ExtendedKeyUsageOID.SERVER_AUTH]},
                      {"more": [(constrained, True)]}, {"more": [(constrained, False)]}, {"more": [(unknown, True)]}, {"digest": hashes.SHA1()}):
            self.refused("is not by an authority", made, root=self.root(chain=chain(**wrong)))

    def test_the_length_of_a_chain(self):
        lower_key = ec.generate_private_key(ec.SECP256R1())
        made = self.sigstore.certificate(WHO, issuer_name="lower", issuer_key=lower_key)
        for lengths, good in (((0, 1, 2), True), ((None, None, None), True), ((0, 0, 2), False), ((0, 1, 1), False), ((0, None, 1), False)):
            lower = self.sigstore.authority("lower", lower_key, "intermediate", self.sigstore.intermediate_key, lengths[0])
            middle = self.sigstore.authority("intermediate", self.sigstore.intermediate_key, "root", self.sigstore.root_key, lengths[1])
            top = self.sigstore.authority("root", self.sigstore.root_key, "root", self.sigstore.root_key, lengths[2])
            if good:
                self.vouched(made, root=self.root(chain=[lower, middle, top]))
            else:
                self.refused("is not by an authority", made, root=self.root(chain=[lower, middle, top]))

    def test_what_a_signer_may(self):
        root, unknown = self.root(), x509.UnrecognizedExtension(ObjectIdentifier("1.2.3.4"), b"\5\0")
        self.vouched(self.sigstore.certificate(WHO, basic=x509.BasicConstraints(False, None)), root=root)
        self.vouched(self.sigstore.certificate(WHO, more=[(unknown, False)]), root=root)
        for wrong in ({"basic": x509.BasicConstraints(True, 0)}, {"key_usage": usage(key_encipherment=True)}, {"key_usage": False}, {"purposes": []},
                      {"purposes": [ExtendedKeyUsageOID.CLIENT_AUTH]}, {"purposes": [ExtendedKeyUsageOID.ANY_EXTENDED_KEY_USAGE]}, {"more": [(unknown, True)]},
                      {"more": [(x509.PrecertPoison(), True)]}):
            self.refused("is not for signing code", self.sigstore.certificate(WHO, **wrong), root=root)
        # an intermediate is no signer, though its key signs
        self.refused("is not for signing code", (self.sigstore.intermediate_key, self.sigstore.intermediate), root=root)


class Timestamps(WithRoot):
    def refuses(self, root=None, **wrong):
        self.refused("holds no timestamp (SCT)", self.sigstore.certificate(WHO, **wrong), root=root)

    def test_one_is_needed(self):
        self.refuses(stamps=lambda tbs: [])
        other = Sigstore()
        self.refuses(stamps=lambda tbs: [other.timestamp(tbs, issuer_key=self.sigstore.intermediate_key)])
        own = self.sigstore.timestamp
        both = self.sigstore.certificate(WHO, stamps=lambda tbs: [other.timestamp(tbs), own(tbs)])
        self.vouched(both)

    def test_what_it_signs(self):
        self.refuses(stamps=lambda tbs: [self.sigstore.timestamp(tbs + b"\0")])
        self.refuses(stamps=lambda tbs: [self.sigstore.timestamp(tbs, issuer_key=self.sigstore.root_key)])
        self.refuses(stamps=lambda tbs: [self.sigstore.timestamp(tbs, entry=0)])
        self.refuses(stamps=lambda tbs: [self.sigstore.timestamp(b"")])
        of_another = []
        self.sigstore.certificate("other@example.com", stamps=lambda tbs: of_another.append(self.sigstore.timestamp(tbs)) or of_another)
        self.refuses(stamps=lambda tbs: of_another)
        self.vouched(self.sigstore.certificate(WHO, stamps=lambda tbs: [self.sigstore.timestamp(tbs, extensions=b"some")]))

    def test_an_rsa_log(self):
        self.sigstore.certificate_log_key = rsa.generate_private_key(65537, 2048)
        self.vouched(self.sigstore.certificate(WHO))

    def test_the_time_of_the_logs_key(self):
        for start, end, at, good in ((-YEAR, None, NOW, True), (0, 0, NOW, True), (1, None, NOW, False), (-YEAR, -1, NOW, False), (0, None, NOW - 0.001, False),
                                     (0, None, NOW + 0.123, True)):
            root = self.root(certificate_logs=[(self.sigstore.certificate_log_key, start, end)])
            made = self.sigstore.certificate(WHO, at=at)
            if good:
                self.vouched(made, root=root)
            else:
                self.refused("holds no timestamp (SCT)", made, root=root)

    def test_a_log_of_signatures_is_none_of_certificates(self):
        self.refused("holds no timestamp (SCT)", self.sigstore.certificate(WHO, stamps=lambda tbs: [self.sigstore.timestamp(tbs, key=self.sigstore.log_key)]))


class Names(WithRoot):
    def test_exactly_one_name(self):
        user = x509.OtherName(USER, counted(12, b"someone!example.com"))
        for names in ([], [EMAIL(WHO), EMAIL("b@example.com")], [EMAIL(WHO), URL(WORKFLOW)], [user], [x509.DNSName("example.com")],
                      [EMAIL(WHO), user], [x509.DirectoryName(keyless.name("x"))]):
            self.refused("exactly one email address or URL", self.sigstore.certificate(WHO, names=names))
        for name in ("https://example.com/a\nb", "https://example.com/\x1b[2J", "https://example.com/\0"):
            self.refused("exactly one email address or URL", self.sigstore.certificate(WHO, names=[URL(name)]))

    def test_exactly_one_issuer(self):
        plain, der = ISSUER.encode(), counted(12, ISSUER.encode())
        for issuers in ({1: plain}, {8: der}, {1: plain, 8: der}):
            self.assertEqual(self.vouched(self.sigstore.certificate(WHO, issuers=issuers))["issuer"], ISSUER)
        long = "https://example.com/" + "x" * 300
        for issuer in (long, long[:127], long[:128], long[:200], long[:255], long[:256]):
            self.assertEqual(self.vouched(self.sigstore.certificate(WHO, issuer))["issuer"], issuer)
        for issuers in ({}, {1: plain + b"/", 8: der}, {2: plain}, {1: b"", 8: der}):
            self.refused("one issuer", self.sigstore.certificate(WHO, issuers=issuers))
        for issuers in ({1: b"\xff"}, {8: counted(12, b"\xff")}, {8: b""}, {8: b"\x0c"}, {1: b"a\nb"}):
            with self.assertRaises(Exception, msg=issuers):
                self.vouched(self.sigstore.certificate(WHO, issuers=issuers))


class Identities(WithRoot):
    def accepts(self, *parts, who=WHO, issuer=ISSUER):
        return Identity(*parts).accepts((who, issuer))

    def test_texts(self):
        self.assertTrue(self.accepts(WHO, None, ISSUER, None))
        for who, issuer in ((WHO + "x", ISSUER), (WHO[1:], ISSUER), (WHO.upper(), ISSUER), (WHO, ISSUER + "/"), (WHO, ISSUER[:-1]), (WHO, "")):
            self.assertFalse(self.accepts(WHO, None, ISSUER, None, who=who, issuer=issuer), (who, issuer))
        self.assertFalse(self.accepts("a.b@example.com", None, ISSUER, None, who="aXb@example.com"))

    def test_patterns(self):
        self.assertTrue(self.accepts(None, "@example", ISSUER, None))  # found anywhere, as cosign does
        self.assertFalse(self.accepts(None, "^@example", ISSUER, None))
        self.assertTrue(self.accepts(None, r"^[a-z]+@example\.com$", None, r"^https://accounts\."))
        self.assertFalse(self.accepts(None, r"^[a-z]+@example\.com$", None, r"^https://accounts\.", issuer="http://accounts.example.com"))
        self.assertFalse(self.accepts(None, r"^\w+@", ISSUER, None, who="\u0430@example.com"))  # of ASCII alone, as in cosign

    def test_what_makes_none(self):
        for parts in ((WHO, None, None, None), (None, None, ISSUER, None), (WHO, WHO, ISSUER, None), (WHO, None, ISSUER, ISSUER), (None, None, None, None),
                      ("", "", ISSUER, ""), (WHO, "", "", "")):
            with self.assertRaisesRegex(ValueError, "needs a subject and an issuer", msg=parts):
                Identity(*parts)
        for pattern in ("(", "*", "[[:alpha:]]+@", r"\pL", "a{2,1}", r"\z"):
            with self.assertRaisesRegex(ValueError, "is not a regular expression", msg=pattern):
                Identity(None, pattern, ISSUER, None)

    def test_any_of_several(self):
        made, root = self.sigstore.certificate(WHO), self.root()
        first, second = Identity("a@example.com", None, ISSUER, None), Identity(WHO, None, ISSUER, None)
        self.vouched(made, root=root, identities=[first, second])
        self.refused(f"signed by {WHO}, for whom {ISSUER} vouched", made, root=root, identities=[first])
        # the subject of one with the issuer of another is neither
        self.refused("is not accepted", made, root=root, identities=[first, Identity(WHO, None, "https://other.example.com", None)])


class Roots(WithRoot):
    def test_what_is_none(self):
        path, good = self.folder / "root.json", self.sigstore.trusted_root()

        def changed(**members):
            return json.dumps(good | members)

        key, issuer = good["tlogs"][0]["publicKey"], base64.b64decode(good["certificateAuthorities"][0]["certChain"]["certificates"][0]["rawBytes"])
        version = base64.b64encode(issuer.replace(b"\xa0\x03\x02\x01\x02", b"\xa0\x03\x02\x01\x07")).decode()
        for text in ("", "{", "[]", "1", "null", "{}", "[" * 100000, "\xff", changed(mediaType="application/json"), changed(mediaType=1), changed(tlogs=None),
                     changed(ctlogs=[{}]), changed(certificateAuthorities=[{"certChain": {"certificates": [{"rawBytes": "AAAA"}]}, "validFor": {}}]),
                     changed(tlogs=[{"publicKey": key | {"rawBytes": "AAAA"}}]), changed(tlogs=[{"publicKey": key | {"validFor": {"start": "yesterday"}}}]),
                     changed(tlogs=[{"publicKey": key | {"validFor": {"start": "2020-01-01T00:00:00"}}}]), changed(tlogs=[{"publicKey": {"rawBytes": key["rawBytes"]}}]),
                     changed(certificateAuthorities=[{"certChain": {"certificates": [{"rawBytes": version}]}, "validFor": {"start": "2020-01-01T00:00:00Z"}}]),
                     changed(other="\ud800"), changed(Tlogs=[]), '{"tlogs":[],' + changed()[1:], "\ufeff".encode().decode("latin-1") + changed()):
            path.write_text(text, encoding="latin-1")
            with self.assertRaises(ValueError, msg=text[:200]) as caught:
                TrustedRoot(path)
            self.assertTrue(str(caught.exception).startswith(f"{path} is not a sigstore trusted root"), caught.exception)
        with self.assertRaises(OSError):
            TrustedRoot(self.folder / "absent")

    def test_periods(self):
        good = self.sigstore.trusted_root()
        for start in ("2021-03-07T03:20:29.000Z", "2021-03-07T03:20:29Z", "2021-03-07T04:20:29+01:00", "2021-03-07T03:20:29.123456789Z"):
            good["tlogs"][0]["publicKey"]["validFor"] = {"start": start}
            (self.folder / "root.json").write_text(json.dumps(good))
            log, = TrustedRoot(self.folder / "root.json").logs.values()
            self.assertEqual((int(log.start), datetime.datetime.fromtimestamp(log.end).year > 9000), (1615087229, True))
        # a key without a start is one of no time
        good["tlogs"][0]["publicKey"]["validFor"] = {}
        (self.folder / "root.json").write_text(json.dumps(good))
        log, = TrustedRoot(self.folder / "root.json").logs.values()
        self.assertGreater(log.start, 1 << 37)

    def test_several_authorities(self):
        old, made = Sigstore(), self.sigstore.certificate(WHO)
        both = self.sigstore.trusted_root()
        both["certificateAuthorities"][:0] = old.trusted_root()["certificateAuthorities"]
        (self.folder / "root.json").write_text(json.dumps(both))
        self.vouched(made, root=TrustedRoot(self.folder / "root.json"))


class Counting(WithRoot):
    """What counts as a signature of an image, as the core asks: about the log's entry, the certificate, the signature."""

    def rule(self, identities=None):
        return Rule([], identities or [any_identity()], {}, self.sigstore.write(self.folder))

    def own_key(self, name="key.pub"):
        key = ec.generate_private_key(ec.SECP256R1())
        (self.folder / name).write_bytes(pem(key))
        return key, self.folder / name

    def entry(self, signatures, annotations, log_key=None):
        bundle = json.loads(annotations["dev.sigstore.cosign/bundle"])
        return signatures.verify(pem(log_key or self.sigstore.log_key), keyless.canonical(bundle["Payload"]), base64.b64decode(bundle["SignedEntryTimestamp"]))

    def layer(self, signatures, annotations, message=PAYLOAD, keys=()):
        """Whether a layer with these annotations counts, as the core asks of one."""
        signature = base64.b64decode(annotations["dev.cosignproject.cosign/signature"])
        if "dev.sigstore.cosign/bundle" in annotations and not self.entry(signatures, annotations):
            return False
        if "dev.sigstore.cosign/certificate" not in annotations:
            return any(signatures.verify(pem(key), message, signature) for key in keys)
        time = json.loads(annotations["dev.sigstore.cosign/bundle"])["Payload"]["integratedTime"]
        found = signatures.judged(annotations["dev.sigstore.cosign/certificate"].encode(), time)
        return bool(found) and signatures.verify(base64.b64decode(found["key"]), message, signature)

    def bundle(self, signatures, content, keys=()):
        """Whether a bundle counts, as the core asks of one."""
        value = json.loads(content)
        entry = value["verificationMaterial"]["tlogEntries"][0]
        time = int(entry["integratedTime"])
        text = {"body": entry["canonicalizedBody"], "integratedTime": time, "logIndex": int(entry["logIndex"]),
                "logID": base64.b64decode(entry["logId"]["keyId"]).hex()}
        envelope = value["dsseEnvelope"]
        message = pre_authentication(base64.b64decode(envelope["payload"]), envelope["payloadType"])
        signature = base64.b64decode(envelope["signatures"][0]["sig"])
        if not signatures.verify(pem(self.sigstore.log_key), keyless.canonical(text), base64.b64decode(entry["inclusionPromise"]["signedEntryTimestamp"])):
            return False
        if "certificate" not in value["verificationMaterial"]:
            return any(signatures.verify(pem(key), message, signature) for key in keys)
        found = signatures.judged(base64.b64decode(value["verificationMaterial"]["certificate"]["rawBytes"]), time)
        return bool(found) and signatures.verify(base64.b64decode(found["key"]), message, signature)

    def test_a_payload_without_a_key(self):
        signatures = Signatures(self.rule())
        self.assertTrue(self.layer(signatures, self.sigstore.payload_annotations(PAYLOAD, WHO)))
        self.assertEqual(signatures.signer("sha256:" + hashlib.sha256(PAYLOAD).hexdigest()), f"{WHO} of {ISSUER}")
        self.assertEqual(signatures.why, "")
        self.assertFalse(self.layer(signatures, self.sigstore.payload_annotations(PAYLOAD, WHO), message=PAYLOAD + b"."))

    def test_a_bundle_without_a_key(self):
        signatures = Signatures(self.rule())
        self.assertTrue(self.bundle(signatures, self.sigstore.bundle(DIGEST, WORKFLOW)), signatures.why)
        self.assertEqual(signatures.signer("sha256:of the bundle"), f"{WORKFLOW} of {ISSUER}")

    def test_identities_that_are_not_accepted(self):
        signatures = Signatures(self.rule([Identity("other@example.com", None, ISSUER, None)]))
        self.assertFalse(self.layer(signatures, self.sigstore.payload_annotations(PAYLOAD, WHO)))
        self.assertIn(f"signed by {WHO}", signatures.why)
        self.assertEqual(signatures.signer("sha256:x"), "")

    def test_a_certificate_where_only_keys_are_trusted(self):
        key, path = self.own_key()
        for root in (None, self.sigstore.write(self.folder)):
            signatures = Signatures(Rule([path], [], {}, root, [self.folder / "rekor.pub"] if root else []))
            annotations = self.sigstore.payload_annotations(PAYLOAD, WHO)
            self.assertIsNone(signatures.judged(annotations["dev.sigstore.cosign/certificate"].encode(), NOW))
            self.assertIn("not accepted" if root else "no identity with a trusted root", signatures.why)

    def test_an_entry_of_another_log(self):
        signatures = Signatures(self.rule())
        other = ec.generate_private_key(ec.SECP256R1())
        annotations = self.sigstore.payload_annotations(PAYLOAD, WHO)
        bundle = json.loads(annotations["dev.sigstore.cosign/bundle"])
        text = keyless.canonical(bundle["Payload"])
        self.assertFalse(signatures.verify(pem(self.sigstore.log_key), text, signed(other, text)))
        self.assertFalse(signatures.verify(pem(other), text, signed(other, text)))
        # the known log's key, under the id of another
        renamed = keyless.canonical(bundle["Payload"] | {"logID": "ab" * 32})
        self.assertFalse(signatures.verify(pem(self.sigstore.log_key), renamed, signed(self.sigstore.log_key, renamed)))

    def test_a_log_key_that_was_not_valid(self):
        for start, end, good in ((-YEAR, None, True), (-YEAR, 0, True), (0, None, True), (-YEAR, -1, False), (1, None, False)):
            root = self.sigstore.write(self.folder, logs=[(self.sigstore.log_key, start, end)])
            signatures = Signatures(Rule([], [any_identity()], {}, root))
            self.assertEqual(self.layer(signatures, self.sigstore.payload_annotations(PAYLOAD, WHO)), good, (start, end))
            self.assertEqual("at the time of the log entry" in signatures.why, not good)

    def test_an_entry_of_another_signature(self):
        """A key of a certificate that leaked signs later, beside an old entry from the certificate's time."""
        signatures = Signatures(self.rule())
        key, certificate = self.sigstore.certificate(WHO)
        text = certificate.public_bytes(Encoding.PEM)
        old = self.sigstore.logged_annotations(PAYLOAD, key, text) | {"dev.sigstore.cosign/certificate": text.decode()}
        later = b"another payload"
        new = old | {"dev.cosignproject.cosign/signature": keyless.b64(signed(key, later))}
        self.assertFalse(self.layer(signatures, new, later))
        self.assertIn("is of another signature", signatures.why)
        self.assertTrue(self.layer(signatures, old))
        self.assertFalse(self.layer(signatures, new, later))
        # logged, but when the certificate was valid no more
        late = self.sigstore.logged_annotations(later, key, text, at=NOW + 10_000) | {"dev.sigstore.cosign/certificate": text.decode()}
        self.assertFalse(self.layer(signatures, late, later))
        self.assertFalse(self.layer(signatures, new, later))

    def test_a_bundle_with_the_entry_of_another_signature(self):
        key, certificate = self.sigstore.certificate(WHO)
        text = certificate.public_bytes(Encoding.PEM)
        for body in (self.sigstore.hashedrekord(PAYLOAD, signed(key, PAYLOAD), text), self.sigstore.dsse(b"{}", signed(key, pre_authentication(b"{}")), text),
                     self.sigstore.dsse(b"{}", b"", text), {"kind": "intoto", "spec": {}}, {"kind": "dsse", "spec": {"signatures": []}}, [], 1, "x", {"kind": "dsse"}):
            signatures = Signatures(self.rule())
            self.assertFalse(self.bundle(signatures, self.sigstore.bundle(DIGEST, WHO, body=body)), body)
            self.assertNotEqual(signatures.why, "")

    def test_entries_of_a_key(self):
        key, path = self.own_key()
        self.sigstore.write(self.folder)
        log = [self.folder / "rekor.pub"]
        logged, plain = self.sigstore.logged_annotations(PAYLOAD, key), {"dev.cosignproject.cosign/signature": keyless.b64(signed(key, PAYLOAD))}
        for required in (False, True):
            rule = Rule([path], [], {}, None, log, required)
            self.assertTrue(self.layer(Signatures(rule), logged, keys=[key]))
            signatures = Signatures(rule)
            self.assertEqual(self.layer(signatures, plain, keys=[key]), not required)
            self.assertEqual(signatures.why, "it has no entry in a known log" if required else "")
            self.assertEqual(signatures.signer("sha256:" + hashlib.sha256(PAYLOAD).hexdigest()), "" if required else str(path))
            self.assertTrue(self.bundle(Signatures(rule), self.sigstore.bundle(DIGEST, key=key), keys=[key]))
            for body in (self.sigstore.hashedrekord(b"other", signed(key, PAYLOAD), pem(key)), self.sigstore.hashedrekord(PAYLOAD, b"other", pem(key)),
                         self.sigstore.hashedrekord(PAYLOAD, signed(key, PAYLOAD), pem(self.sigstore.log_key)), {"kind": "rekord"}):
                annotations = self.sigstore.logged_annotations(PAYLOAD, key, body=body)
                self.assertEqual(self.layer(Signatures(rule), annotations, keys=[key]), not required, body)

    def test_what_an_entry_must_name(self):
        """The hash of this payload, this key and this very signature, and each of them."""
        key, path = self.own_key()
        self.sigstore.write(self.folder)
        signature, other = signed(key, PAYLOAD), signed(key, PAYLOAD)
        statement = b'{"predicateType":"%s"}' % SIGN.encode()
        message = pre_authentication(statement)
        enveloped = signed(key, message)
        record, dsse = self.sigstore.hashedrekord, self.sigstore.dsse
        for body, text, mine, good in (
                (record(PAYLOAD, signature, pem(key)), PAYLOAD, signature, True), (record(PAYLOAD, other, pem(key)), PAYLOAD, signature, False),
                (record(PAYLOAD, signature, pem(self.sigstore.log_key)), PAYLOAD, signature, False), (record(b"x", signature, pem(key)), PAYLOAD, signature, False),
                (dsse(PAYLOAD, signature, pem(key)), PAYLOAD, signature, False), (dsse(statement, enveloped, pem(key)), message, enveloped, True),
                (record(message, enveloped, pem(key)), message, enveloped, True), (dsse(message, enveloped, pem(key)), message, enveloped, False),
                (record(statement, enveloped, pem(key)), message, enveloped, False), (dsse(statement, signature, pem(key)), message, enveloped, False)):
            signatures = Signatures(Rule([path], [], {}, None, [self.folder / "rekor.pub"], True))
            entry, promise = self.sigstore.entry(body)
            self.assertTrue(signatures.verify(pem(self.sigstore.log_key), keyless.canonical(entry), promise))
            self.assertEqual(signatures.verify(pem(key), text, mine), good, body)

    def test_a_required_entry_may_come_with_another_layer(self):
        """It is a fact about this signature of this payload by this key, with whichever layer it came."""
        key, path = self.own_key()
        self.sigstore.write(self.folder)
        signatures = Signatures(Rule([path], [], {}, None, [self.folder / "rekor.pub"], True))
        annotations = self.sigstore.logged_annotations(PAYLOAD, key)
        alone = {"dev.cosignproject.cosign/signature": annotations["dev.cosignproject.cosign/signature"]}
        self.assertFalse(self.layer(signatures, alone, keys=[key]))
        self.assertTrue(self.entry(signatures, annotations))
        self.assertTrue(self.layer(signatures, alone, keys=[key]))

    def test_keys_that_nobody_named(self):
        key, path = self.own_key()
        other, _ = self.own_key("other.pub")
        signatures = Signatures(Rule([path], [], {}))
        self.assertTrue(signatures.verify(pem(key), PAYLOAD, signed(key, PAYLOAD)))
        self.assertFalse(signatures.verify(pem(other), PAYLOAD, signed(other, PAYLOAD)))
        self.assertFalse(signatures.verify(pem(self.sigstore.log_key), PAYLOAD, signed(self.sigstore.log_key, PAYLOAD)))

    def test_a_log_that_signs_images(self):
        """The key of a log that is also a signer's: an entry is not taken for an image's signature, nor the other way round."""
        self.sigstore.write(self.folder)
        rule = Rule([self.folder / "rekor.pub"], [], {}, None, [self.folder / "rekor.pub"])
        signatures = Signatures(rule)
        self.assertTrue(signatures.verify(pem(self.sigstore.log_key), PAYLOAD, signed(self.sigstore.log_key, PAYLOAD)))
        self.assertTrue(self.entry(signatures, self.sigstore.logged_annotations(PAYLOAD, self.sigstore.log_key)))
        self.assertEqual(list(signatures.signers), ["sha256:" + hashlib.sha256(PAYLOAD).hexdigest()])
        # a payload that has an entry's members as well is no entry, and so is not logged
        payload = keyless.canonical(self.sigstore.entry({})[0] | {"critical": {}})
        signatures = Signatures(Rule([self.folder / "rekor.pub"], [], {}, None, [self.folder / "rekor.pub"], True))
        self.assertFalse(signatures.verify(pem(self.sigstore.log_key), payload, signed(self.sigstore.log_key, payload)))

    def test_statements_that_are_no_signatures(self):
        key, path = self.own_key()
        self.sigstore.write(self.folder)

        def counts(predicates=None, **more):
            signatures = Signatures(Rule([path], [], {}, None, [self.folder / "rekor.pub"], False, predicates))
            return self.bundle(signatures, self.sigstore.bundle(DIGEST, key=key, **more), keys=[key]), signatures.why

        self.assertEqual(counts(), (True, ""))
        for predicate in ("https://slsa.dev/provenance/v1", "https://cosign.sigstore.dev/attestation/vuln/v1", "", None, SIGN + "/", ["x"], 1):
            self.assertEqual(counts(predicate=predicate), (False, f"it signs a statement of the type {predicate}, which is not a signature of an image"))
        self.assertTrue(counts(["https://slsa.dev/provenance/v1"], predicate="https://slsa.dev/provenance/v1")[0])
        self.assertTrue(counts(["https://slsa.dev/provenance/v1"])[0])
        for kind in ("application/json", "application/vnd.in-toto+json ", "", "text/plain; charset=utf-8"):
            self.assertFalse(counts(kind=kind)[0], kind)
        for message in (b"DSSEv1 ", b"DSSEv1 x", b"DSSEv1 28 application/vnd.in-toto+json 2 {}", b"DSSEv1 28 application/vnd.in-toto+json 2 []",
                        b"DSSEv1 99999999999 a 1 b", b"DSSEv1 -1 a 1 b", b"DSSEv1 28 application/vnd.in-toto+json 6 " + b"[" * 100000):
            self.assertFalse(Signatures(Rule([path], [], {})).verify(pem(key), message, signed(key, message)), message[:60])

    def test_the_same_for_a_certificate(self):
        signatures = Signatures(self.rule())
        self.assertFalse(self.bundle(signatures, self.sigstore.bundle(DIGEST, WHO, predicate="https://slsa.dev/provenance/v1")))
        self.assertIn("is not a signature of an image", signatures.why)

    def test_several_signers(self):
        one, first = self.own_key("one.pub")
        two, second = self.own_key("two.pub")
        signatures = Signatures(Rule([first, second], [], {}))
        signatures.verify(pem(two), PAYLOAD, signed(two, PAYLOAD))
        self.assertEqual((signatures.signer("sha256:" + hashlib.sha256(PAYLOAD).hexdigest()), signatures.signer("sha256:x")), (str(second), str(second)))
        signatures.verify(pem(one), b"other", signed(one, b"other"))
        self.assertEqual((signatures.signer("sha256:" + hashlib.sha256(PAYLOAD).hexdigest()), signatures.signer("sha256:x")), (str(second), ""))

    def test_nothing_is_raised(self):
        signatures, chance = Signatures(self.rule()), random.Random(2)
        annotations = self.sigstore.payload_annotations(PAYLOAD, WHO)
        certificate = annotations["dev.sigstore.cosign/certificate"].encode()
        for _ in range(60):
            changed = bytearray(certificate)
            changed[chance.randrange(len(changed))] = chance.randrange(256)
            signatures.judged(bytes(changed), chance.choice([NOW, 0, -1, 1 << 60]))
            signatures.judged(chance.randbytes(chance.randrange(300)), NOW)
            for message in (b'{"body":1}', b'{"body":"e30","integratedTime":"x","logID":[],"logIndex":{}}', b'{"body":' + b"[" * 100000, chance.randbytes(40)):
                self.assertFalse(signatures.verify(pem(self.sigstore.log_key), message, chance.randbytes(70)))
                signatures.verify(pem(self.sigstore.log_key), message, signed(self.sigstore.log_key, message))
        self.assertFalse(signatures.logged)
        for frame in ({"frame": "verify"}, {"frame": "verify", "key": 1, "signature": "x"}, {"frame": "judge"}, {"frame": "judge", "certificate": "AA==", "integrated_time": "x"}):
            self.assertIn(signatures.reply(frame), [{"frame": "verified", "valid": False}, {"frame": "vouched", "vouched": None}])

    def test_nothing_is_said_on_the_terminal(self):
        """What a library warns of is refused, and not printed: a certificate with a negative serial number."""
        data = bytearray(self.sigstore.certificate(WHO)[1].public_bytes(Encoding.DER))
        data[data.index(b"\xa0\3\2\1\2") + 7] |= 0x80
        script = ("import sys; sys.path.insert(0, sys.argv[1])\nfrom pathlib import Path\nfrom host.rules import Identity, Rule\n"
                  "from host.signatures import Signatures\ns = Signatures(Rule([], [Identity(None, '.', None, '.')], {}, Path(sys.argv[2])))\n"
                  "print(s.reply({'frame': 'judge', 'certificate': sys.argv[3], 'integrated_time': int(sys.argv[4])}), s.why)")
        done = subprocess.run([sys.executable, "-c", script, TOP, self.sigstore.write(self.folder), keyless.b64(data), str(NOW)], capture_output=True, text=True, check=True)
        self.assertEqual(("'vouched': None" in done.stdout, "negative serial number" in done.stdout, done.stderr), (True, True, ""))


if __name__ == "__main__":
    unittest.main()
