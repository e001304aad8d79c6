#!/usr/bin/python3
"""Tests of rules and of policy files. Run it, or `python3 -m unittest` over it."""
import base64
import hashlib
import json
import os
import sys
import tempfile
import unittest
from pathlib import Path

from cryptography.hazmat.primitives.asymmetric import ec, rsa
from cryptography.hazmat.primitives.serialization import Encoding, NoEncryption, PrivateFormat

sys.dont_write_bytecode = True
TOP = Path(__file__).resolve().parent.parent.parent
sys.path[:0] = [str(TOP), str(TOP / "tests")]

from keyless import ISSUER, Sigstore, der, pem  # noqa: E402

from host.places import repository_of  # noqa: E402
from host.policy import Policy  # noqa: E402
from host.rules import COSIGN_SIGN, Identity, Rule, annotations_of  # noqa: E402

WHO, URL = "release@example.com", "https://ci.example.com/release.yml@refs/heads/main"


class WithFolder(unittest.TestCase):
    def setUp(self):
        kept = tempfile.TemporaryDirectory()
        self.addCleanup(kept.cleanup)
        self.folder = Path(kept.name)
        self.sigstore = Sigstore()
        self.root = self.sigstore.write(self.folder)
        self.keys = {}
        for name in ("a", "b"):
            self.keys[name] = ec.generate_private_key(ec.SECP256R1())
            (self.folder / f"{name}.pub").write_bytes(pem(self.keys[name]))

    def key(self, name):
        return base64.b64encode(pem(self.keys[name])).decode()

    def logs(self):
        return {hashlib.sha256(der(self.sigstore.log_key)).hexdigest(): base64.b64encode(pem(self.sigstore.log_key)).decode()}


class Rules(WithFolder):
    def test_keys(self):
        (self.folder / "both.pub").write_bytes(pem(self.keys["a"]) + pem(self.keys["b"]))
        rule = Rule([self.folder / "both.pub"], [], {"stage": "production"})
        self.assertEqual(rule.settings(), {"keys": [self.key("a"), self.key("b")], "constraints": [{"annotations": {"stage": "production"}}], "log_keys": {},
                                           "statements": [COSIGN_SIGN]})
        self.assertEqual(set(rule.keys.values()), {str(self.folder / "both.pub")})
        self.assertEqual(rule.predicates, [COSIGN_SIGN])
        rule = Rule([self.folder / "a.pub", self.folder / "a.pub", self.folder / "b.pub"], [], {})
        self.assertEqual(rule.settings()["keys"], [self.key("a"), self.key("b")])

    def test_logs(self):
        for root, log in ((self.root, []), (None, [self.folder / "rekor.pub"]), (self.root, [self.folder / "rekor.pub"])):
            rule = Rule([self.folder / "a.pub"], [], {}, root, log, True)
            self.assertEqual((rule.settings()["log_keys"], rule.require_log), (self.logs(), True))
        # a trusted root knows when its logs' keys are valid, whatever --log-key names beside
        log, = Rule([self.folder / "a.pub"], [], {}, self.root, [self.folder / "rekor.pub"]).logs.values()
        self.assertGreater(log.start, 0)
        log, = Rule([self.folder / "a.pub"], [], {}, None, [self.folder / "rekor.pub"]).logs.values()
        self.assertEqual((log.start, log.end), (0, float("inf")))

    def test_an_identity_is_checked_by_the_core_too(self):
        for who, constraint in ((WHO, {"email": WHO, "issuer": ISSUER}), (URL, {"url": URL, "issuer": ISSUER})):
            settings = Rule([], [Identity(who, None, ISSUER, None)], {"a": "b"}, self.root).settings()
            self.assertEqual(settings, {"keys": [], "constraints": [{"annotations": {"a": "b"}}, constraint], "log_keys": self.logs(), "statements": [COSIGN_SIGN]})
        exact = Identity(WHO, None, ISSUER, None)
        # where somebody else may sign as well, it is no constraint of all signatures
        for keys, identities in (([self.folder / "a.pub"], [exact]), ([], [exact, exact]), ([], [Identity(None, "x", ISSUER, None)]), ([], [Identity(WHO, None, None, "x")])):
            self.assertEqual(Rule(keys, identities, {}, self.root).settings()["constraints"], [{"annotations": {}}])

    def test_what_is_missing(self):
        one = Identity(WHO, None, ISSUER, None)
        no_logs = self.folder / "no_logs.json"
        no_logs.write_text(json.dumps(self.sigstore.trusted_root() | {"tlogs": []}))
        for told, parts in (("nobody is trusted", ([], [], {})), ("nobody is trusted", ([], [], {}, self.root)), ("needs the trusted root", ([], [one], {})),
                            ("needs the trusted root", ([self.folder / "a.pub"], [one], {}, None, [self.folder / "rekor.pub"])),
                            ("no log is known", ([self.folder / "a.pub"], [], {}, None, [], True)), ("no log is known", ([], [one], {}, no_logs)),
                            ("not a PEM file of public keys", ([self.root], [], {})), ("is not a sigstore trusted root", ([], [one], {}, self.folder / "a.pub"))):
            with self.assertRaisesRegex(ValueError, told, msg=parts):
                Rule(*parts)
        with self.assertRaises(OSError):
            Rule([self.folder / "absent"], [], {})

    def test_annotations(self):
        self.assertEqual(annotations_of(["a=1", "b=x=y", "c=", "a=1"]), {"a": "1", "b": "x=y", "c": ""})
        for pairs in (["a"], [""], ["=1"], ["a=1", "a=2"], ["a=1", "b=1", "a="]):
            with self.assertRaisesRegex(ValueError, "is not NAME=VALUE, or", msg=pairs):
                annotations_of(pairs)

    def test_repositories(self):
        for reference, repository in (("busybox", "docker.io/library/busybox"), ("busybox:1", "docker.io/library/busybox"), ("team/app:1", "docker.io/team/app"),
                                      ("docker.io/app", "docker.io/library/app"), ("index.docker.io/app@sha256:ab", "docker.io/library/app"),
                                      ("r.io/app", "r.io/app"), ("R.io:5000/a/b/c:d@sha256:ab", "r.io:5000/a/b/c"), ("localhost/app", "localhost/app"),
                                      ("localhost:5000/app:v1", "localhost:5000/app"), ("app@sha256:ab", "docker.io/library/app"), ("r.io/app:a@sha256:b:c", "r.io/app")):
            self.assertEqual(repository_of(reference), repository, reference)


class Files(WithFolder):
    def read(self, text):
        path = self.folder / "policy"
        path.write_bytes(text if isinstance(text, bytes) else text.encode())
        return Policy(path)

    def refused(self, told, text):
        with self.assertRaises(ValueError) as caught:
            self.read(text)
        self.assertIn(told, str(caught.exception))
        self.assertTrue(str(caught.exception).startswith(str(self.folder / "policy")), caught.exception)
        self.assertNotIn("\n", str(caught.exception))

    def rules(self, *rules):
        return self.read(json.dumps({"version": 1, "rules": list(rules)}))

    def test_every_member(self):
        rule = self.read(f"""
# who signs for us
version: 1
rules:
  - images: r.example/team
    keys:
      - a.pub
      - ./b.pub
    identities:
      - {{subject: {WHO}, issuer: {ISSUER}}}
      - subjectRegExp: ^https://ci\\.example\\.com/
        issuerRegExp: '^https://'
    annotations:
      stage: production
      number: "1"
    trustedRoot: trusted_root.json
    logKeys: [rekor.pub]
    requireLog: true
    predicateTypes: [https://example.com/other]
""").for_reference("r.example/team/app:v1")
        self.assertEqual(rule.settings(), {"keys": [self.key("a"), self.key("b")], "constraints": [{"annotations": {"stage": "production", "number": "1"}}],
                                           "log_keys": self.logs(), "statements": [COSIGN_SIGN, "https://example.com/other"]})
        self.assertEqual((rule.require_log, rule.predicates), (True, [COSIGN_SIGN, "https://example.com/other"]))
        self.assertEqual([one.accepts((WHO, ISSUER)) for one in rule.identities], [True, False])
        self.assertEqual([one.accepts((URL, ISSUER)) for one in rule.identities], [False, True])

    def test_json(self):
        value = {"version": 1, "rules": [{"images": "r.example", "keys": ["a.pub"], "annotations": {"a": "\u00e9\" \\ /"}, "requireLog": False}]}
        for text in (json.dumps(value), json.dumps(value, indent="\t"), json.dumps(value, indent=2, ensure_ascii=False), json.dumps(value, separators=(",", ":"))):
            self.assertEqual(self.read(text).for_reference("r.example/x").annotations, {"a": "\u00e9\" \\ /"}, text)

    def test_which_rule(self):
        policy = self.rules({"images": "r.example/team/app", "keys": ["a.pub"], "annotations": {"rule": "1"}},
                            {"images": "r.example/team/", "keys": ["a.pub"], "annotations": {"rule": "2"}},
                            {"images": "r.example:5000", "keys": ["a.pub"], "annotations": {"rule": "3"}},
                            {"images": "r.example/team/app/deep", "keys": ["a.pub"], "annotations": {"rule": "4"}},
                            {"images": "docker.io/library/busybox", "keys": ["a.pub"], "annotations": {"rule": "5"}})
        for reference, number in (("r.example/team/app:v1", 1), ("r.example/team/app@sha256:ab", 1), ("r.example/team/app/deep", 1), ("r.example/team/apps", 2),
                                  ("r.example/team", 2), ("R.EXAMPLE/team/app", 1), ("r.example:5000/x/y", 3), ("busybox", 5), ("index.docker.io/busybox:1", 5)):
            self.assertEqual(policy.for_reference(reference).annotations, {"rule": str(number)}, reference)
        for reference in ("r.example/teams", "r.example/other", "r.example", "x.r.example/team/app", "r.example:443/team/app", "alpine", "other/busybox",
                          "r.example@x/team/app", "r.examples/team/app"):
            self.assertIsNone(policy.for_reference(reference), reference)

    def test_keys_are_beside_the_policy(self):
        (self.folder / "deeper").mkdir()
        path = self.folder / "deeper/policy"
        path.write_text("version: 1\nrules: [{images: r.io, keys: [../a.pub, " + str(self.folder / "b.pub") + "]}]")
        self.assertEqual(Policy(path).for_reference("r.io/x").settings()["keys"], [self.key("a"), self.key("b")])

    def test_members_that_are_wrong(self):
        head = "version: 1\nrules:\n  - images: r.io\n    keys: [a.pub]\n"
        for told, text in (("line 5 is not a policy: rules has no member key", head + "    key: a.pub\n"),
                           ("line 5 is not a policy: keys is given twice", head + "    keys: [b.pub]\n"),
                           ("line 5 is not a policy: requireLog is not true or false", head + "    requireLog: 1\n"),
                           ("line 5 is not a policy: requireLog is not true or false", head + '    requireLog: "true"\n'),
                           ("line 6 is not a policy: stage is not a string", head + "    annotations:\n      stage: 1\n"),
                           ("line 6 is not a policy: stage is given twice", head + "    annotations: {stage: a,\n      stage: b}\n"),
                           ("line 5 is not a policy: stage is not a string", head + "    annotations: {stage: [a]}\n"),
                           ("line 5 is not a policy: logKeys is not a list", head + "    logKeys: rekor.pub\n"),
                           ("line 5 is not a policy: annotations is not a mapping", head + "    annotations: [a]\n"),
                           ("line 5 is not a policy: trustedRoot is not a string", head + "    trustedRoot: null\n"),
                           ("line 6 is not a policy: identities has no member email", head + "    identities:\n      - email: x\n"),
                           ("line 1 is not a policy: the policy has no member Rules", "Rules: []\nversion: 1\n"),
                           ("line 2 is not a policy: version is given twice", "version: 1\nversion: 1\n"),
                           ("line 1 is not a policy: version is not an integer", "version: '1'\n"), ("is not a policy: it needs `version: 1`", "version: 2\nrules: [{images: r.io, keys: [a.pub]}]"),
                           ("is not a policy: it needs `version: 1`", "version: 0x1\nrules: [{images: r.io, keys: [a.pub]}]"),
                           ("it needs `version: 1`, and `rules`", "version: 1\nrules: []"), ("it needs `version: 1`, and `rules`", "version: 1"), ("it needs `version: 1`", "{}"),
                           ("the policy is not a mapping", ""), ("the policy is not a mapping", "- 1"), ("the policy is not a mapping", "text"), ("rules is not a mapping", "version: 1\nrules: [1]"),
                           ("rules is not a list", "version: 1\nrules: {}"), ("line 3 is not a policy: rules has no member <<", "version: 1\nrules:\n  - <<: {images: r.io}\n"),
                           ("line 5 is not a policy: requireLog is not true", head + "    requireLog: !!python/object/apply:os.system [x]\n"),
                           ("line 4 is not a policy: keys is not a string", "version: 1\nrules:\n  - images: r.io\n    keys: [!!binary YQ==]\n")):
            self.refused(told, text)

    def test_documents_that_do_not_parse(self):
        for text in ("{", "a: b: c", "version: 1\n\trules: []", "version: 1\n---\nversion: 1\n", "[" * 3000, b"\xff\xfe", "\0", "a: \x07", "%YAML 9", "&a", '{"version":1,"rules":[{"images":"r.io","keys":["a.pub"],"annotations":{"a":"\\ud800"}}]}', '{"a":' * 3000, '{"version": 1,, }', "? ? ? :"):
            self.refused("is not a policy: ", text)
        self.refused("line 2 is not a policy: ", "version: 1\nrules: [}\n")
        with self.assertRaises(OSError):
            Policy(self.folder / "absent")

    def test_aliases(self):
        policy = self.read("version: 1\nrules:\n  - images: r.io\n    keys: &ours [a.pub, b.pub]\n  - {images: other.io, keys: *ours}\n")
        self.assertEqual(policy.for_reference("other.io/x").settings()["keys"], [self.key("a"), self.key("b")])
        bomb = "a: &a [x, x, x, x, x, x, x, x, x]\n" + "".join(f"{chr(98 + n)}: &{chr(98 + n)} [{', '.join(['*' + chr(97 + n)] * 9)}]\n" for n in range(12))
        self.refused("line 1 is not a policy: the policy has no member a", bomb)  # nothing is expanded that has no place in a policy
        self.refused("version is not an integer", "version: &a [*a]\n")

    def test_images_that_are_wrong(self):
        for images in ("", "team/app", "busybox", "/app", "r.io/app:v1", "r.io/app@sha256:ab", "index.docker.io/app", "R.io/app", "*", "https://r.io/app"):
            self.refused("`images` of rule 2 is not a registry, or a registry and a path", json.dumps({"version": 1, "rules": [
                {"images": "r.io", "keys": ["a.pub"]}, {"images": images, "keys": ["a.pub"]}]}))
        self.refused("`images` of rule 1", json.dumps({"version": 1, "rules": [{"keys": ["a.pub"]}]}))

    def test_rules_that_are_wrong(self):
        (self.folder / "private").write_bytes(self.keys["a"].private_bytes(Encoding.PEM, PrivateFormat.PKCS8, NoEncryption()))
        (self.folder / "weak.pub").write_bytes(pem(rsa.generate_private_key(65537, 1024)))
        os.mkfifo(self.folder / "pipe")
        for told, parts in (("nobody is trusted", {}), ("nobody is trusted", {"keys": []}), ("No such file", {"keys": ["absent"]}), ("holds a private key", {"keys": ["private"]}),
                            ("weak.pub holds a public key that is malformed or not accepted", {"keys": ["weak.pub"]}), ("needs the trusted root", {"identities": [{"subject": WHO, "issuer": ISSUER}]}),
                            ("no log is known", {"keys": ["a.pub"], "requireLog": True}), ("needs a subject and an issuer", {"identities": [{"subject": WHO}]}),
                            ("needs a subject and an issuer", {"identities": [{}]}), ("is not a regular expression", {"identities": [{"subjectRegExp": "(", "issuer": ISSUER}]}),
                            ("is not a sigstore trusted root", {"keys": ["a.pub"], "trustedRoot": "a.pub"}), ("No such file", {"keys": ["a.pub"], "logKeys": ["absent"]}),
                            ("is not a regular file", {"keys": ["."]}), ("is not a regular file", {"keys": ["pipe"]}), ("is not a regular file", {"keys": ["a.pub"], "trustedRoot": "pipe"})):
            self.refused(told, json.dumps({"version": 1, "rules": [{"images": "r.io"} | parts]}))
            self.refused("is not a policy: rule 1 (r.io): ", json.dumps({"version": 1, "rules": [{"images": "r.io"} | parts]}))


if __name__ == "__main__":
    unittest.main()
