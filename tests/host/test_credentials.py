#!/usr/bin/python3
"""Tests of where credentials come from, and of where they go."""
import base64
import json
import os
import time
import unittest
from pathlib import Path
from unittest import mock

from support import WithFolder, registry

from host.credentials import credentials


def pair(text):
    return {"auth": base64.b64encode(text.encode()).decode()}


def given(handler):
    """The credentials of a registry's requests, but for `/v2/`, which is asked for the challenge and gets none."""
    return {headers.get("authorization") for _, path, headers in handler.seen if path != "/v2/"}


class Files(WithFolder):
    def setUp(self):
        super().setUp()
        self.path = self.folder / "config.json"
        patch = mock.patch.dict(os.environ, {"DOCKER_CONFIG": str(self.folder), "PATH": f"{self.folder}:{os.environ['PATH']}"})
        patch.start()
        self.addCleanup(patch.stop)
        for name in ("REGISTRY_AUTH_FILE", "XDG_RUNTIME_DIR"):
            os.environ.pop(name, None)

    def keep(self, auths=None, path=None, **more):
        path = path or self.path
        path.parent.mkdir(parents=True, exist_ok=True)
        path.write_text(json.dumps({"auths": auths} | more))

    def helper(self, name, text):
        path = self.folder / f"docker-credential-{name}"
        path.write_text("#!/bin/sh\n" + text)
        path.chmod(0o755)

    def test_names(self):
        self.assertEqual(credentials("r.io/app", None), "anonymous")
        self.keep({"r.io": pair("u:p:q"), "https://index.docker.io/v1/": pair("u:p:q"), "helped.io": {}, "url.io/": pair("a:b")})
        for name in ("r.io/app", "docker.io/library/app", "r.io/team/app"):
            self.assertEqual(credentials(name, None), {"basic": ["u", "p:q"]}, name)
        for name in ("r.io:5000/app", "x.r.io/app", "helped.io/app", "io/app", "R.io/app"):
            self.assertEqual(credentials(name, None), "anonymous", name)

    def test_the_longest_namespace(self):
        self.keep({"r.io": pair("r:1"), "r.io/team": pair("team:2"), "r.io/team/app": pair("app:3")})
        for name, user in (("r.io/x", "r"), ("r.io/team/x", "team"), ("r.io/team/app", "app"), ("r.io/team/app/x", "app"), ("r.io/teams/x", "r")):
            self.assertEqual(credentials(name, None)["basic"][0], user, name)

    def test_files_in_order(self):
        home, runtime = self.folder / "home", self.folder / "runtime"
        self.keep({"r.io": pair("home:1")}, home / ".docker/config.json")
        with mock.patch.dict(os.environ, {"HOME": str(home), "XDG_RUNTIME_DIR": str(runtime)}):
            del os.environ["DOCKER_CONFIG"]
            self.assertEqual(credentials("r.io/app", None)["basic"][0], "home")
            self.keep({"other.io": pair("other:1")}, runtime / "containers/auth.json")
            self.assertEqual(credentials("r.io/app", None)["basic"][0], "home")
            self.keep({"r.io": pair("runtime:1")}, runtime / "containers/auth.json")
            self.assertEqual(credentials("r.io/app", None)["basic"][0], "runtime")
            self.keep({"r.io": pair("variable:1")}, self.folder / "variable.json")
            with mock.patch.dict(os.environ, {"REGISTRY_AUTH_FILE": str(self.folder / "variable.json")}):
                self.assertEqual(credentials("r.io/app", None)["basic"][0], "variable")
                self.keep({"r.io": pair("named:1")}, self.folder / "named.json")
                self.assertEqual(credentials("r.io/app", self.folder / "named.json")["basic"][0], "named")
            for name in ("absent.json", "."):
                with self.assertRaises(OSError):
                    credentials("r.io/app", self.folder / name)
            self.assertEqual(credentials("r.io/app", Path(os.devnull)), "anonymous")
        with mock.patch.dict(os.environ, clear=True):
            self.assertEqual(credentials("r.io/app", None), "anonymous")

    def test_malformed_files(self):
        for text in ("{", "[]", "7", '{"auths":{"r.io":{"auth":"a"}}}', '{"auths":{"r.io":3}}', '{"auths":7}', '{"credHelpers":7}', '{"credsStore":7}', "\u00ff", '{"auths":{"r.io":{"auth":7}}}',
                     "[" * 100000, '{"auths":' + '{"a":' * 100000, '{"auths":{"r.io":{"registrytoken":7}}}', '{"auths":{"r.io":{"registrytoken":["t"]}}}', '{"auths":{"r.io":{"registrytoken":"\\ud800"}}}',
                     '{"auths":{"r.io":{"registrytoken":"a\\nb"}}}', '{"auths":{"r.io":{"auth":"\\ud800"}}}', '{"auths":' + "9" * 10000 + "}", json.dumps({"auths": {"r.io": pair("u:" + "p" * 70000)}})):
            self.path.write_text(text)
            with self.assertRaises(ValueError, msg=text) as caught:
                credentials("r.io/app", None)
            self.assertIn(str(self.path), str(caught.exception))
        for text in ("", "{}", '{"auths":null}', '{"auths":{"r.io":{}}}', '{"auths":{"r.io":{"auth":""}}}', '{"credHelpers":null,"credsStore":""}'):
            self.path.write_text(text)
            self.assertEqual(credentials("r.io/app", None), "anonymous", text)

    def test_tokens(self):
        self.keep({"r.io": {"registrytoken": "t"}, "i.io": {"identitytoken": "t"} | pair("u:")})
        self.assertEqual(credentials("r.io/app", None), {"bearer": "t"})
        with self.assertRaisesRegex(ValueError, "identity token"):
            credentials("i.io/app", None)

    def test_helpers(self):
        self.helper("one", 'read server; [ "$1" = get ] && echo "{\\"Username\\":\\"one\\",\\"Secret\\":\\"of $server\\"}"\n')
        self.helper("none", "echo credentials not found in native keychain; exit 1\n")
        self.helper("locked", "echo the store is locked; exit 1\n")
        self.helper("token", 'echo "{\\"Username\\":\\"<token>\\",\\"Secret\\":\\"x\\"}"\n')
        self.helper("junk", "echo junk\n")
        self.helper("number", 'echo "{\\"Username\\":\\"u\\",\\"Secret\\":7}"\n')
        self.helper("half", 'echo "{\\"Username\\":\\"u\\",\\"Secret\\":\\"\\\\ud800\\"}"\n')
        self.helper("deep", "yes [ | head -n 100000\n")
        self.helper("long", "head -c 100000 /dev/zero | tr '\\0' x; exit 1\n")
        self.helper("pass", 'echo "{\\"Username\\":\\"\\",\\"Secret\\":\\"\\"}"\n')
        self.keep({"n.io": pair("kept:1")}, credHelpers={"r.io": "one", "n.io": "none", "e.io": "pass", "l.io": "locked", "t.io": "token", "j.io": "junk", "a.io": "absent", "p.io": "../one", "s.io": "one; x", "7.io": "number", "h.io": "half", "d.io": "deep", "x.io": "long"}, credsStore="one")
        self.assertEqual(credentials("r.io/app", None), {"basic": ["one", "of r.io"]})
        self.assertEqual(credentials("other.io/app", None), {"basic": ["one", "of other.io"]})
        self.assertEqual(credentials("docker.io/library/app", None), {"basic": ["one", "of https://index.docker.io/v1/"]})
        self.assertEqual(credentials("n.io/app", None), {"basic": ["kept", "1"]})
        self.assertEqual(credentials("e.io/app", None), "anonymous")  # what docker-credential-pass says of a server that it does not know
        for name, told in (("l.io", "the store is locked"), ("t.io", "identity token"), ("j.io", "gives no credentials"), ("a.io", "docker-credential-absent"), ("p.io", "docker-credential-../one"), ("s.io", "docker-credential-one; x"),
                           ("7.io", "is not a string"), ("h.io", "surrogates not allowed"), ("d.io", "recursion"), ("x.io", "failed: x{300}$")):
            with self.assertRaisesRegex(ValueError, told):
                credentials(f"{name}/app", None)

    def test_a_helper_that_hangs(self):
        self.helper("hangs", "sleep 20\n")
        self.keep(credsStore="hangs")
        with mock.patch("host.credentials.WAIT", 0.2), self.assertRaisesRegex(ValueError, "timed out"):
            credentials("r.io/app", None)

    def test_a_helper_that_writes_without_end(self):
        self.helper("floods", "yes\n")
        self.helper("warns", "yes >&2\n")
        self.helper("much", "echo the store is locked; head -c 1000000 /dev/zero >&2; exit 1\n")
        self.helper("drips", "while echo x; do sleep 0.1; done\n")
        self.helper("closes", "exec >&- 2>&-; sleep 20\n")
        self.keep(credHelpers={f"{name}.io": name for name in ("floods", "warns", "much", "drips", "closes")})
        began = time.monotonic()
        for name in ("floods", "warns"):
            with self.assertRaisesRegex(ValueError, f": docker-credential-{name} writes more than 1048576 bytes, which are not credentials$"):
                credentials(f"{name}.io/app", None)
        with self.assertRaisesRegex(ValueError, "failed: the store is locked$"):
            credentials("much.io/app", None)
        self.assertLess(time.monotonic() - began, 10)
        for name in ("drips", "closes"):
            with mock.patch("host.credentials.WAIT", 0.5), self.assertRaisesRegex(ValueError, "timed out"):
                credentials(f"{name}.io/app", None)

    def test_a_chain_of_a_helper_in_the_command(self):
        with registry() as (place, handler):
            self.helper("one", 'echo "{\\"Username\\":\\"one\\",\\"Secret\\":\\"two\\"}"\n')
            self.keep(credHelpers={place: "one"})
            status, _, err = self.pull(place, env={"PATH": os.environ["PATH"]})
            self.assertEqual((status, err), (0, ""))
            self.assertEqual(given(handler), {"Basic " + base64.b64encode(b"one:two").decode()})

    def test_they_go_to_their_registry_alone(self):
        with registry() as (place, handler), registry() as (other, others):
            self.keep({place: pair("kept:secret")})
            self.assertEqual(self.pull(place)[0], 0)
            self.assertEqual(given(handler), {"Basic " + pair("kept:secret")["auth"]})
            self.assertEqual(self.pull(other, out="other")[0], 0)
            self.assertEqual(given(others), {None})
            handler.seen.clear()
            self.run_it("verify", f"{place}/app:v1", "--key", str(self.key), "--username", "u", "--password-stdin", stdin="p:q\n")
            self.assertEqual(given(handler), {"Basic " + pair("u:p:q")["auth"]})
            handler.seen.clear()
            self.keep({place: pair("named:secret")}, self.folder / "named.json")
            self.run_it("verify", f"{place}/app:v1", "--key", str(self.key), "--authfile", "named.json")
            self.assertEqual(given(handler), {"Basic " + pair("named:secret")["auth"]})


if __name__ == "__main__":
    unittest.main()
