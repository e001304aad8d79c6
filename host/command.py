"""The subcommands: each run, from its options to one sentence, or one JSON object, and a status."""
import argparse
import contextlib
import io
import math
import os
import re
import signal
import sys
import time
from pathlib import Path
from typing import Any, NoReturn, Sized

from host.blobs import Blobs, Refused, parsed, refused_layer
from host.checks import Checks
from host.conversation import Answered, Exchanges, Sent, converse
from host.copies import Copy, Sides
from host.core import Core, Frame, fits
from host.credentials import LONGEST, credentials
from host.layout import Layout, Stored
from host.lock import Lock, Pinned, entry_of, read_lock, text_of, whole, write_lock
from host.network import SIGNALS, Network, uninterrupted
from host.options import parser
from host.places import Access, is_loopback, repository_of
from host.refusals import Refusals
from host.rules import Identity, Rule, annotations_of
from host.signatures import Signatures
from host.terminal import ENDS, OUTCOMES, End, failed, printable, progress, tell

MACHINE = {"x86_64": "amd64", "aarch64": "arm64", "armv7l": "arm", "i686": "386"}.get(os.uname().machine, os.uname().machine)
TOO_LONG = "the keys, annotations and other settings are longer than a line of the core (1 MiB); give fewer ones"


def rule_by(option: argparse.Namespace, reference: str) -> Rule:
    """Who may have signed, by --policy or by the other options."""
    subjects = [(text, None) for text in option.certificate_identity] + [(None, text) for text in option.certificate_identity_regexp]
    issuers = [(text, None) for text in option.certificate_oidc_issuer] + [(None, text) for text in option.certificate_oidc_issuer_regexp]
    if not option.policy:
        nobody = [(None, None)] if subjects or issuers else []  # of which the identity says what is missing
        identities = [Identity(*subject, *issuer) for subject in subjects or nobody for issuer in issuers or nobody]
        annotations = annotations_of(option.annotation)
        return Rule(option.key, identities, annotations, option.trusted_root, option.log_key, option.require_log, option.predicate_type)
    if any((subjects, issuers, option.key, option.annotation, option.trusted_root, option.log_key, option.require_log, option.predicate_type)):
        raise ValueError("--policy stands alone: write keys, identities, annotations and logs into it")
    from host.policy import Policy  # which takes a while, and only this needs
    rule = Policy(option.policy).for_reference(reference)
    if not rule:
        raise End(1, f"{reference} is covered by no rule of {option.policy}; add a rule for it")
    return rule


def logins(option: argparse.Namespace) -> list[list[str] | None]:
    """The users of the registry and of a copy's target, if they are named, with their passwords: of two users one on each line."""
    names = [option.username, getattr(option, "target_username", None)]
    if bool(option.password_stdin) != any(names):
        raise ValueError("--username and --password-stdin go together")
    content = sys.stdin.buffer.read(2 * LONGEST + 1) if option.password_stdin else b""
    if len(content) > 2 * LONGEST:
        raise ValueError(f"standard input has more than {2 * LONGEST} bytes, and not a password; give it alone")
    text = content.decode().rstrip("\r\n")
    passwords = [line.rstrip("\r") for line in text.split("\n")] if all(names) else [text] * 2
    if len(passwords) != 2:
        raise ValueError("two users have two passwords, each on a line of standard input")
    return [[name, password] if name else None for name, password in zip(names, passwords)]


def connected(option: argparse.Namespace, end: float, reference: str, is_plain: bool, authority: Path | None,
              certificate: Path | None = None, private_key: Path | None = None) -> Network:
    """The connections to the registry of a reference."""
    registry = repository_of(reference).partition("/")[0]
    plain = is_plain or is_loopback(registry) and not (authority or certificate)
    return Network(Access(registry, plain, option.allow_host, authority, certificate, private_key, option.proxy), option.timeout, end, option.limit)


def about(option: argparse.Namespace, reference: str, login: list[str] | None, network: Network) -> Frame:
    """Members of the settings about a registry."""
    auth = {"basic": login} if login else credentials(repository_of(reference), option.authfile)
    return {"reference": reference, "protocol": "http" if network.access.plain else "https", "auth": auth}


class Run:
    """One run of the command, from its options to what the core decided."""

    def __init__(self, option: argparse.Namespace, end: float, rule: Rule | None = None) -> None:
        """Reads all that the options name, so that what cannot work is refused before the first request."""
        self.option = option
        self.layout: Layout | None = None
        self.settings: Frame = {"frame": "documents", "accepted": option.type}
        self.has_blobs = option.word in ("pull", "check") or option.word == "verify" and option.blobs
        self.sent: Sent = {}
        self.registry: Network | Stored | Pinned
        if option.word == "check":
            stored = Stored(Path(option.place), option.tag)
            if option.policy and not option.reference:
                raise ValueError("check --policy needs --reference, since a layout cannot say which rule holds for it")
            self.rule, self.registry = rule_by(option, option.reference or stored.reference), stored
            self.settings |= {"reference": stored.reference, "protocol": "https", "platform": {"digest": stored.manifest}, "auth": "anonymous"}
        else:
            self.rule = rule or rule_by(option, option.place)
            self.registry = network = self.network(end)
            if option.word == "pull" and option.lock:
                self.registry = pinned = self.pinned(network)
                self.settings |= {"reference": pinned.stored.reference, "platform": {"digest": pinned.stored.manifest}}
        self.settings |= self.rule.settings()
        if not fits(self.settings):
            raise ValueError(TOO_LONG)
        self.core = Core()

    def network(self, end: float) -> Network:
        """The connections to the registry; of a copy those to the target too."""
        option, users = self.option, logins(self.option)
        network = connected(option, end, option.place, option.http, option.ca, option.client_cert, option.client_key)
        self.settings |= about(option, option.place, users[0], network) | {"platform": option.platform or f"linux/{MACHINE}"}
        if option.word == "copy":
            other = connected(option, end, option.target, option.target_http, option.target_ca)
            target = about(option, option.target, users[1], other)
            self.copy = Copy(option, self.rule, self.settings | self.rule.settings(), target, Sides(network, other, []))
        return network

    def pinned(self, network: Network) -> Pinned:
        """The image's entry of the lock file, which is checked first."""
        lock = read_lock(self.option.lock)
        entry = lock.entries.get(whole(self.option.place))
        if not entry:
            raise End(1, f"{self.option.lock} has no entry for it; add one: roksnaep lock")
        lock.check(entry, self.rule, self.option.platform)
        return Pinned(network, entry)

    def open_layout(self) -> Layout:
        option, name = self.option, re.split("[:@]", self.option.place.rpartition("/")[2])[0]
        if not (option.out or name.strip(".")):
            raise ValueError("the reference does not end with a name; give --out")
        if option.digest_file and (option.digest_file.is_dir() or not has_folder(option.digest_file)):
            raise ValueError(f"{option.digest_file} cannot be written; choose another --digest-file")
        layout = self.layout = Layout(option.out or Path(name if option.format == "oci" else f"{name}.tar"), option.format, option.tag)
        return layout

    def decide(self) -> tuple[int, str, Frame]:
        """The status, the sentence and the core's last frame. If a token expired in a run of the core, another one goes on from there."""
        is_first = is_expired = True
        while is_expired:
            signatures, exchanges = Signatures(self.rule), Exchanges(self.registry, self.layout)
            end = converse(self.core, self.settings | {"moment": int(time.time())}, exchanges, signatures)
            self.sent = exchanges.sent
            is_expired = "UnauthorizedError" in end.get("report", "") and exchanges.accepted and (is_first or exchanges.kept > 0)
            if end["frame"] == "pulled" and self.has_blobs and self.settings["frame"] == "documents" and not self.fits():
                self.settings |= {"frame": "settings", "blobs": self.layout is not None}
                is_expired = True
            if is_expired:
                self.core, is_first = Core(), False
        if end["frame"] == "pulled" and isinstance(self.registry, Stored) and end["manifest"] != self.registry.manifest:
            raise End(1, f"its index.json names {self.registry.manifest}, and the image that was signed is {end['manifest']}; pull the image again")
        registry: Answered = self.registry
        if end["frame"] == "pulled" and self.has_blobs and self.settings["frame"] == "documents" and (refused := self.blobs(end)):
            end, registry = refused
        name, signer = self.option.place, signatures.signer(end.get("signature", ""))
        if end["frame"] == "ended" and end["status"] == 3 and isinstance(self.registry, Stored):
            raise End(1, "its index.json has an annotation (dev.roksnaep.reference or dev.roksnaep.signed-digest) that names no image; pull the image again")
        if end["frame"] == "ended":
            return failed(name, end["status"])
        if end["frame"] == "refused" and isinstance(self.registry, Stored) and self.registry.failure:
            return 1, f"refused {name}: {self.registry.failure}", end
        if end["frame"] == "refused":
            return 1, Refusals(registry.statuses, registry.failure, signatures.why).sentence(name, end["report"]), end
        if self.layout:
            self.layout.finish(name, end["digest"], exchanges.signatures(end["signature"]))
        done = f"pulled {name} to {self.layout.target}" if self.layout else f"{'checked' if self.option.word == 'check' else 'verified'} {name}"
        return 0, f"{done}: {end['digest']}, signed by {end['signature']}{signer and f' ({signer})'}", end | {"signer": signer}

    def fits(self) -> bool:
        """Whether the manifest can be a member of a frame; else one core pulls the whole image."""
        try:
            self.manifest = parsed(self.sent["manifest"][1])
            return True
        except ValueError:
            return False

    def word(self, end: Frame) -> Frame | None:
        """The first frame of a check of a layout's image; nothing if its documents cannot be members of it."""
        with contextlib.suppress(UnicodeDecodeError):
            entry = entry_of(self.settings["reference"], self.option.type, self.sent, end)
            word = {"frame": "check", "entry": entry, "settings": self.settings}
            return word if fits(word) else None
        return None

    def blobs(self, end: Frame) -> Refused | None:
        """Why the layers or a blob is refused, if one is."""
        if refused := refused_layer(self.option.place, self.manifest, self.option.type):
            return refused, self.registry
        if isinstance(self.registry, Stored) and (word := self.word(end)):
            return Checks(word, self.manifest, self.registry.beside, self.rule).run()
        return Blobs({"frame": "blobs", "settings": self.settings, "manifest": self.manifest}, self.registry.beside, self.layout).run()


def has_folder(path: Path) -> bool:
    """Whether a file may be made there."""
    return os.access(path.absolute().parent, os.W_OK)


def locked(option: argparse.Namespace, end: float) -> tuple[int, str, Frame]:
    """Verifies each image, and writes the lock file of all of them. One that is refused leaves the old file."""
    if option.lock.exists() and not option.lock.is_file() or not has_folder(option.lock):
        raise ValueError(f"{option.lock} cannot be written; choose another --lock")
    entries = {}
    for place in option.place:
        run = Run(argparse.Namespace(**vars(option) | {"place": place}), end)
        status, sentence, rest = run.decide()
        if status:
            return status, sentence, rest
        entry = entry_of(place, option.type, run.sent, rest)
        entries[entry["image"].encode()] = entry
    text = text_of([entries[name] for name in sorted(entries)])
    lock = Lock(str(option.lock), text)
    for entry in lock.entries.values():
        lock.check(entry, rule_by(option, entry["image"]), None)
    hold()
    write_lock(option.lock, text)
    return 0, f"locked {counted(entries)} in {option.lock}", {"images": {image: entry["digest"] for image, entry in lock.entries.items()}}


def checked(option: argparse.Namespace) -> tuple[int, str, Frame]:
    """Checks a lock file without a network; and that it has each image that is named."""
    lock = read_lock(option.lock)
    for place in option.place:
        if whole(place) not in lock.entries:
            raise End(1, f"it has no entry for {place}; add one: roksnaep lock")
    for entry in lock.entries.values():
        lock.check(entry, rule_by(option, entry["image"]), option.platform)
    return 0, f"checked {option.lock}: {counted(lock.entries)}, signed as required", {
        "images": {image: entry["digest"] for image, entry in lock.entries.items()}}


def admit(option: argparse.Namespace) -> NoReturn:
    """Serves an admission webhook until a signal ends it."""
    import asyncio  # which takes a while, and only this needs

    try:
        from host.admission import Deciders, Webhook, serve
        from host.policy import Policy
    except ImportError as error:
        raise ValueError(f"{error}; apt-get install python3-aiohttp") from None
    policy = Policy(option.policy)

    def connect(image: str, end: float) -> Network:
        return connected(option, end, image, False, option.ca)

    def settings(images: str, rule: Rule) -> Frame:
        image = f"{images}/x"
        return {"frame": "settings", "accepted": option.type, "platform": option.platform or f"linux/{MACHINE}", "moment": 0,
                "blobs": False} | about(option, image, None, connect(image, 0)) | rule.settings()

    if len(by_images := dict(policy.rules)) < len(policy.rules):
        raise ValueError(f"{option.policy} has two rules for the same images")
    rules = [{"images": images, "settings": settings(images, rule)} for images, rule in policy.rules]
    if not fits({"rules": rules}):
        raise ValueError(TOO_LONG)
    deciders = Deciders({"rules": rules}, by_images, connect)
    asyncio.run(serve(Webhook(deciders.decide, option.jobs, option.deadline), option.listen, (option.cert, option.private_key), SIGNALS - {signal.SIGALRM}))
    raise End(4, "by a signal")


def counted(entries: Sized) -> str:
    return f"{len(entries)} image{'' if len(entries) == 1 else 's'}"


def hold() -> None:
    """From here on no signal stops the command, so that the sentence about its end stays true."""
    for number in SIGNALS:
        signal.signal(number, signal.SIG_IGN)


def stop(number: int, _: object) -> NoReturn:
    hold()
    raise End(4, "at the --deadline" if number == signal.SIGALRM else f"by {signal.Signals(number).name}")


def result(option: argparse.Namespace) -> tuple[int, str, Frame]:
    """The status, the sentence, and what else the JSON object has."""
    end = time.monotonic() + option.deadline if option.deadline else math.inf
    with contextlib.ExitStack() as after:
        try:
            match option.word:
                case "admit":
                    admit(option)
                case "lock":
                    return locked(option, end)
                case "lockcheck":
                    return checked(option)
            run = Run(option, end)
            after.callback(run.core.process.kill)
            if option.word == "pull":
                with uninterrupted():  # until its folder has somebody who removes it
                    after.callback(run.open_layout().close)
                    after.callback(hold)
        except (OSError, ValueError) as error:
            raise End(2, str(error)) from None
        status, sentence, rest = run.copy.decide(run.core) if option.word == "copy" else run.decide()
        if status == 0 and run.layout:
            hold()
            run.layout.place()
            try:
                if option.digest_file:
                    option.digest_file.write_text(rest["digest"])
            except OSError as error:
                raise End(5, f"{option.digest_file} could not be written ({error.strerror}); the image is in {run.layout.target}") from None
    return status, sentence, rest


def main(words: list[str]) -> int:
    """Runs the command. However it ends, there is one sentence, or one JSON object, and a status."""
    place, rest = "", dict[str, Any]()
    for name in ("stdin", "stdout", "stderr"):
        if getattr(sys, name) is None:  # closed by the caller
            setattr(sys, name, open(os.devnull, "r+"))
    for stream in (sys.stdout, sys.stderr):
        if isinstance(stream, io.TextIOWrapper):
            stream.reconfigure(errors="backslashreplace")  # of what its encoding does not have
    try:
        for number in SIGNALS:
            if signal.getsignal(number) != signal.SIG_IGN:  # as nohup has it
                signal.signal(number, stop)
        option = parser(*words[:1]).parse_args(words)
        place = str(option.lock) if option.word == "lockcheck" else " ".join(option.place) if option.word == "lock" else getattr(option, "place", "admission")
        if option.word != "admit":
            signal.setitimer(signal.ITIMER_REAL, option.deadline)
        status, sentence, rest = result(option)
    except End as end:
        status, why = end.args
        sentence = f"roksnaep: {why}" if status == 2 else f"{'failed' if status in ENDS else OUTCOMES[status]} {place}: {why}"
    except MemoryError:
        status, sentence = 6, f"failed {place}: {ENDS[6]}"
    except OSError as error:
        status, sentence = 5, f"failed {place}: {error}"
    except Exception as error:  # whatever was not foreseen
        status, sentence = 4, f"failed {place}: {type(error).__name__}: {error}"
    hold()
    try:
        progress.end()
        tell(words, place, status, sentence, rest)
    except OSError as error:  # nobody reads it
        with contextlib.suppress(OSError):
            print(printable(f"{sentence}; but this could not be written: {error}"), file=sys.stderr)
        os.dup2(os.open(os.devnull, os.O_WRONLY), 1)
        return status or 5
    return status
