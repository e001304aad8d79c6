"""A refusal as one sentence: which check failed, of which document, and what to do."""
import json
import re

from host.places import cut, shown

WORD = re.compile(r'"(?:[^"\\]|\\.)*"|\S+')
KEYS = "sign it (cosign sign --key), or check that --key and --annotation are the publisher's"
ASK = "see the registry's own log"
TAMPERED = "do not use it, and tell the registry's operator"
# by the variant of a refused answer: what failed, with the values that it keeps, and what to do
ANSWERS = {
    "AmbiguousManifest": ("a document is valid both as a manifest and as an index", TAMPERED),
    "AuthenticationFailure": ("the token service issued no token", "check the user and the password"),
    "BodyTooLong": ("a body is longer than the limit", TAMPERED),
    "VerificationError": ("the content with the digest {0} has the digest {1}", TAMPERED),
    "ImageManifestNotFoundError": ("its index has no image for this platform", "choose another --platform"),
    "HeaderText": ("a token, or a --type, is not a valid value of a header", "check --type; else tell the operator of the token service"),
    "IncompatibleLayerMediaTypeError": ("a layer has the type {0}, which is not accepted", "accept it by --type, or choose another image"),
    "PullNoLayersError": ("its manifest has no layers", "choose another image"),
    "TransportFault": ("the connection failed ({failure})", "check that the registry is running and its name is right"),
    "UnauthorizedError": ("{0} needs credentials, or other ones{because}", "check --username and the password, or log in (docker login)"),
    "UnsupportedMediaTypeError": ("a document has the type {0}, which is not accepted", "choose another image"),
    "Taken": ("{0} is there already, with the digest {1}", "choose another tag, or replace it by --replace"),
    "Altered": ("the blob {0} is missing, or is not the one that the manifest names", "pull the image again"),
    "Undecided": ("its documents do not hold", "pull the image again"),
    "Missing": ("the target does not have {0}, although it took it", "copy again, and see the target's own log"),
    "OciReferenceNotValidError": ("{0} is not a valid reference", "write it as registry/name:tag"),
    "WantOfMemory": ("out of memory", "run it with more memory"),
}


class Refusals:
    """Sentences for a pull in which URLs were answered with these statuses; the network failed last for this cause, and a signature for that one."""

    def __init__(self, statuses: dict[str, int], failure: str, why: str = "") -> None:
        self.statuses, self.failure, self.why = statuses, failure, why

    def url(self, words: list[str]) -> str:
        """The URL that was answered with an error, if that is the cause."""
        return next((word for word in words if "://" in word), "") if words[0] in ("ServerError", "RegistryError") else ""

    def answer(self, words: list[str]) -> tuple[str, str]:
        """What failed of an answer of the registry, and what to do."""
        if url := self.url(words):
            status = self.statuses.get(shown(url))
            return f"{shown(url)} returned the status {status}", "check the name and the tag" if status == 404 else ASK
        name, *kept = words[1:] if words[0] in ("DigestError", "GenericError") else words
        if name not in ANSWERS:
            return f"a response is refused as {' '.join(map(shown, words))}", ASK
        what, advice = ANSWERS[name]
        return what.format(*map(shown, kept), failure=self.failure, because=self.failure and f" ({self.failure})"), advice

    def unsigned(self, digest: str, lines: list[list[str]]) -> tuple[str, str]:
        """Why no signature satisfies the policy: of what was found, else of what could not be read, else that nothing was found."""
        if count := sum(words[0] == "collected" for words in lines):
            why = f"; the last reason: {self.why}" if self.why else ""
            return f"no signature of {digest} matches the given keys and annotations ({count} found{why})", KEYS
        for words in lines:
            if words[1] == "Layer":
                advice = "give --certificate-identity, --certificate-oidc-issuer and --trusted-root" if words[4] == "NoLogEntry" else KEYS
                return f"the signature {words[3]} of {digest} is refused as {' '.join(map(shown, words[4:]))}{self.why and f' ({self.why})'}", advice
            cause = words[words.index("Refused") + 3:] if "Refused" in words else []
            if cause and self.statuses.get(shown(self.url(cause))) != 404:
                what, advice = self.answer(cause)
                return f"no signature of {digest} was found: {what}", advice
        return f"no signature of {digest} was found, under its tag or among its referrers", KEYS

    def sentence(self, reference: str, report: str) -> str:
        try:
            lines = [[json.loads(word) if word[0] == '"' else word for word in WORD.findall(line)] for line in report.split("\n")[:-1]]
            name, *kept = lines[0][1:]
            cause = kept[1:] if name in ("RegistryFetchManifestError", "RegistryPullError", "Push", "Tag") else [name, *kept]
            what, advice = self.unsigned(kept[0], lines[1:]) if name == "Unsatisfied" else self.answer(cause)
            what = {"Push": "{} was not pushed: ", "Tag": "it is not known what {} names: "}.get(name, "").format(*kept[:1]) + what
        except (ValueError, LookupError):  # what a registry wrote is in the report
            what, advice = f"its report is {json.dumps(cut(report))}", ASK
        return f"refused {reference}: {what}; {advice}"
