"""What the command writes on its standard streams, and the statuses that it ends with. Nothing that is written moves a terminal's cursor."""
import contextlib
import json
import sys
from typing import Any

from host.places import cut

STATUSES = "exit status: 0 success, 1 refused, 2 wrong usage, 3 invalid reference, 4 stopped or failed, 5 not written, 6 out of memory"
LONGEST = 4000  # characters of a sentence, in which a registry's text may be
OUTCOMES = {1: "refused", 2: "usage", 3: "reference", 4: "stopped", 5: "unwritten", 6: "memory"}


ENDS = {3: "the reference is invalid, or --platform is not OS/ARCH; write registry/name:tag", 5: "the core could not write",
        6: "out of memory; run it with more"}


class End(BaseException):
    """With which status the command ends instead of going on, and why."""


def failed(name: str, status: int) -> tuple[int, str, dict[str, Any]]:
    """How the command ends if the core ended with this status before it said how the pull ended, or not as it said."""
    return (status if status in ENDS else 4), f"failed {name}: {ENDS.get(status, 'the core ended unexpectedly')}", {}


def printable(text: str) -> str:
    return "".join(c if c.isprintable() else "?" for c in text)


def say(text: str) -> None:
    """Writes a line of a log, which nobody has to read."""
    with contextlib.suppress(OSError):
        print(printable(cut(text)), file=sys.stderr, flush=True)


def tell(words: list[str], place: str, status: int, sentence: str, rest: dict[str, Any]) -> None:
    """Writes how the command ended: the sentence, or one JSON object. In its report too, URLs are as sentences have them."""
    sentence = cut(sentence)
    sentence, rest = sentence if len(sentence) <= LONGEST else f"{sentence[:LONGEST]}..", rest | ({"report": cut(rest["report"])} if "report" in rest else {})
    if "--json" in words:
        outcome = OUTCOMES.get(status) or sentence.partition(" ")[0]
        more = {name: value for name, value in rest.items() if name != "frame"}
        print(json.dumps({"outcome": outcome, "status": status, "reference": place, "sentence": sentence} | more), flush=True)
    else:
        print(printable(sentence), file=sys.stderr if status else sys.stdout, flush=True)
    if {"-v", "--verbose"} & {*words} and "report" in rest:
        print(*(printable(line) for line in rest["report"].split("\n")), sep="\n", end="", file=sys.stderr, flush=True)


class Progress:
    """A line on a terminal, which the next one replaces until it is ended."""
    is_shown = False

    def show(self, text: str) -> None:
        if sys.stderr.isatty():
            print(f"\r{printable(text)}", end="\x1b[K", file=sys.stderr, flush=True)
            self.is_shown = True

    def clear(self) -> None:
        """Removes a line that another process may have shown, and not ended."""
        if sys.stderr.isatty():
            print("\r", end="\x1b[K", file=sys.stderr, flush=True)

    def end(self) -> None:
        if self.is_shown:
            print(file=sys.stderr, flush=True)
        self.is_shown = False


progress = Progress()
