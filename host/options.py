"""The options of the command, by options.toml: with their help, for the command line, the completion of shells and the manual page."""
import argparse
import contextlib
import os
import re
import sys
import tomllib
from pathlib import Path
from typing import Any, NoReturn

from host.release import VERSION, described
from host.terminal import STATUSES, End

PURPOSE = "Pulls a container image only if it has a signature that you trust."


class Parser(argparse.ArgumentParser):
    def __init__(self, **more: Any) -> None:
        super().__init__(**more, allow_abbrev=False)
        self.register("type", "path", Path)
        self.register("type", "seconds", seconds)
        self.register("type", "count", count)
        self.register("type", "address", address)
        self.register("type", "name", str)

    def exit(self, status: int = 0, message: str | None = None) -> NoReturn:
        sys.stdout.flush()  # so that it is known whether all was written
        super().exit(status, message)

    def error(self, message: str) -> NoReturn:
        raise End(2, f"{message}; see {self.prog} --help")


class Version(argparse.Action):
    def __call__(self, parser: argparse.ArgumentParser, *_: object) -> NoReturn:
        try:
            core = described("roksnaep-core")
        except (OSError, ValueError) as error:
            raise End(2, str(error)) from None
        print(f"roksnaep {VERSION}, core {core}")
        parser.exit()


def seconds(word: str) -> float:
    if not 0 <= float(word) <= 1e7:
        raise ValueError("not between 0 and 10000000")
    return float(word)


def count(word: str) -> int:
    if not re.fullmatch("[1-9][0-9]{,9}", word):
        raise argparse.ArgumentTypeError(f"{word} is not an integer from 1 to 9999999999")
    return int(word)


def address(word: str) -> tuple[str, int]:
    """Where a server listens."""
    match = re.fullmatch(r"([0-9A-Za-z._-]+|\[[0-9A-Za-z:.%]+\]):([0-9]{1,5})", word)
    if not match or int(match[2]) > 65535:
        raise argparse.ArgumentTypeError(f"{word} is not HOST:PORT with a port of at most 65535")
    return match[1].strip("[]"), int(match[2])


def text(word: str) -> str:
    """What is not the name of a file: UTF-8, whatever the locale is."""
    try:
        return os.fsencode(word).decode()
    except UnicodeDecodeError:
        raise argparse.ArgumentTypeError(f"{word} is not UTF-8") from None


def parser(asked: str = "") -> argparse.ArgumentParser:
    """With the options of all subcommands, or of `asked` alone, which takes less time."""
    table = tomllib.loads((Path(__file__).parent / "options.toml").read_text())
    made = Parser(prog="roksnaep", description=PURPOSE, epilog=STATUSES)
    made.add_argument("--version", action=Version, nargs=0, help="prints the version, and which core runs")
    with contextlib.suppress(ImportError):
        if asked not in table:
            __import__("shtab").add_argument_to(made, "--print-completion", help="writes the completion script of a shell")
    words = made.add_subparsers(dest="word", required=True, metavar="|".join(table_words := [word for word in table if word != "options"]), help="each has its own --help")
    for word in table_words:
        of = table[word]
        description = f"{of['help'][0].upper()}{of['help'][1:]}."
        one = words.add_parser(word, help=of["help"], usage=f"roksnaep {word} {of.get('usage', of['place'])} [options]", description=description,
                               epilog=f"{of['examples']}\n{STATUSES}", formatter_class=argparse.RawDescriptionHelpFormatter)
        if asked in table and word != asked:
            continue
        one.register("type", None, text)
        if of["place"]:
            one.add_argument("place", metavar=of["place"], **{name: of[name] for name in ("nargs", "type") if name in of})
        if "target" in of:
            one.add_argument("target", metavar=of["target"])
        for title in of["groups"]:
            group = one.add_argument_group(title)
            for names, option in table["options"][title].items():
                group.add_argument(*names.split(), **option)
    return made
