"""Files that others may have made: only regular ones are read, and within a bound, so that none holds the command or fills its memory. And files that are written whole."""
import json
import os
import stat
from pathlib import Path
from typing import Any, BinaryIO

LONGEST = 16 << 20  # bytes of a file that is read whole


def opened(path: Path, longest: int = LONGEST) -> BinaryIO:
    """A file to be read; OSError if it is not a regular one, or has more bytes. A FIFO is not waited for."""
    number = os.open(path, os.O_RDONLY | os.O_NONBLOCK)
    found = os.fstat(number)
    if not stat.S_ISREG(found.st_mode) or found.st_size > longest:
        os.close(number)
        raise OSError(f"{path} is not a regular file of at most {longest} bytes; replace it by one")
    return open(number, "rb")


def read(path: Path, longest: int = LONGEST) -> bytes:
    with opened(path, longest) as file:
        return file.read(longest)


def replace(path: Path, content: bytes, mode: int) -> None:
    """Writes a file whole, by a rename; else what has its name stays as it was."""
    import tempfile  # which takes a while
    file = tempfile.NamedTemporaryFile(dir=path.absolute().parent, prefix=f".{path.name}-", delete=False)
    try:
        with file:
            file.write(content)
            file.flush()
            os.fsync(file.fileno())
        os.chmod(file.name, mode)
        os.rename(file.name, path)
    except BaseException:
        os.unlink(file.name)
        raise


def unique(pairs: list[tuple[str, Any]]) -> dict[str, Any]:
    """An object of JSON. Readers in Go ignore the case of names, so that two that differ only in it are one member with two values."""
    if len({name.casefold() for name, _ in pairs}) < len(pairs):
        raise ValueError("an object has a member twice, in whatever case")
    return dict(pairs)


def read_json(path: Path) -> Any:
    """The value of a JSON file that all readers read alike; ValueError if it is not one."""
    try:
        value = json.loads(read(path).decode(), object_pairs_hook=unique)
        json.dumps(value, ensure_ascii=False).encode()  # which fails for half of a surrogate pair
        return value
    except RecursionError:
        raise ValueError("it is nested too deeply") from None
