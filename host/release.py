"""Which program runs: one that is named, installed or built here, else the released one, unpacked once its checksum is verified."""
import hashlib
import os
from pathlib import Path

from host.files import replace

VERSION = "0.1.0"
TOP = Path(__file__).resolve().parent.parent
DIST = TOP / "dist"
V3 = {"abm", "avx2", "bmi1", "bmi2", "f16c", "fma", "movbe"}  # what x86-64-v3 has beyond x86-64-v2, as the kernel names it


def made_of() -> dict[str, bytes]:
    """All that the released programs are made of: HANDLES, and of each of their crates the line in crates.txt and the files."""
    lines = {line.split(":")[0].split()[0]: line for line in (TOP / "crates.txt").read_text().splitlines() if line[:1].strip(" #")}
    names, found = ["pull_program", "roksnaep_core"], {"HANDLES": (TOP / "HANDLES").read_bytes()}
    for name in names:  # which grow; a library that is not in crates.txt is the kit's
        names += [below for below in lines[name].partition(":")[2].split() if below in lines and below not in names]
        files = (path for part in ("src", "specs", "proofs") for path in (TOP / "crates" / name / part).rglob("*") if path.is_file())
        found |= {f"crates.txt {name}": lines[name].encode()} | {str(path.relative_to(TOP)): path.read_bytes() for path in files}
    return found


def sources(kit: str) -> str:
    """One checksum over them and the version of the kit."""
    lines = sorted(f"{hashlib.sha256(content).hexdigest()}  {name}\n" for name, content in (made_of() | {"kit": kit.encode()}).items())
    return hashlib.sha256("".join(lines).encode()).hexdigest()


def has_v3(cpuinfo: Path = Path("/proc/cpuinfo")) -> bool:
    """Whether each processor that is here runs code for x86-64-v3."""
    flags = [set(line.partition(":")[2].split()) for line in cpuinfo.read_text().splitlines() if line.startswith("flags")]
    return bool(flags) and all(V3 <= found for found in flags)


def unpacked(name: str, wide: bool | None = None) -> Path:
    """The released program for the processors that are here, in the user's cache."""
    listed = (DIST / "SHA256SUMS").read_text().split()
    wider = has_v3() if wide is None else wide
    packed = DIST / (f"{name}-x86_64_v3.xz" if wider and f"{name}-x86_64_v3.xz" in listed else f"{name}-x86_64.xz")
    digest = listed[listed.index(packed.name) - 1]
    to = Path(os.environ.get("XDG_CACHE_HOME") or Path.home() / ".cache") / "roksnaep" / digest / name
    if not to.exists():
        import lzma  # which takes a while, and only this needs
        if hashlib.sha256(packed.read_bytes()).hexdigest() != digest:
            raise ValueError(f"{packed} does not have its checksum in SHA256SUMS; restore both: git checkout {DIST}")
        try:
            to.parent.mkdir(mode=0o700, parents=True, exist_ok=True)
            replace(to, lzma.decompress(packed.read_bytes()), 0o755)
        except OSError as error:
            raise OSError(f"{to} could not be written ({error.strerror}); make room for it, or name another folder by XDG_CACHE_HOME") from None
    return to


def program(name: str) -> tuple[Path, str]:
    """The program, and which one it is."""
    variable = "ROKSNAEP_CORE" if name == "roksnaep-core" else "ROKSNAEP_PROGRAM"
    named, crate = os.environ.get(variable), name.replace("-", "_")
    built = TOP / "crates" / crate / "out" / crate
    for path, which in ((Path(named or ""), f"named by {variable}"), (TOP / "bin" / name, "installed"), (built, "built here")):
        if path.is_file() or named:
            return path, which
    if os.uname().machine != "x86_64" or not DIST.is_dir():
        raise ValueError(f"there is no {name} here; build it from its sources (make core program), or name it by {variable}")
    return unpacked(name), "released"


def described(name: str) -> str:
    """The same for a reader: of a released program, whether it is made of the sources that are here."""
    path, which = program(name)
    recorded, kit = (DIST / "SOURCES").read_text().strip().split(" ", 1) if which == "released" else ("", "")
    return f"{path} ({which}{kit and (', of these sources' if sources(kit) == recorded else ', of older sources than these')})"
