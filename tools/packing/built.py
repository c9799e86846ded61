"""The program of a package: its version, what it needs of the system, and what it was built from."""

import re
import subprocess
from pathlib import Path

from running import sources
from running.patience import LIMIT

TOP = Path(__file__).resolve().parents[2]
BUILT = TOP / "crates/targetd/out/targetd"  # where `make build` leaves it
USAGE = TOP / "crates/command_line/src/help.rt"
PACKAGES = {"libc.so.6": "libc6", "libm.so.6": "libc6", "ld-linux-x86-64.so.2": "libc6", "libgcc_s.so.1": "libgcc-s1"}


class Unfit(Exception):
    """No package is made of a program, and why."""


def version():
    """The version that the sources have."""
    return re.search(r'"targetd (\d+\.\d+\.\d+)\\n', USAGE.read_text(encoding="utf-8"))[1]


def told(*words):
    """What a command prints on standard output."""
    try:
        return subprocess.run([str(word) for word in words], capture_output=True, text=True, timeout=LIMIT, check=False).stdout
    except OSError as error:
        raise Unfit(f"{words[0]} cannot be run: {error.strerror}") from None


def depends(program):
    """The Debian packages that a program needs, with the lowest version of the C library."""
    libraries = re.findall(r"\(NEEDED\).*\[(.*)\]", told("readelf", "--dynamic", "--wide", program))
    strange = [library for library in libraries if library not in PACKAGES]
    if strange or not libraries:
        raise Unfit(f"{program} needs {', '.join(strange) or 'nothing that readelf finds'}, and may need the C library alone")
    wanted = re.findall(r"GLIBC_(\d+)\.(\d+)", told("readelf", "--version-info", "--wide", program))
    lowest = ".".join(map(str, max((int(one), int(two)) for one, two in wanted)))
    return ", ".join(f"libc6 (>= {lowest})" if package == "libc6" else package
                     for package in sorted({PACKAGES[library] for library in libraries}))


def checked(program):
    """Fails if a program is not targetd of the version of the sources."""
    first = told(program, "--help").partition("\n")[0]
    if first != f"targetd {version()}":
        raise Unfit(f"{program} says {first!r} to --help, and the sources are of version {version()}")


def crates():
    """The crates of which the program is built, by crates.txt."""
    lines = [line.partition(":") for line in (TOP / "crates.txt").read_text(encoding="ascii").splitlines()]
    below, found = {name: others.split() for name, colon, others in lines if colon}, ["targetd"]
    for name in found:
        found += [other for other in below.get(name, []) if other in below and other not in found]
    return found


def built_from(program):
    """What a program was built from. Fails if `make build` left it, and the sources are others now."""
    noted, now = sources.noted(program), sources.digest_of(TOP, crates())
    if program == BUILT and noted.get("sources") != now:
        raise Unfit(f"{program} is not known to be built from the sources as they are: 'make build' builds it")
    return {"sources": sources.UNKNOWN, "kit": sources.UNKNOWN, **noted, "program": sources.digest(program)}
