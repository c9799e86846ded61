"""What a program was built from: the sources of its crates and the kit, kept in a file beside the program."""

import hashlib
import subprocess
from pathlib import Path

LEFT_OUT = ("out", "must-fail", "BUILD.bazel")  # of a crate, what no program is built from
UNKNOWN = "unknown"


def digest(path):
    """The SHA-256 of a file, in hex."""
    return hashlib.sha256(path.read_bytes()).hexdigest()


def digest_of(top, names):
    """One SHA-256 of all sources of these crates of a tree, with their paths."""
    found = [top / "HANDLES"]
    for name in names:
        crate = top / "crates" / name
        found += [path for path in crate.rglob("*") if path.is_file() and not set(LEFT_OUT) & set(path.relative_to(crate).parts)]
    lines = sorted(f"{path.relative_to(top).as_posix()} {digest(path)}\n" for path in found)
    return hashlib.sha256("".join(lines).encode("utf-8")).hexdigest()


def kit():
    """The kit in use, as `rt version` has it."""
    try:
        return subprocess.run(["rt", "version"], capture_output=True, text=True, check=False).stdout.strip() or UNKNOWN
    except OSError:
        return UNKNOWN


def record_of(program):
    """Where it is kept what a program was built from."""
    return program.with_name(f"{program.name}.built-from")


def note(program, sources):
    """Keeps what a program was built from."""
    record_of(program).write_text(f"program {digest(program)}\nsources {sources}\nkit {kit()}\n", encoding="utf-8")


def noted(program):
    """What was kept of a program, by its words, or nothing if that was of another one or is not there."""
    try:
        lines = record_of(program).read_text(encoding="utf-8").splitlines()
    except FileNotFoundError:
        return {}
    found = dict(line.split(" ", 1) for line in lines)
    return found if found.get("program") == digest(program) else {}
