"""What a check keeps of a crate: a file for each module as it is done with it, so the time between two files is what the later
one took."""

import os
import subprocess
from collections import defaultdict

PARTS = {"Lts": "code", "Given": "code", "View": "code", "Proof": "goals", "Answers": "answers"}
OTHERS = {"Code", "Goals", "Invariants", "Key", "Kinds", "Layout", "Met", "Mir", "Named", "Reads", "Statement", "Symbol", "Tie"}
COLUMNS = ("code", "goals", "answers", "other")


def folder(crate):
    """The folder of what checks of this crate keep."""
    return crate / "out/incremental"


def forget(crate):
    """Removes it, so that the next check is from nothing."""
    subprocess.run(["rm", "-rf", folder(crate)], check=True)


def check(crate):
    """Checks a crate by one process, and returns whether it is proved, and what was said."""
    ended = subprocess.run(["rt", "check"], cwd=crate, env={**os.environ, "RT_JOBS": "1"}, stdout=subprocess.PIPE,
                           stderr=subprocess.STDOUT, text=True, errors="replace", check=False)
    return ended.returncode == 0, ended.stdout


def modules(crate):
    """Yields each module, and the seconds that it took."""
    files = sorted((path.stat().st_mtime_ns, path.stem) for path in folder(crate).rglob("*.oantt"))
    before = files[0][0]
    for at, name in files:
        yield name, (at - before) / 1e9
        before = at


def place(name):
    """Returns the function, or the file of lemmas, that a module belongs to, and its column."""
    parts = name.removesuffix(".decls").split(".")
    column = "other"
    while parts[-1] in PARTS or parts[-1].split("-")[0] in OTHERS:
        column = PARTS.get(parts.pop(), column)
    return ".".join(parts), column


def seconds(crate):
    """Returns the seconds of each function and file of lemmas, by column."""
    found = defaultdict(lambda: dict.fromkeys(COLUMNS, 0.0))
    for name, took in modules(crate):
        owner, column = place(name)
        found[owner][column] += took
    return found
