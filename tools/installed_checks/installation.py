"""targetd installed into a folder of its own, and what is run there."""

import re
import shlex
import shutil
import subprocess
import sys
import tempfile
from contextlib import contextmanager
from pathlib import Path

from running.patience import LIMIT

TOP = Path(__file__).resolve().parents[2]
PROGRAM = Path(sys.argv[1] if len(sys.argv) > 1 else TOP / "crates/targetd/out/targetd").resolve()

COMMANDS = ("explain-config", "import", "mend-tape", "status", "stop")
EXPLAIN, IMPORT, MEND, STATUS, STOP = (f"bin/targetd-{command}" for command in COMMANDS)
# A configuration with one unit.
SOUND = ('listen = "127.0.0.1:0"\n[[target]]\nname = "iqn.2024-01.com.example:t"\n'
         '[[target.unit]]\nlun = 0\nkind = "disk"\nserial = "A"\nblocks = 8\n')


class Skipped(Exception):
    """What a check needs is not on this machine."""


def needs(command):
    """The check is skipped if this command is not there."""
    if not shutil.which(command):
        raise Skipped(command)


def ran(*words, limit=LIMIT, **settings):
    """How a command ended: its status, and what it wrote to each stream."""
    ended = subprocess.run([str(word) for word in words], capture_output=True, text=True, timeout=limit, check=False,
                           stdin=subprocess.DEVNULL, **settings)
    return ended.returncode, ended.stdout, ended.stderr


def make(target, *settings, limit=LIMIT):
    """make, at the top of the repository."""
    status, said, fault = ran("make", "--no-print-directory", target, f"PROGRAM={PROGRAM}", *settings, cwd=TOP,
                              limit=limit)
    assert status == 0, said + fault
    return said


def files_in(folder):
    """The files below a folder, by their paths."""
    return {str(path.relative_to(folder)) for path in Path(folder).glob("**/*") if path.is_symlink() or path.is_file()}


@contextmanager
def installed():
    """A folder in which targetd is installed."""
    with tempfile.TemporaryDirectory(prefix="targetd-") as folder:
        make("install", f"PREFIX={folder}")
        yield Path(folder)


def plain(path):
    """The text of a page, with its hyphens, blanks and lines of several fonts as they are shown."""
    text = path.read_text(encoding="utf-8")
    text = re.sub(r"\\-", "-", text).replace(r"\~", " ")
    return re.sub(r"^\.BI (.*)$", lambda line: "".join(shlex.split(line[1])), text, flags=re.MULTILINE)
