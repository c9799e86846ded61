"""The quick start of README, line by line as it stands there, in a folder of its own."""

import os
import re
import shutil
import signal
import socket
import subprocess
import tempfile
import threading
from contextlib import contextmanager
from pathlib import Path

from installed_checks.installation import LIMIT, TOP, Skipped, needs, ran
from serving_checks import logins

LIMIT_OF_DEMO = 1200  # seconds: it builds the program
LISTENS = "listening on 127.0.0.1:3260"


def block(begun):
    """The block of code of README that begins so."""
    found = re.findall(r"^```\n(.*?)^```$", (TOP / "README.md").read_text(encoding="utf-8"), re.MULTILINE | re.DOTALL)
    return next(lines for lines in found if lines.startswith(begun))


@contextmanager
def own_tree():
    """A copy of the tree in which nothing was built."""
    with tempfile.TemporaryDirectory(prefix="targetd-") as folder:
        room = Path(folder) / "pitsagul"
        shutil.copytree(TOP, room, ignore=shutil.ignore_patterns(".git", "out", "__pycache__"))
        (room / ".git").mkdir()
        yield room


@contextmanager
def served_by(lines, room):
    """Runs lines of which the last serves, and gives what they printed before it."""
    with subprocess.Popen(["bash", "-e", "-c", lines], cwd=room, stdin=subprocess.DEVNULL, stdout=subprocess.PIPE, text=True,
                          start_new_session=True, env={**os.environ, "HOME": str(room.parent)}) as process:
        late = threading.Timer(LIMIT_OF_DEMO, os.killpg, (process.pid, signal.SIGKILL))
        late.start()
        printed = []
        try:
            for line in process.stdout:
                if line.strip() == LISTENS:
                    break
                printed.append(line.rstrip("\n"))
            else:
                raise AssertionError("\n".join(["it does not serve", *printed[-5:]]))
            yield printed
        finally:
            late.cancel()
            os.killpg(process.pid, signal.SIGTERM)


def shows(told, lines):
    """All lines of a block were told, in order; one that ends with two dots is the front of one."""
    told = iter(told)
    for line in lines:
        front = line.removesuffix("..")
        assert any(one.startswith(front) if front != line else one == line for one in told), line


def logs_in_to(name):
    """Whether the target of this name is there."""
    with socket.create_connection(("127.0.0.1", 3260), LIMIT) as client:
        return logins.is_answered(client, f"InitiatorName=a\0TargetName={name}\0".encode())


def runs_as_readme_has_it_line_by_line():
    needs("rt")
    try:
        socket.create_server(("127.0.0.1", 3260)).close()
    except OSError:
        raise Skipped("port 3260 that is free") from None
    start = block("make demo\n")
    name = re.search('name = "(.*)"', start)[1]
    with own_tree() as room:
        before = set(os.listdir(room))
        with served_by(start, room) as printed:
            assert logs_in_to(name) and not logs_in_to(f"{name}2")
            if shutil.which("qemu-img"):
                status, _, fault = ran(*block("qemu-img ").split())
                assert status == 0 or "Unknown protocol" in fault, fault  # QEMU has its iSCSI in a package of its own
        assert set(os.listdir(room)) == before, "it leaves files in the tree"
        shows(printed, block("> open 0\n").splitlines())


CHECKS = [runs_as_readme_has_it_line_by_line]
