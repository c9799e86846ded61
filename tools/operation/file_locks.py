"""Whether a file is locked by flock(2), as targetd locks the files that it serves, and which process has it (proc(5))."""

import fcntl
import os
import re
from pathlib import Path

LOCK = re.compile(r"^\d+: FLOCK +\S+ +\S+ +(\d+) ([0-9a-f]+):([0-9a-f]+):(\d+) ", re.MULTILINE)


def is_taken(file, kind=fcntl.LOCK_EX):
    """The lock of this kind could be taken. It is held until the file is closed."""
    try:
        fcntl.flock(file, kind | fcntl.LOCK_NB)
    except BlockingIOError:
        return False
    return True


def holders(file):
    """The processes that have a file locked, as far as they can be seen from here."""
    status = os.fstat(file.fileno())
    wanted = os.major(status.st_dev), os.minor(status.st_dev), status.st_ino
    locks = LOCK.findall(Path("/proc/locks").read_text(encoding="ascii"))
    return [int(process) for process, major, minor, inode in locks
            if process != "0"  # one that cannot be seen from here
            and ((int(major, 16), int(minor, 16), int(inode)) == wanted
                 or int(inode) == status.st_ino and has_open(process, status))]


def has_open(process, status):
    """A process has the file with this status open. Some file systems (overlay, btrfs) have other devices in
    /proc/locks."""
    for descriptor in Path(f"/proc/{process}/fd").glob("*"):
        try:
            if os.path.samestat(descriptor.stat(), status):
                return True
        except OSError:
            continue
    return False


def words_of(processes):
    """Processes in words."""
    named = []
    for process in processes:
        try:
            named.append(f"process {process} ({Path(f'/proc/{process}/comm').read_text(encoding='utf-8').strip()})")
        except OSError:
            named.append(f"process {process}")
    return " and ".join(named) or "another process"


def is_served_by(process, config):
    """A process serves the configuration at this path, by the words of its command line."""
    try:
        words = Path(f"/proc/{process}/cmdline").read_bytes().split(b"\0")
    except OSError:
        return False
    named = (Path(f"/proc/{process}/cwd", os.fsdecode(word.removeprefix(b"--config="))) for word in words if word)
    return b"serve" in words and any(is_same(one, config) for one in named)


def is_same(one, other):
    """Both paths lead to one file, as far as they can be followed."""
    try:
        return os.path.samefile(one, other)
    except OSError:
        return False
