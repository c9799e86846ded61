"""What the log of a process tells (targetd(8)): who has logged in, and which units are not ready."""

import gzip
import ipaddress
import os
import re
import subprocess
import time
from datetime import datetime
from pathlib import Path
from typing import NamedTuple

STANDARD_ERROR = "-"
JOURNAL = "the journal"
LISTENS = re.compile(r"\S+ listening on (\S+)$")
CAME = re.compile(r"\S+ connection (\d+) from (\S+)$")
LOGGED_IN = re.compile(r"(\S+) connection (\d+) logged in: initiator (\S+), (?:target (\S+)|(discovery)), TSIH \d+$")
# A unit is not ready once a write of it has failed, and 04/4400 tells the next who asks. After 03/0C00 stands who wrote what.
FAILED = re.compile(r"(\S+) target (\S+), unit (\d+): (03/0C00, [^;]*|04/4400, [^;]*)(?:; .*)?$")
MISSING = re.compile(r"\S+ (\d+) lines (?:could not be written|left out)$")
ROTATED = r"[.-][0-9][0-9.-]*(?:\.gz)?"  # what logrotate(8) puts after the name of a log
SLACK = 1  # seconds by which the start of a process is known
LIMIT = 10  # seconds that journalctl may take
UNKNOWN = "who has logged in and which units are not ready"


class Session(NamedTuple):
    """A login: the InitiatorName, the target, or nothing if it discovers them, and when, in seconds since 1970."""
    initiator: str
    target: str
    since: float


class Failure(NamedTuple):
    """A unit is not ready: since when, in seconds since 1970, and what the log says of it."""
    since: float
    words: str


class Told(NamedTuple):
    """What a log tells. `source`: the path of the log, or that it is the journal, or nothing if none could be read.
    `sessions`: by the addresses of their hosts. `failures`: by the names of targets, as the log has them, and LUNs. `notes`:
    what it does not tell."""
    source: str
    sessions: dict
    failures: dict
    notes: list


def seconds(moment):
    """A time of RFC 3339 in UTC, in seconds since 1970."""
    return datetime.fromisoformat(moment.replace("Z", "+00:00")).timestamp()


def escaped(name):
    """A name as the log has it."""
    return "".join(chr(byte) if 0x21 <= byte <= 0x7e and byte != 0x5c else f"\\x{byte:02X}" for byte in name.encode())


def spelled(address):
    """An address with its port, as it is spelled for a socket of version 4 or 6 alike."""
    host, _, port = address.rpartition(":")
    try:
        found = ipaddress.ip_address(host.strip("[]").partition("%")[0])
    except ValueError:
        return host, port
    return str(getattr(found, "ipv4_mapped", None) or found), port


def in_lines(lines, started, listening):
    """The sessions of the addresses that came last, the failures, whether the lines have the start of the process, and how many
    lines they say are missing. The process listens on these addresses; if there are none, they cannot be seen."""
    own = {*map(spelled, listening)}
    sessions, came, failures, begins, missing = {}, {}, {}, False, 0
    first = time.strftime("%Y-%m-%dT%H:%M:%S", time.gmtime(started - SLACK))
    for line in lines:
        if line[:len(first)] < first:
            continue  # of a process before this one
        if (listens := LISTENS.match(line)) and (not own or spelled(listens[1]) in own):
            sessions, came, failures, begins, missing = {}, {}, {}, True, 0
        elif of_connection := CAME.match(line):
            came[of_connection[1]] = of_connection[2]
            sessions.pop(of_connection[2], None)
        elif (login := LOGGED_IN.match(line)) and login[2] in came:
            sessions[came[login[2]]] = Session(login[3], login[4], seconds(login[1]))
        elif failed := FAILED.match(line):
            failures.setdefault((failed[2], int(failed[3])), Failure(seconds(failed[1]), failed[4]))
        elif lost := MISSING.match(line):
            missing += int(lost[1])
    return sessions, failures, begins, missing


def files_of(path, started):
    """The files that a log was moved to since a process was started, oldest first, and the log itself. That is made by the next
    line, so it may not be there yet."""
    path, moved = Path(path), []
    for other in path.parent.iterdir():
        if re.fullmatch(re.escape(path.name) + ROTATED, other.name) and other.stat().st_mtime >= started - SLACK:
            moved.append(other)
    moved.sort(key=lambda other: other.stat().st_mtime)
    return [*moved, path] if path.exists() or not moved else moved


def lines_of(path, started):
    """The lines of a log, also of what was moved since a process was started."""
    if Path(path).exists() and not Path(path).is_file():
        raise OSError(0, "it is no regular file")  # the lines of a FIFO are for who reads it
    for file in files_of(path, started):
        with (gzip.open if file.suffix == ".gz" else open)(file, "rt", encoding="ascii", errors="replace") as log:
            for line in log:
                yield line.rstrip("\n")


def doubts_of(path):
    """What is to be noted of the end of a log: a full file system takes no line, or half of one."""
    if not Path(path).exists():
        return []
    lost = f"{UNKNOWN} may be more than is shown"
    notes = [f"the file system of the log is full: {lost}"] if not os.statvfs(path).f_bavail else []
    with open(path, "rb") as log:
        log.seek(max(log.seek(0, os.SEEK_END) - 1, 0))
        if log.read(1) not in (b"", b"\n"):
            notes.append(f"the log ends within a line: {lost}")
    return notes


def journal_of(process):
    """The lines that the journal has of a process since the system began, or nothing if there is no journalctl."""
    try:
        ran = subprocess.run(["journalctl", "--quiet", "--no-pager", "--boot", "--output=cat", f"_PID={process}"],
                             capture_output=True, text=True, errors="replace", timeout=LIMIT, check=False)
    except (OSError, subprocess.TimeoutExpired):
        return None
    return ran.stdout.splitlines()


def told_by_journal(process, started, listening):
    """What the journal tells of a process whose log is standard error."""
    lines = journal_of(process)
    if not lines:
        why = "there is no journalctl" if lines is None else "the journal has none of it that this user may read"
        return Told(None, {}, {}, [f"its log goes to standard error, and {why}: {UNKNOWN} is not known"])
    return told_in(JOURNAL, lines, started, listening)


def told_in(source, lines, started, listening):
    """What lines tell."""
    sessions, failures, begins, missing = in_lines(lines, started, listening)
    notes = [] if begins else [f"the log does not go back to the start: {UNKNOWN} is not known of the time before it"]
    if missing:
        notes.append(f"the log lacks {missing} lines: {UNKNOWN} may be more than is shown")
    return Told(source, sessions, failures, notes)


def told_by(log, process, started, listening):
    """What a log tells of a process that was started then and listens on these addresses: that at a path, standard error, or
    none."""
    if log is None:
        return Told(None, {}, {}, [])
    if log == STANDARD_ERROR:
        return told_by_journal(process, started, listening)
    try:
        told = told_in(log, lines_of(log, started), started, listening)
        return told._replace(notes=told.notes + doubts_of(log))
    except (OSError, ValueError, EOFError) as error:
        why = getattr(error, "strerror", None) or error
        return Told(None, {}, {}, [f"the log {log} cannot be read: {why}: {UNKNOWN} is not known"])
