"""The processes that serve as targetd does, and what the kernel tells of them (proc(5))."""

import os
import re
import stat
import time
from pathlib import Path
from typing import NamedTuple

from operation import toml_lines
from operation.connections import LISTENING, sockets_of
from operation.log_sessions import STANDARD_ERROR

STARTED = 19  # the place of the time of the start among the fields after the name
ROUNDED = 0.1  # seconds by which that time may be too early
MEMORY = re.compile(r"^Vm(HWM|RSS):\s+(\d+) kB$", re.MULTILINE)


class Unit(NamedTuple):
    """A unit of a configuration. `file`: its path, if it is not in memory. `size`: the bytes of that file, if it
    is there. `is_open`: the process has it open."""
    lun: int
    kind: str
    serial: str
    file: str
    size: int
    is_open: bool


class Target(NamedTuple):
    """A target of a configuration."""
    name: str
    units: list


class Process(NamedTuple):
    """A process that serves. `started`: seconds since 1970. `memory` and `most_memory`: bytes. `sockets`: what it has
    open, or nothing if that cannot be seen. `log`: the path of its log, `-` if it is standard error, or nothing if it
    has none. `notes`: what cannot be seen or may be otherwise."""
    number: int
    configuration: str
    started: float
    memory: int
    most_memory: int
    targets: list
    sockets: list
    log: str
    notes: list


def words_of(process):
    """The words of its command line."""
    return [os.fsdecode(word) for word in Path(f"/proc/{process}/cmdline").read_bytes().split(b"\0")[:-1]]


def configuration_in(words):
    """The path of the configuration that these words serve, or nothing."""
    if len(words) < 3 or not Path(words[0]).name.startswith("targetd") or words[1] != "serve":
        return None
    for word, after in zip(words[2:], [*words[3:], None]):
        if word == "--config":
            return after
        if word.startswith("--config="):
            return word.removeprefix("--config=")
    return None


def started_at(process):
    """When it was started."""
    fields = Path(f"/proc/{process}/stat").read_text(encoding="utf-8", errors="replace").rpartition(")")[2].split()
    uptime = float(Path("/proc/uptime").read_text(encoding="ascii").split()[0])
    return time.time() - uptime + int(fields[STARTED]) / os.sysconf("SC_CLK_TCK")


def memory_of(process):
    """How many bytes of memory it has now, and has had at most."""
    status = Path(f"/proc/{process}/status").read_text(encoding="utf-8", errors="replace")
    found = {name: int(number) * 1024 for name, number in MEMORY.findall(status)}
    return found.get("RSS", 0), found.get("HWM", 0)


def identity(status):
    """What is the same of two paths of one file, or of one device."""
    return ("device", status.st_rdev) if stat.S_ISBLK(status.st_mode) else (status.st_dev, status.st_ino)


def size_of(status):
    """How many bytes a file or a block device has."""
    if not stat.S_ISBLK(status.st_mode):
        return status.st_size
    number = f"{os.major(status.st_rdev)}:{os.minor(status.st_rdev)}"
    return int(Path(f"/sys/dev/block/{number}/size").read_text(encoding="ascii")) * 512


def open_files(process):
    """The files that it has open, by what is the same of all their paths."""
    found = set()
    for link in Path(f"/proc/{process}/fd").iterdir():
        try:
            found.add(identity(link.stat()))
        except FileNotFoundError:
            continue  # it was closed meanwhile
    return found


def held(table, key, other=None):
    """The value of a key of a configuration, or another."""
    value = table.held.get(key)
    return other if value is None else value.held


def scalar(table, key):
    """The text or the number of a key, or nothing if its value is another."""
    value = held(table, key)
    return value if isinstance(value, (str, int)) else None


def unit_of(table, folder, opened):
    """A unit, whose file is looked for from a folder."""
    name, size, is_open = held(table, "file"), None, False
    if name is not None:
        name = str(Path(folder, name))
        try:
            status = os.stat(name)
            size, is_open = size_of(status), identity(status) in opened
        except OSError:
            pass  # it was moved or removed, and may be open all the same
    return Unit(*(scalar(table, key) for key in ("lun", "kind", "serial")), name, size, is_open)


def log_of(document, folder):
    """The path of the log, or what stands for standard error, or nothing."""
    log = held(document, "log")
    return log if log == STANDARD_ERROR else str(Path(folder, log)) if isinstance(log, str) else None


def targets_of(document, folder, opened):
    """The targets of a configuration, with their units."""
    return [Target(scalar(target, "name"), [unit_of(unit, folder, opened) for unit in held(target, "unit", [])])
            for target in held(document, "target", [])]


def opened_by(process):
    """The folder of a process, the files and the sockets that it has open, and what is to be noted of that."""
    try:
        return os.readlink(f"/proc/{process}/cwd"), open_files(process), sockets_of(process), []
    except PermissionError:
        return f"/proc/{process}/cwd", None, None, ["what it has open cannot be seen by this user"]


def notes_of_files(targets, opened):
    """The files that should be open by the configuration, and are not."""
    units = [] if opened is None else [unit for target in targets for unit in target.units]
    return [f"{unit.file} is not the file that it has open" for unit in units if unit.file and not unit.is_open]


def served_by(path, folder, opened, started):
    """The targets and the log of the configuration at a path, and what is to be noted of it."""
    try:
        document = toml_lines.read(Path(path).read_text(encoding="utf-8"))
        targets, log = targets_of(document, folder, opened or set()), log_of(document, folder)
        status = os.stat(path)
        changed = max(status.st_mtime, status.st_ctime) > started + ROUNDED  # one that was moved there keeps its older time
    except (OSError, UnicodeDecodeError, toml_lines.NotToml, AttributeError, TypeError) as error:
        return [], None, [f"the configuration cannot be read: {getattr(error, 'strerror', None) or error}"]
    notes = ["the configuration was changed since the start, and is not read again"] if changed else []
    return targets, log, notes + notes_of_files(targets, opened)


def process_of(number):
    """What is told of a process, or nothing if it does not serve."""
    try:
        named = configuration_in(words_of(number))
        if named is None:
            return None
        started, memory = started_at(number), memory_of(number)
        folder, opened, sockets, unseen = opened_by(number)
    except (FileNotFoundError, ProcessLookupError):
        return None  # it has ended meanwhile
    path = str(Path(folder, named))
    targets, log, notes = served_by(path, folder, opened, started)
    return Process(number, path, started, *memory, targets, sockets, log, unseen + notes)


def serving():
    """Each process that serves."""
    numbers = sorted(int(entry.name) for entry in Path("/proc").iterdir() if entry.name.isdecimal())
    return [found for number in numbers if (found := process_of(number))]


def listening(process):
    """The sockets by which a process is reached, as far as they can be seen."""
    return [one for one in process.sockets or [] if one.state == LISTENING]


def connected(process):
    """The sockets of its connections, as far as they can be seen."""
    return [one for one in process.sockets or [] if one.state != LISTENING]
