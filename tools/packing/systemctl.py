#!/usr/bin/python3
"""Stands in for systemctl if no systemd runs: it starts and stops targetd.service by the command lines of its unit, as its
user and in its folder, and keeps what it was called with in /run/calls."""

import os
import re
import subprocess
import sys
import time
from pathlib import Path

UNIT, PROCESS, SAID = Path("/usr/lib/systemd/system/targetd.service"), Path("/run/targetd.process"), Path("/run/targetd.said")
LINK = Path("/etc/systemd/system/multi-user.target.wants/targetd.service")
LIMIT = 120  # seconds until it listens


def line_of(key):
    """The value of a key of the unit."""
    return re.search(f"^{key}=(.*)$", UNIT.read_text(encoding="utf-8"), re.MULTILINE)[1]


def running():
    """The process of the unit, or nothing."""
    try:
        number = PROCESS.read_text(encoding="ascii")
        state = Path(f"/proc/{number}/stat").read_text(encoding="ascii").rpartition(")")[2].split()[0]
    except (FileNotFoundError, ProcessLookupError):
        return None
    return None if state in "ZX" else int(number)


def start():
    """Starts the unit, and waits until it listens."""
    if running():
        return 0
    with SAID.open("w", encoding="ascii") as said, open("/run/journal", "a", encoding="ascii") as journal:
        process = subprocess.Popen(line_of("ExecStart").split(), cwd=line_of("WorkingDirectory"), user=line_of("User"),
                                   group=line_of("Group"), extra_groups=[], stdin=subprocess.DEVNULL, stdout=said,
                                   stderr=journal, start_new_session=True)
    PROCESS.write_text(str(process.pid), encoding="ascii")
    until = time.monotonic() + LIMIT
    while "listening" not in SAID.read_text(encoding="ascii"):
        if process.poll() is not None or time.monotonic() > until:
            return 1
        time.sleep(0.01)
    return 0


def stop():
    """Stops the unit by its own command."""
    process = running()
    if process:
        subprocess.run(line_of("ExecStop").lstrip("-+").replace("${MAINPID}", str(process)).split(), check=False)
    return 1 if running() else 0


def enable():
    """Lets the unit start with the system."""
    LINK.parent.mkdir(parents=True, exist_ok=True)
    LINK.symlink_to(UNIT)


def restarts():
    """When the unit is restarted, by its last drop-in that says so, or by itself."""
    said = [path.read_text(encoding="utf-8") for path in sorted(Path("/etc/systemd/system/targetd.service.d").glob("*.conf"))]
    found = re.findall("^Restart=(.*)$", "\n".join(said), re.MULTILINE)
    return found[-1] if found else line_of("Restart")


def main(words):
    with open("/run/calls", "a", encoding="ascii") as calls:
        print(*words, file=calls)
    verb = next((word for word in words if not word.startswith("-")), "")
    names = [word for word in words if word.endswith((".service", "targetd"))]
    if verb == "list-units" and running():
        print("targetd.service loaded active running iSCSI target")
    if verb == "show":
        print(running() or 0 if "--property=MainPID" in words else restarts())
    if verb == "is-enabled":
        print("enabled" if os.path.lexists(LINK) else "disabled")
    if verb == "is-active":
        return 0 if running() else 3
    if verb == "enable":
        enable()
    if (verb == "start" or verb == "enable" and "--now" in words) and names:
        return start()
    if verb in ("stop", "restart") and names:
        return stop() or (start() if verb == "restart" else 0)
    return 0


sys.exit(main(sys.argv[1:]))
