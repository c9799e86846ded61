"""Ends a process between two calls of the system (targetd-stop(8)). The system ends a large write in its middle only for a
signal that kills; one that stops takes effect once the call is done."""

import os
import signal
import time
from pathlib import Path

STOPPED, OVER = ("T",), ("Z", "X", None)  # states of proc(5); a process that is gone has none
PAUSE = 0.005  # seconds between two looks


def state_of(process):
    """The state of a process in one letter, or nothing if it is gone."""
    try:
        told = Path(f"/proc/{process}/stat").read_text(encoding="utf-8", errors="replace")
    except (FileNotFoundError, ProcessLookupError):
        return None
    return told.rpartition(")")[2].split()[0]


def reaches(process, states, seconds):
    """Whether a process gets into one of these states within a number of seconds."""
    until = time.monotonic() + seconds
    while state_of(process) not in states:
        if time.monotonic() > until:
            return False
        time.sleep(PAUSE)
    return True


def send(process, number):
    """Sends a signal to a process, if it is still there."""
    try:
        os.kill(process, number)
    except ProcessLookupError:
        pass


def is_first(process):
    """Whether a process is the first one of a namespace (pid_namespaces(7)), as in a container: SIGTERM does not end it."""
    try:
        status = Path(f"/proc/{process}/status").read_text(encoding="utf-8", errors="replace")
    except (FileNotFoundError, ProcessLookupError):
        return False
    numbers = next((line.split()[1:] for line in status.splitlines() if line.startswith("NSpid:")), [])
    return len(numbers) > 1 and numbers[-1] == "1"


def end(process, patience):
    """Ends a process by SIGTERM, once it has stopped or a number of seconds has passed. Whether it had stopped, or ended."""
    try:
        send(process, signal.SIGSTOP)
        has_stopped = reaches(process, STOPPED + OVER, patience)
        send(process, signal.SIGKILL if has_stopped and is_first(process) else signal.SIGTERM)
    finally:
        send(process, signal.SIGCONT)  # it does not stay stopped, also if this program is ended meanwhile
    return has_stopped
