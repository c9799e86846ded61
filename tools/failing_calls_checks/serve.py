"""Initiators on `targetd serve`, one part of a script after the other, while a call of the program fails."""

import os
import socket
import subprocess
import tempfile
from concurrent.futures import ThreadPoolExecutor
from contextlib import contextmanager
from pathlib import Path
from typing import Callable, NamedTuple, Optional

from running.patience import LIMIT

PAUSE = 0.2  # seconds within which a program ends that has closed its connections
AT_ONCE = 4  # runs beside each other
LENGTH = 4096 * 512  # of the disk in a file
CONFIG = """listen = "127.0.0.1:0"
{}[[target]]
name = "t1"
[[target.unit]]
lun = 0
kind = "disk"
serial = "D0"
file = "{}"
[[target.unit]]
lun = 1
kind = "disk"
serial = "D1"
blocks = 8
"""


class Failed(Exception):
    """A run did not end as it must."""


class Script(NamedTuple):
    """How many initiators there are, what is sent, each part by one of them, and how a part's answer is had: it sends
    the part, and gives the answer and whether the connection is open after it. And whether there is a log, and what the
    disk holds at first."""
    initiators: int
    parts: list
    exchange: Callable
    is_logged: bool = False
    disk: bytes = bytes(LENGTH)


class Ended(NamedTuple):
    """The answer to each part, None if it was not sent; the initiators whose connection had ended, each with the
    part at which; the disk; the status, if the program ended by itself; how many calls failed; the log."""
    answers: list
    closed: dict
    disk: bytes
    status: Optional[int]
    failures: int
    log: str


@contextmanager
def started(program, shim, folder, report, settings, log, disk):
    """The program on a disk with this content, and the port that it listens on, or None if it has ended."""
    (folder / "disk").write_bytes(disk)
    (folder / "config.toml").write_text(CONFIG.format(log, folder / "disk"), encoding="ascii")
    chosen = {f"FAIL_{name.upper()}": str(value) for name, value in settings.items()}
    inherited = {**os.environ, "LD_PRELOAD": str(shim), **chosen, "FAIL_REPORT": str(report.fileno())}
    with subprocess.Popen([program, "serve", "--config", folder / "config.toml"], env=inherited,
                          pass_fds=[report.fileno()], stdin=subprocess.DEVNULL, stdout=subprocess.PIPE,
                          stderr=subprocess.DEVNULL) as process:
        try:
            port = process.stdout.readline().decode().strip().rpartition(":")[2]
            yield process, int(port) if port else None
        finally:
            process.kill()


def connected(port, count):
    """So many initiators, in the order in which they are accepted."""
    clients = [socket.create_connection(("127.0.0.1", port), LIMIT) for _ in range(count)]
    for client in clients:
        client.setsockopt(socket.IPPROTO_TCP, socket.TCP_NODELAY, 1)
    return clients


def received(client, count):
    """So many bytes, or None if the connection has ended before."""
    data = b""
    while len(data) < count:
        piece = client.recv(count - len(data))
        if not piece:
            return None
        data += piece
    return data


def exchanged(script, clients, leaving):
    """The answer to each part, and the initiators whose connection had ended."""
    answers, closed, alive = [None] * len(script.parts), {}, set(range(len(clients)))
    for n, (c, sent) in enumerate(script.parts):
        if leaving and leaving[1] == n:
            clients[leaving[0]].close()
            alive.discard(leaving[0])
        if c in alive:
            answers[n], is_open = script.exchange(clients[c], sent)
            if not is_open:
                closed[c] = n
                alive.discard(c)
    return answers, closed


def run(script, program, shim, leaving=None, **settings):
    """One run, in which the calls fail that the settings name. An initiator that is leaving, with a part, ends its
    connection before that part is sent."""
    with tempfile.TemporaryDirectory() as folder, tempfile.TemporaryFile() as report:
        folder = Path(folder)
        log = folder / "log"
        log.touch()
        line = f'log = "{log}"\n' if script.is_logged else ""
        with started(program, shim, folder, report, settings, line, script.disk) as (process, port):
            try:
                clients = connected(port, script.initiators) if port else []
            except OSError:
                clients = []
            answers, closed = exchanged(script, clients, leaving)
            for client in clients:
                client.close()
            status = ended_by_itself(process, LIMIT if not clients else PAUSE if closed else 0)
        failures = os.fstat(report.fileno()).st_size // len("failed\n")
        return Ended(answers, closed, (folder / "disk").read_bytes(), status, failures, log.read_text(encoding="ascii"))


def ended_by_itself(process, seconds):
    """The status of a program that ends within so many seconds, or None."""
    try:
        return process.wait(seconds)
    except subprocess.TimeoutExpired:
        return None


def each_call(checked):
    """Lets each call fail in turn, and gives how many there are: `checked` looks at a run in which the call of this
    number fails, and gives how many failed in it."""
    def one(number):
        try:
            return checked(number)
        except Failed as fault:
            raise Failed(f"call {number}: {fault}") from None

    calls = 0
    with ThreadPoolExecutor(AT_ONCE) as pool:
        while True:
            failures = list(pool.map(one, range(calls + 1, calls + 1 + AT_ONCE)))
            calls += sum(map(bool, failures))
            if not all(failures):
                break
    if not calls:
        raise Failed("no call failed at all")
    return f"{calls} calls"


def each_run(script, program, shim, check, **settings):
    """Lets each call fail in turn in runs of a script, looks at each run, and gives how many calls there are."""
    def checked(number):
        ended = run(script, program, shim, number=number, **settings)
        check(ended)
        return ended.failures

    return each_call(checked)
