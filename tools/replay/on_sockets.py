"""A case on `targetd serve`: its connections are sockets of loopback, and the system takes few bytes of an answer at a time.

An event of another connection than the last is made once the program has read all that was sent before, so that they
keep their order. Numbers that the case leaves free below the one that it opens are taken by connections on which nothing
comes."""

import itertools
import os
import re
import select
import socket
import struct
import subprocess
import time
from collections import defaultdict
from contextlib import ExitStack, closing, contextmanager, suppress
from pathlib import Path

from operation.connections import socket_in
from operation.orderly_stop import OVER, reaches
from replay.program import TimeLimit, folder_with
from running.patience import LIMIT
from running.server import listening

EVENT = re.compile(rb"(open|gone|bytes) (\d+)(?: ((?:[0-9a-f]{2})*))?\n")
REFUSED = re.compile(rb"targetd: line (\d+) refused\n")
LISTEN = b"127.0.0.1:3260"  # of the cases' configurations
PORT = 3260
FEW, LONG, PIECE = 1, 16384, 47  # bytes of an answer that are taken at a time; of long answers, and of those at a time
RESET = struct.pack("ii", 1, 0)  # a close that leaves nothing in the system (SO_LINGER)
NUMBERS = itertools.count(os.getpid())
WAITING = "S"  # the state of a program that waits (proc(5))


class Unlike(Exception):
    """A connection is answered otherwise."""


def events(run):
    """The events of a run, up to the line that is refused, and what each must print; nothing if it is of something else."""
    refused = REFUSED.fullmatch(run.stderr)
    if run.words[:1] != [b"replay"] or run.streams or run.status and not refused:
        return []
    steps = run.steps[:int(refused[1]) - 1] if refused else run.steps
    found = [(EVENT.fullmatch(step.sent), step.printed) for step in steps]
    texts = b"".join(run.files.values())
    is_served = texts.count(b'listen = "' + LISTEN + b'"') == 1 and b'log = "' not in texts  # a replay opens no log
    return found if is_served and all(event for event, _ in found) else []


def are_listed():
    """Whether the system lists connections of loopback."""
    if not Path("/proc/net/tcp").exists():
        return False
    with socket.create_server(("127.0.0.1", 0)) as server, socket.create_connection(server.getsockname()) as client:
        return listed(server.getsockname(), client.getsockname()) is not None


def listed(ours, theirs):
    """The program's end of a connection, as the system lists it (proc(5)), or None."""
    digits, names = f":{theirs[1]:04X} ", tuple(f"{host}:{port}" for host, port in (ours, theirs))
    with open("/proc/net/tcp", encoding="ascii") as lines:
        found = (socket_in(line) for line in lines if digits in line)
        return next((one for one in found if (one.local, one.remote) == names), None)


def printed_on(printed):
    """What each connection is sent, and those that are closed."""
    sent, closed = defaultdict(bytes), set()
    for line in printed.splitlines():
        number, text = line.split()
        if text == b"closed":
            closed.add(int(number))
        else:
            sent[int(number)] += bytes.fromhex(text.decode())
    return sent, closed


def addresses():
    """Addresses of loopback that are as long as that of the configurations."""
    for number in itertools.islice(NUMBERS, 9):
        yield f"127.{number // 81 % 9 + 1}.{number // 9 % 9 + 1}.{number % 9 + 1}"


@contextmanager
def serving(program, run, library, piece):
    """The program on the case's configuration, and the host that it listens on."""
    settings = {**os.environ, "LD_PRELOAD": str(library), "FAIL_CALL": "send", "FAIL_PIECE": str(piece)}
    for host in addresses():
        files = {name: content.replace(LISTEN, f"{host}:{PORT}".encode()) for name, content in run.files.items()}
        with ExitStack() as stack:
            folder = stack.enter_context(folder_with(files))
            words = [program, "serve", *run.words[1:]]
            try:
                server = stack.enter_context(listening(*words, cwd=folder, env=settings, stderr=subprocess.DEVNULL))
            except OSError:
                continue
            yield server.process, host
            return
    raise Unlike("it listens on no address")


class Client:
    """One end of a connection, and what the system says of the other."""

    def __init__(self, host):
        self.socket = socket.create_connection((host, PORT), LIMIT)
        self.ends = (host, PORT), self.socket.getsockname()
        self.socket.setsockopt(socket.IPPROTO_TCP, socket.TCP_NODELAY, 1)
        self.socket.setblocking(False)

    def fileno(self):
        return self.socket.fileno()

    def wait(self, is_so):
        """Waits until it is so of the program's end."""
        until = time.monotonic() + LIMIT
        while not is_so(listed(*self.ends)):
            if time.monotonic() > until:
                raise TimeLimit
            time.sleep(0.0005)


class Connections:
    """The connections of a run, by their numbers. `last`: the one on which bytes came last, if any did."""

    def __init__(self, host):
        self.host, self.clients, self.last = host, {}, None

    def begin(self, number):
        """Waits until the program has read what was sent last, if that was on another connection than this one."""
        if self.last != number and self.last in self.clients:
            self.clients[self.last].wait(lambda end: not end or not end.unread)
        self.last = number

    def open(self, number):
        """Opens a connection, unless it is one on which nothing came. The program takes the lowest number that is free, and
        accepts in order. An inode tells that it has accepted the last."""
        for free in range(number + 1):
            if free not in self.clients:
                self.clients[free] = Client(self.host)
        self.clients[number].wait(lambda end: end and end.inode)

    def gone(self, number):
        """Ends a connection."""
        client = self.clients.pop(number)
        client.socket.close()
        client.wait(lambda end: end is None)

    def send(self, number, data, wanted, closed):
        """Sends bytes, and reads what each connection is sent because of them."""
        unsent, came = data, {c: b"" for c in wanted}
        while unsent or came != wanted:
            readers = [self.clients[c] for c in wanted if len(came[c]) < len(wanted[c])]
            readable, writable, _ = select.select(readers, [self.clients[number]] if unsent else [], [], LIMIT)
            if not readable and not writable:
                raise TimeLimit
            for c in [c for c in wanted if self.clients[c] in readable]:
                came[c] += received(self.clients[c], c, len(wanted[c]) - len(came[c]))
                if not wanted[c].startswith(came[c]):
                    raise Unlike(f"connection {c} is answered otherwise")
            if writable:
                unsent = unsent[taken(self.clients[number], unsent, number in closed):]

    def end(self, number):
        """A connection is closed by the target, and is sent nothing more."""
        client = self.clients.pop(number)
        client.socket.settimeout(LIMIT)
        with client.socket, suppress(ConnectionResetError):
            if client.socket.recv(1):
                raise Unlike(f"connection {number} is answered more")

    def all_is_said(self, process):
        """Nothing more comes, once the program has read all and waits for more, or has ended."""
        self.begin(None)
        if not reaches(process.pid, (WAITING, *OVER), LIMIT):
            raise TimeLimit
        for number, client in self.clients.items():
            if select.select([client], [], [], 0)[0]:
                raise Unlike(f"connection {number} is answered more, or closed")

    def close(self):
        """Ends all, and leaves nothing in the system."""
        for client in self.clients.values():
            client.socket.setsockopt(socket.SOL_SOCKET, socket.SO_LINGER, RESET)
            client.socket.close()


def received(client, number, most):
    """What has come on a connection, at most so many bytes."""
    piece = client.socket.recv(most)
    if not piece:
        raise Unlike(f"connection {number} is closed too early")
    return piece


def taken(client, unsent, may_end):
    """How many bytes the system takes: all of them for nothing if the connection has ended, as it may."""
    try:
        return client.socket.send(unsent)
    except (BrokenPipeError, ConnectionResetError):
        if not may_end:
            raise Unlike("a connection is closed too early") from None
        return len(unsent)


def make(connections, event, printed):
    """Makes one step, and compares what is answered."""
    kind, number = event[1], int(event[2])
    wanted, closed = printed_on(printed.replace(LISTEN.hex().encode(), f"{connections.host}:{PORT}".encode().hex().encode()))
    connections.begin(number)
    if kind == b"open":
        connections.open(number)
    if kind == b"gone":
        connections.gone(number)
    connections.send(number, bytes.fromhex((event[3] or b"").decode()), wanted, closed)
    for c in closed:
        connections.end(c)


def answered_otherwise(program, run, library):
    """What differs if a case is served over sockets, or nothing."""
    steps = events(run)
    if not steps:
        return None
    piece = FEW if sum(len(printed) // 2 for _, printed in steps) < LONG else PIECE
    at = 0
    try:
        with serving(program, run, library, piece) as (process, host), closing(Connections(host)) as connections:
            for at, (event, printed) in enumerate(steps, 1):
                make(connections, event, printed)
            connections.all_is_said(process)
            if process.poll() is not None:
                raise Unlike(f"the program ended with status {process.poll()}")
    except (Unlike, OSError) as fault:
        return f"over sockets, event {at}: {fault or type(fault).__name__}"
    return None
