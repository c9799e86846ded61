"""The TCP sockets of a process, as its kernel lists them (proc(5)), and what ss(8) tells of them beyond that."""

import ipaddress
import os
import re
import subprocess
import sys
from pathlib import Path
from typing import NamedTuple

LISTENING = "listening"
# The states of a socket by their numbers in /proc/net/tcp, from 1 on.
STATES = ("established", "syn-sent", "syn-received", "fin-wait-1", "fin-wait-2", "time-wait", "closed", "close-wait",
          "last-ack", LISTENING, "closing")
SOCKET = re.compile(r"socket:\[(\d+)\]")
LIMIT = 10  # seconds that ss may take
# What ss tells of a socket, by its inode: milliseconds since data or an acknowledgement came or went, and bytes.
INODE = re.compile(r"\bino:(\d+)")
TIMES = re.compile(r"\blast(?:snd|rcv|ack):(\d+)")
LAST, RECEIVED, SENT = (re.compile(rf"\b{name}:(\d+)") for name in ("lastrcv", "bytes_received", "bytes_sent"))


class Socket(NamedTuple):
    """A socket: both addresses, its state, and the bytes of its queues. Of one that listens, `unread` is how many
    connections wait to be accepted."""
    inode: int
    local: str
    remote: str
    state: str
    unread: int
    untaken: int


class Traffic(NamedTuple):
    """What ss tells of a socket. `age`: the seconds for which it is connected at least. `quiet`: the seconds since
    something came."""
    age: float
    quiet: float
    received: int
    sent: int


def address(digits):
    """An address with its port, from the digits of the kernel."""
    words, _, port = digits.partition(":")
    parts = [int(words[at:at + 8], 16).to_bytes(4, sys.byteorder) for at in range(0, len(words), 8)]
    found = ipaddress.ip_address(b"".join(parts))
    found = getattr(found, "ipv4_mapped", None) or found
    return f"{f'[{found}]' if found.version == 6 else found}:{int(port, 16)}"


def socket_in(line):
    """The socket in a line of the kernel's list, which counts the end of what comes as one byte."""
    _, local, remote, number, queues, *others = line.split()
    state, (untaken, unread) = STATES[int(number, 16) - 1], (int(digits, 16) for digits in queues.split(":"))
    return Socket(int(others[4]), address(local), address(remote), state,
                  max(0, unread - 1) if state == "close-wait" else unread, untaken)


def inodes_of(process):
    """The inodes of the sockets that a process has open. Fails if they cannot be seen from here."""
    return {int(found[1]) for link in Path(f"/proc/{process}/fd").iterdir() if (found := SOCKET.fullmatch(link_of(link)))}


def sockets_of(process):
    """The sockets that a process has open, those that listen first. Fails if they cannot be seen from here."""
    inodes = inodes_of(process)
    lines = [line for name in ("tcp", "tcp6") for line in lines_of(f"/proc/{process}/net/{name}")[1:]]
    found = [one for one in map(socket_in, lines) if one.inode in inodes]
    return sorted(found, key=lambda one: (one.state != LISTENING, one.remote))


def is_at(local, host, port):
    """A socket of this local address has a port of this host; an address of zeros is that of all."""
    own, _, number = local.rpartition(":")
    return number == str(port) and (own.strip("[]") == host or {own.strip("[]"), host} & {"0.0.0.0", "::"})


def listeners(host, port):
    """The processes that listen on a port of this host, as far as they can be seen from here."""
    listening = {one.inode for name in ("tcp", "tcp6") for one in map(socket_in, lines_of(f"/proc/net/{name}")[1:])
                 if one.state == LISTENING and is_at(one.local, host, port)}
    found = []
    for entry in Path("/proc").iterdir():
        try:
            if entry.name.isdecimal() and inodes_of(entry.name) & listening:
                found.append(int(entry.name))
        except OSError:
            continue  # it has ended, or is another user's
    return sorted(found)


def link_of(path):
    """What a descriptor leads to, or nothing if it was closed meanwhile."""
    try:
        return os.readlink(path)
    except FileNotFoundError:
        return ""


def lines_of(path):
    """The lines of a list of the kernel, or none if there is no such list."""
    try:
        return Path(path).read_text(encoding="ascii").splitlines()
    except FileNotFoundError:
        return []


def traffic_in(line):
    """What a line of ss tells of a socket."""
    received, sent = (int(found[1]) if (found := each.search(line)) else 0 for each in (RECEIVED, SENT))
    times, last = [int(time) / 1000 for time in TIMES.findall(line)], LAST.search(line)
    return Traffic(max(times, default=0), int(last[1]) / 1000 if last else 0, received, sent)


def traffic():
    """What ss tells of each socket that is seen from here, by its inode. Nothing if there is no ss."""
    try:
        ran = subprocess.run(["ss", "-tineHO"], capture_output=True, text=True, timeout=LIMIT, check=False)
    except (OSError, subprocess.TimeoutExpired):
        return {}
    return {int(found[1]): traffic_in(line) for line in ran.stdout.splitlines() if (found := INODE.search(line))}
