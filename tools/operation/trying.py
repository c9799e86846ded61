"""What targetd would meet as it starts: its address, the files of its units and its log. Each is tried as the program does,
and let go again; nothing is listened on, made or written."""

import errno
import fcntl
import ipaddress
import os
import re
import socket
import stat
from pathlib import Path
from typing import NamedTuple

from operation.addresses import addresses_of_host
from operation.connections import listeners
from operation.file_locks import holders, is_taken, words_of
from operation.tape_items import MOST_TORN, counted, items_of

BLOCK = 512
ADDRESS = re.compile(r"(?:([0-9.]+)|\[([0-9A-Fa-f:.]+)(?:%([0-9]{1,9}))?\]):([0-9]+)")
FREE_PORTS = "/proc/sys/net/ipv4/ip_unprivileged_port_start"
KINDS = ((stat.S_ISFIFO, "a FIFO"), (stat.S_ISCHR, "a character device"), (stat.S_ISSOCK, "a socket"))


class Address(NamedTuple):
    """An address to listen on. `scope`: the number of an interface, for addresses that only one link has."""
    host: object
    port: int
    scope: int


def address_in(listen):
    """The address of a text that spells one with a port, or nothing."""
    found = ADDRESS.fullmatch(listen)
    try:
        host = ipaddress.ip_address(found[1] or found[2]) if found and int(found[4]) < 2 ** 16 else None
    except ValueError:
        return None
    return host and Address(host, int(found[4]), int(found[3] or 0))


def own_addresses(address):
    """What this host can be reached by, in words; who listens on all of version 6 is reached by version 4 too."""
    found = [str(own) for own in addresses_of_host(4)]
    if address.host.version == 6:
        found += [f"[{own}]" for own in addresses_of_host(6)]
    return f": {' or '.join(f'{own}:{address.port}' for own in found)}" if found else ""


def bind_error(address):
    """The error by which an address cannot be bound, or nothing."""
    is_6 = address.host.version == 6
    place = (str(address.host), address.port) + ((0, address.scope) if is_6 else ())
    try:
        with socket.socket(socket.AF_INET6 if is_6 else socket.AF_INET) as tried:
            tried.setsockopt(socket.SOL_SOCKET, socket.SO_REUSEADDR, 1)
            tried.bind(place)
    except OSError as error:
        return error
    return None


def free_ports():
    """The first port that may be listened on without a right."""
    try:
        return int(Path(FREE_PORTS).read_text(encoding="ascii"))
    except (OSError, ValueError):
        return 1024


def unbound(address, error):
    """Why an address cannot be bound, in words, and the processes that listen on it, as far as they can be seen."""
    if error.errno == errno.EADDRINUSE:
        found = listeners(str(address.host), address.port)
        return f"where {words_of(found)} listens already", found
    if error.errno == errno.EADDRNOTAVAIL:
        return f"which is no address of this host. Name one{own_addresses(address)}", []
    if error.errno == errno.EACCES:
        return f"and a port below {free_ports()} wants a right that this user does not have (CAP_NET_BIND_SERVICE)", []
    return f"which cannot be listened on: {error.strerror}", []


def memory():
    """How many bytes of memory this machine has."""
    return os.sysconf("SC_PHYS_PAGES") * os.sysconf("SC_PAGE_SIZE")


def kind_of(file):
    """What an open file is if it is neither a file nor a block device, or nothing."""
    mode = os.fstat(file.fileno()).st_mode
    return next((words for is_kind, words in KINDS if is_kind(mode)), None)


def doubt_of(file, is_tape):
    """What is to be noted of the open file of a unit that the program takes, or nothing."""
    if kind := kind_of(file):
        return f"is {kind}, which may keep nothing of what is written to it"
    if not stat.S_ISBLK(os.fstat(file.fileno()).st_mode):
        return None
    if is_tape:
        return "is a block device, which cannot grow as a tape does: its first write fails"
    return "is a block device that this machine has in use, as by a mount or an array" if is_in_use(file) else None


def is_in_use(device):
    """The kernel has a block device in use: nobody may open it for himself alone."""
    try:
        os.close(os.open(f"/proc/self/fd/{device.fileno()}", os.O_RDONLY | os.O_EXCL))
    except OSError as error:
        return error.errno == errno.EBUSY
    return False


def disk_fault(file):
    """Why a file is no disk, or nothing."""
    if kind := kind_of(file):
        return f"is {kind}, and neither a file nor a block device"
    size = file.seek(0, os.SEEK_END)
    more = size % BLOCK
    if not more:
        return None if size else "is empty, and a disk has as many bytes as its file"
    rest = os.pread(file.fileno(), more, size - more)
    what = "zeros" if not any(rest) else "not all zeros"
    return (f"has {counted(size, 'byte')}, and not a positive multiple of {BLOCK}. What stands after the last whole block, "
            f"{counted(more, 'byte')} ({what}), may belong to something else than a disk: look at it (tail -c {more}), and cut "
            "only what is known to be no data")


def tape_fault(file, capacity):
    """Why a file is no tape of this capacity, or nothing."""
    if not file.seekable():
        return f"is {kind_of(file)}, and no file"
    found = items_of(file)
    if found.fault:
        may_be_torn = found.end and found.size - found.end <= MOST_TORN
        return (f"has no whole record or filemark at byte {found.end} of {found.size}, but {found.fault}: "
                + ("targetd-mend-tape can cut it there" if may_be_torn else "it may be no tape"))
    return f"has {found.size} bytes, and more than the capacity of {capacity}" if found.size > capacity else None


def why(error):
    """The cause of an error, in words."""
    return getattr(error, "strerror", None) or str(error)


def log_fault(path, units):
    """Why a log cannot be opened at a path beside these units, by their devices and inodes, or nothing."""
    try:
        with open(path, "r+b", buffering=0, opener=lambda name, flags: os.open(name, flags | os.O_APPEND)) as file:
            status = os.fstat(file.fileno())
            if (status.st_dev, status.st_ino) in units:
                return "is the file of a unit"
            if not is_taken(file, fcntl.LOCK_SH):
                return f"cannot be written to: it is locked by {words_of(holders(file))}"
    except FileNotFoundError:
        return unmade_log(path)
    except IsADirectoryError:
        return "cannot be written to: it is a folder"
    except (OSError, ValueError) as error:
        return f"cannot be written to: {why(error)}"
    return None


def unmade_log(path):
    """Why the file of a log cannot be made at a path if there is none, or nothing."""
    folder, name = os.path.split(path)
    if not os.path.isdir(folder or "."):
        return "cannot be written to: its folder is not there"
    if not name:
        return "cannot be written to: it is the path of a folder"
    if not os.access(folder or ".", os.W_OK | os.X_OK, effective_ids=True):
        return "cannot be written to: this user may not make it in its folder"
    return None
