"""Two initiators write to one disk in a file, over `targetd serve`, while a call of the program fails.

The one sends a WRITE (10) of 2048 blocks in five parts. The other sends in between a COMPARE AND WRITE
that finds a difference, one that finds none, and a WRITE (10) with FUA. Whatever fails, each command's
blocks are changed whole or not at all, and if they are changed the command was answered.
"""

import errno
import socket
from functools import partial
from typing import NamedTuple

from failing_calls_checks.serve import LENGTH, Failed, Script, each_run, received, run
from wire import notation, pdu

LOGIN = '[Login-Request I T CSG=1 NSG=3 ITT=16 CmdSN=1 | "InitiatorName={}" 00 "TargetName=t1" 00 "InitialR2T=No" 00]'
READY = "[TEST-UNIT-READY F ITT=1 CmdSN=1]"
WRITE = "[SCSI-Command {} ITT={} CmdSN={} ExpectedDataTransferLength={} CDB={} | {}]"
DATA = "[Data-Out F ITT={} TTT={} BufferOffset={} | {}*{}]"

# What is sent, in this order: each is answered by one PDU.
PARTS = [
    (0, LOGIN.format("a")), (1, LOGIN.format("b")), (0, READY), (1, READY),
    (0, WRITE.format("W", 2, 2, 1048576, "2a000000000000080000", "11*8192")
     + DATA.format(2, 0xFFFFFFFF, 8192, 22, 57344)),
    (1, WRITE.format("F W", 2, 2, 1024, "89000000000000000bb8000000010000", "00*511 01 44*512")),
    (0, DATA.format(2, 0, 65536, 33, 262144)),
    (1, WRITE.format("F W", 3, 3, 1024, "89000000000000000bb8000000010000", "00*512 55*512")),
    (0, DATA.format(2, 1, 327680, 44, 262144)),
    (1, WRITE.format("F W", 4, 4, 512, "2a0800000bb900000100", "66*256")),
    (0, DATA.format(2, 2, 589824, 55, 262144)),
    (1, DATA.format(4, 0, 256, 77, 256)),
    (0, DATA.format(2, 3, 851968, 66, 196608)),
]


class Command(NamedTuple):
    """A command that writes: the part that it is answered after, its place on the disk, what it writes there."""
    part: int
    at: int
    content: bytes


COMMANDS = [
    Command(12, 0, notation.data("11*8192 22*57344 33*262144 44*262144 55*262144 66*196608", {})),
    Command(7, 3000 * 512, b"\x55" * 512),
    Command(11, 3001 * 512, b"\x66" * 256 + b"\x77" * 256),
]
MISCOMPARED = 5  # the part whose command finds a difference
# Bytes that a call on the disk moves at most. The parts of the long WRITE, of which one call writes four, have 8192, 57344,
# then 262144 bytes.
MOVED = [97, 4096, 8191, 8192, 8193, 65535, 65536, 65537, 327679, 327681, 600000]
READ_ERROR, WRITE_ERROR, NOT_READY = ((3, 0x1100), (3, 0x0C00), (4, 0x4400))


def exchange(client, sent):
    """Sends a part, and gives the PDU that it is answered by, or None if the connection has ended."""
    try:
        client.sendall(sent)
        header = received(client, pdu.HEADER)
        length = header and int.from_bytes(header[5:8], "big")
        segment = header and received(client, length + pdu.padding(length))
        return (None, False) if segment is None else (header + segment, True)
    except socket.timeout:
        raise Failed("a part is not answered, and the connection is open") from None
    except OSError:
        return None, False


SCRIPT = Script(2, [(c, notation.data(text, {})) for c, text in PARTS], exchange)


def sense_of(answer):
    """The sense key and code of a SCSI Response with sense data."""
    segment = answer[pdu.HEADER:]
    return (segment[4] & 15, int.from_bytes(segment[14:16], "big")) if segment else None


def check_disk(ended, lost=()):
    """Each command's blocks are as before or as it writes them, but for one that was told of a failed write, of which a
    part may be there; and it was answered if they are, but for those whose answers may be lost."""
    expected = bytearray(LENGTH)
    for command in COMMANDS:
        found = ended.disk[command.at:command.at + len(command.content)]
        answer, is_written = ended.answers[command.part], found == command.content
        is_torn = bool(answer) and sense_of(answer) == WRITE_ERROR
        if not is_written and not is_torn and found != bytes(len(found)):
            raise Failed(f"block {command.at // 512}: a part of a write is there")
        if is_written and not answer and ended.status is None and PARTS[command.part][0] not in lost:
            raise Failed(f"block {command.at // 512}: written, and not answered")
        if answer and answer[3] == 0 and not is_written:
            raise Failed(f"block {command.at // 512}: answered with GOOD, and not written")
        if answer and answer[3] != 0 and is_written and not is_torn:
            raise Failed(f"block {command.at // 512}: refused, and written")
        expected[command.at:command.at + len(found)] = found
    if ended.disk != bytes(expected):
        raise Failed("a block is written that no command names")


def check_starved(plain, ended):
    """Each initiator's answers are the first of those of the plain run. A program that ends has run out of memory."""
    check_disk(ended)
    if ended.status not in (None, 3):
        raise Failed(f"the program ended with status {ended.status}")
    if ended.status is None and len(ended.closed) > 1:
        raise Failed("one call failed, and both connections were closed")
    for answer, wanted in zip(ended.answers, plain.answers):
        if answer not in (None, wanted):
            raise Failed("an answer is not that of the plain run")


def check_store(plain, ended):
    """The first answer that is not that of the plain run tells of a failed read or write; after a failed write the
    disk is not ready, and after a failed read it is."""
    check_disk(ended)
    if ended.status is not None or None in ended.answers:
        raise Failed("a call on the disk failed, and a connection was closed")
    other = [sense_of(answer) for answer, wanted in zip(ended.answers, plain.answers) if answer != wanted]
    if len([sense for sense in other if sense in (READ_ERROR, WRITE_ERROR)]) != min(ended.failures, 1):
        raise Failed("not as many answers 03h as failed calls")
    if other and (other[0] not in (READ_ERROR, WRITE_ERROR) or set(other[1:]) - {NOT_READY}
                  or other[0] == READ_ERROR and other[1:]):
        raise Failed(f"answered with {other}")


def check_broken(plain, ended):
    """A call on a connection failed: that one is closed, and was answered the first of what it is answered in the plain run.
    The other one was answered all."""
    check_disk(ended, lost=ended.closed)
    if ended.status is not None or len(ended.closed) > 1:
        raise Failed(f"status {ended.status}, closed: {sorted(ended.closed)}")
    for (c, _), answer, wanted in zip(PARTS, ended.answers, plain.answers):
        if answer != wanted and (answer is not None or c not in ended.closed):
            raise Failed("an answer is not that of the plain run")


def check_unchanged(plain, ended):
    """The call was made again, and nothing else changed."""
    check_disk(ended)
    if ended.status is not None or ended.closed or ended.answers != plain.answers:
        raise Failed("the run is not the plain run")


class Writes:
    """The runs in which each call of one kind fails in turn."""

    def __init__(self, program, shim):
        self.program, self.shim = program, shim

    def each(self, check, **settings):
        """Lets each call fail, and gives how many there are."""
        plain = run(SCRIPT, self.program, self.shim)
        check_disk(plain)
        if None in plain.answers or sense_of(plain.answers[MISCOMPARED]) != (0x0E, 0x1D00):
            raise Failed("the plain run is not answered as it must be")
        if any(plain.answers[command.part][3] for command in COMMANDS):
            raise Failed("a command of the plain run is not GOOD")
        return each_run(SCRIPT, self.program, self.shim, partial(check, plain), **settings)

    def whole(self, pieces, call):
        """Runs in which each call of this kind moves so many bytes at most, which must change nothing."""
        plain = run(SCRIPT, self.program, self.shim)
        for piece in pieces:
            check_unchanged(plain, run(SCRIPT, self.program, self.shim, call=call, piece=piece))
        return f"{len(pieces)} sizes"


SWEEPS = [
    ("each allocation fails", lambda w: w.each(check_starved, call="allocation", error=errno.ENOMEM)),
    ("each call on the disk fails", lambda w: w.each(check_store, call="store", error=errno.EIO)),
    ("each call on the disk is interrupted", lambda w: w.each(check_unchanged, call="store", error=errno.EINTR)),
    ("calls on the disk move pieces of each size", lambda w: w.whole(MOVED, "store")),
    ("each read of a connection fails", lambda w: w.each(check_broken, call="receive", error=errno.ECONNRESET)),
    ("each write to a connection fails", lambda w: w.each(check_broken, call="send", error=errno.EPIPE)),
    ("each read of a connection is interrupted", lambda w: w.each(check_unchanged, call="receive", error=errno.EINTR)),
    ("each write to a connection is interrupted", lambda w: w.each(check_unchanged, call="send", error=errno.EINTR)),
    ("each read of a connection tells its end", lambda w: w.each(check_broken, call="receive", error=0)),
    ("writes to a connection take pieces of each size", lambda w: w.whole([1, 2, 47, 48, 49, 4096], "send")),
]
