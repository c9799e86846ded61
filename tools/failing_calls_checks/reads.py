"""Initiators READ one disk in a file over `targetd serve`, each with a segment of its own, while a call of the program
fails or a write to a connection takes few bytes. What arrives is the disk's content, whole or cut if a connection
ends."""

import errno
import random
import socket
from functools import partial

from failing_calls_checks.serve import LENGTH, Failed, Script, each_run, received, run
from wire import notation, pdu

SEGMENTS = (512, 513, 4096, 262144, 16777215)
CONTENT = random.Random(41).randbytes(LENGTH)
LONG, SHORT = 33, 1  # blocks of READs: more than 16 KiB, and one
LOGIN = ('[Login-Request I T CSG=1 NSG=3 ISID={} ITT=16 CmdSN=1 | "InitiatorName=a" 00 "TargetName=t1" 00 '
         '"MaxBurstLength=16384" 00 "MaxRecvDataSegmentLength={}" 00]')
READY = "[TEST-UNIT-READY F ITT=1 CmdSN=1]"
# Two READs in one piece, from the front of the disk and from block 100 on.
READS = (f"[SCSI-Command F R ITT=2 CmdSN=2 ExpectedDataTransferLength={512 * LONG} CDB=2800000000000000{LONG:02x}00]"
         f"[SCSI-Command F R ITT=3 CmdSN=3 ExpectedDataTransferLength={512 * SHORT} CDB=2800000000640000{SHORT:02x}00]")
DATA_IN, LOGGED_IN = pdu.LAYOUTS["Data-In"], pdu.LAYOUTS["Login-Response"]
WANTED = CONTENT[:512 * LONG] + CONTENT[512 * 100:512 * (100 + SHORT)]


def in_turns():
    """What is sent: each initiator logs in, is told its unit attention, and READs."""
    for text in (LOGIN, READY, READS):
        for c, segment in enumerate(SEGMENTS):
            yield c, notation.data(text.format(c, segment), {})


def answer_of(client):
    """The answer to a request, after its data, or None if the connection has ended before it is whole. That of a login
    is without its TSIH, which another has if a connection ended before all were accepted."""
    answer = b""
    while header := received(client, pdu.HEADER):
        length = pdu.get(header, pdu.COMMON["DataSegmentLength"])
        segment = received(client, length + pdu.padding(length))
        if segment is None:
            return None
        opcode = pdu.get(header, pdu.OPCODE)
        if opcode == LOGGED_IN[0]:
            header = pdu.put(header, LOGGED_IN[2]["TSIH"], 0)
        answer += header + segment
        if opcode != DATA_IN[0]:
            return answer
    return None


def exchange(client, sent):
    """Sends requests, and gives their answers, or None if the connection has ended before the last."""
    try:
        client.sendall(sent)
        answers = [answer_of(client) for _ in pdu.cut(sent)[0]]
    except socket.timeout:
        raise Failed("a request is not answered, and the connection is open") from None
    except OSError:
        return None, False
    return (None, False) if None in answers else (b"".join(answers), True)


PARTS = list(in_turns())
SCRIPT = Script(len(SEGMENTS), PARTS, exchange, disk=CONTENT)


def check_plain(plain):
    """Each initiator sees the content of the blocks that it asked for, in segments that it takes."""
    if plain.closed or plain.status is not None:
        raise Failed("the plain run is not answered as it must be")
    for (c, sent), answer in zip(PARTS, plain.answers):
        if len(pdu.cut(sent)[0]) == 1:
            continue
        data = [segment for header, _, segment in pdu.cut(answer)[0] if pdu.get(header, pdu.OPCODE) == DATA_IN[0]]
        if b"".join(data) != WANTED or max(map(len, data)) > SEGMENTS[c]:
            raise Failed(f"with a segment of {SEGMENTS[c]} bytes the data is not that of the disk")


def check_ended(plain, ended, statuses=(None,)):
    """At most one connection has ended, or the whole program if it may. All else was answered as in the plain run."""
    if ended.status not in statuses or ended.status is None and len(ended.closed) > 1:
        raise Failed(f"status {ended.status}, closed: {sorted(ended.closed)}")
    for (c, _), answer, wanted in zip(PARTS, ended.answers, plain.answers):
        if answer != wanted and (answer is not None or ended.status is None and c not in ended.closed):
            raise Failed("an answer is not that of the plain run")
    if ended.disk != CONTENT:
        raise Failed("the disk is not as it was")


def check_starved(plain, ended):
    """An allocation failed: a program that ends has run out of memory."""
    check_ended(plain, ended, (None, 3))


class Reads:
    """The runs in which calls of one kind fail, or move few bytes."""

    def __init__(self, program, shim):
        self.program, self.shim = program, shim

    def plain(self):
        """The run in which none does."""
        plain = run(SCRIPT, self.program, self.shim)
        check_plain(plain)
        return plain

    def each(self, check, **settings):
        """Lets each call fail, and gives how many there are."""
        plain = self.plain()
        return each_run(SCRIPT, self.program, self.shim, partial(check, plain), **settings)

    def whole(self, pieces, call):
        """Runs in which each call of this kind moves so many bytes at most, which must change nothing."""
        plain = self.plain()
        for piece in pieces:
            ended = run(SCRIPT, self.program, self.shim, call=call, piece=piece)
            check_ended(plain, ended)
            if ended.closed:
                raise Failed(f"with pieces of {piece} bytes a connection ends")
        return f"{len(pieces)} sizes"


SWEEPS = [
    ("each allocation fails", lambda r: r.each(check_starved, call="allocation", error=errno.ENOMEM)),
    ("each write to a connection fails", lambda r: r.each(check_ended, call="send", error=errno.EPIPE)),
    ("writes to a connection take pieces of each size",
     lambda r: r.whole([1, 2, 47, 48, 49, 511, 512, 513, 4096, 16385], "send")),
]
