"""Three initiators of one target, over `targetd serve` with a log, one of which resets a unit, while an allocation fails.

A has a WRITE (10) of LUN 1 in flight. B has one of LUN 0 in flight, and after it a READ of LUN 1 and TEST UNIT
READYs of LUN 0, the last of them held. C reads. A resets LUN 0, which removes B's commands of LUN 0, and its READ is
done in the same event. Then B's data comes and is dropped, all are told of the reset, and A and B write. Whatever
fails, one initiator is closed at the most. It was answered the first PDUs of the plain run, and all others, and the
disk, are as in a run in which that one leaves before the part at which it was closed, or after it. The log tells of that
one that it ended by out of memory, and of nobody else.
"""

import errno
import socket
from functools import cache

from failing_calls_checks.serve import Failed, Script, each_call, run
from wire import notation, pdu

A, B, C = range(3)
PING = "[NOP-Out I ITT=99 TTT=0xffffffff CmdSN=1]"
LOGIN = ('[Login-Request I T CSG=1 NSG=3 ITT=16 CmdSN=1 | "InitiatorName={}" 00 "TargetName=t1" 00]'
         "[TEST-UNIT-READY F I LUN=0 ITT=1 CmdSN=1] [TEST-UNIT-READY F I LUN=1 ITT=1 CmdSN=1]")
WRITE = "[SCSI-Command F W LUN={} ITT=2 CmdSN={} ExpectedDataTransferLength=1024 CDB=2a000000000{}00000200 | {}*{}]"
DATA = "[Data-Out F ITT=2 TTT=0 BufferOffset={} | {}*{}]"
READ = "[SCSI-Command F R LUN={} ITT=3 CmdSN={} ExpectedDataTransferLength=2048 CDB=28000000000000000400]"
READY = "[TEST-UNIT-READY F LUN=0 ITT={} CmdSN={}]"
RESET = "[Task-Management-Request I Function=5 LUN=0 ITT=3 CmdSN=2 ReferencedTaskTag=0xffffffff]"

# What is sent, in this order, each part with a ping after it: its answer is what comes up to that of the ping.
PARTS = [
    (A, LOGIN.format("a")), (B, LOGIN.format("b")), (C, LOGIN.format("c")),
    (A, WRITE.format(1, 1, 0, 11, 256)),
    (B, WRITE.format(0, 1, 0, 22, 512)),
    (B, READ.format(1, 2) + READY.format(4, 3) + READY.format(5, 5)),
    (C, READ.format(0, 1)),
    (A, RESET),
    (B, ""),
    (B, DATA.format(512, 33, 512) + READY.format(6, 4)),
    (C, READ.format(0, 2) + READ.format(0, 3)),
    (A, DATA.format(256, 44, 768)),
    (B, WRITE.format(0, 6, 2, 55, 1024)),
    (C, READ.format(0, 4) + READ.format(1, 5)),
]


def exchange(client, sent):
    """Sends a part, and gives all that comes until its ping is answered or the connection ends."""
    answer = b""
    try:
        client.sendall(sent)
        while not is_whole(answer):
            piece = client.recv(65536)
            if not piece:
                break
            answer += piece
    except socket.timeout:
        raise Failed("a ping is not answered, and the connection is open") from None
    except OSError:
        pass
    return answer, is_whole(answer)


def is_whole(answer):
    """It ends with the answer to the ping."""
    found, rest = pdu.cut(answer)
    return bool(found) and not rest and found[-1][0][0] == pdu.LAYOUTS["NOP-In"][0]


SCRIPT = Script(3, [(c, notation.data(text + PING, {})) for c, text in PARTS], exchange, is_logged=True)


def answered(ended, c):
    """All that an initiator was answered, but for the TSIH of its login: if a connection is closed before the next
    is accepted, that one gets its number."""
    told = b"".join(answer or b"" for (sender, _), answer in zip(PARTS, ended.answers) if sender == c)
    return told and told[:14] + bytes(2) + told[16:]


def seen(ended, others):
    """What these initiators were answered, and the disk."""
    return [answered(ended, c) for c in others], ended.disk


def check_front(plain, ended, c):
    """This initiator was answered the first PDUs of the plain run."""
    found, wanted = answered(ended, c), answered(plain, c)
    if pdu.cut(found)[1] or not wanted.startswith(found):
        raise Failed(f"what {'ABC'[c]} was answered is not how the plain run begins")


def check_log(ended):
    """Who was closed is told to have ended by out of memory, with its login or without. All before it are there still, so
    it has the number of its place."""
    wanted = [f"session of connection {c} ended: out of memory" if answered(ended, c) else
              f"connection {c} ended without a login: out of memory" for c in ended.closed]
    told = [line.partition(" ")[2] for line in ended.log.splitlines() if line.endswith("out of memory")]
    if told != wanted:
        raise Failed(f"the log tells {told}, in place of {wanted}")


def check(plain, ended, left):
    """Who was closed was answered a front of the plain run, and the others as if it had left."""
    if ended.status not in (None, 3):
        raise Failed(f"the program ended with status {ended.status}")
    for c in range(SCRIPT.initiators) if ended.status else ended.closed:
        check_front(plain, ended, c)
    if ended.status:
        return
    if len(ended.closed) > 1:
        raise Failed("one allocation failed, and several connections were closed")
    check_log(ended)
    others = set(range(SCRIPT.initiators)) - set(ended.closed)
    wanted = [left(c, part + after) for c, part in ended.closed.items() for after in (0, 1)] or [plain]
    if seen(ended, others) not in [seen(one, others) for one in wanted]:
        names = "".join("ABC"[c] for c in ended.closed) or "nobody"
        raise Failed(f"with {names} closed, the others or the disk are not as they must be")


def check_plain(plain):
    """The plain run shows what it is for: a reset that sets B's READ free, and WRITEs that C reads."""
    freed, read = (pdu.cut(plain.answers[part])[0] for part in (8, 13))
    if plain.closed or [header[0] for header, _, _ in freed] != [0x25, 0x21, 0x20]:
        raise Failed("the reset of the plain run sets nothing free")
    data = [segment for header, _, segment in read if header[0] == 0x25]
    if data != [bytes(1024) + b"\x55" * 1024, b"\x11" * 256 + b"\x44" * 768 + bytes(1024)]:
        raise Failed("the plain run is not read as it was written")


class Resets:
    """The runs in which each call of one kind fails in turn."""

    def __init__(self, program, shim):
        self.program, self.shim = program, shim

    def each(self, **settings):
        """Lets each call fail, and gives how many there are. Each initiator is closed in some run."""
        plain, closed = run(SCRIPT, self.program, self.shim), set()
        check_plain(plain)

        @cache
        def left(c, part):
            return run(SCRIPT, self.program, self.shim, leaving=(c, part))

        def checked(number):
            ended = run(SCRIPT, self.program, self.shim, number=number, **settings)
            check(plain, ended, left)
            closed.update(() if ended.status else ended.closed)
            return ended.failures

        calls = each_call(checked)
        if len(closed) < SCRIPT.initiators:
            raise Failed("there is an initiator that no run closed")
        return calls


SWEEPS = [("each allocation fails", lambda r: r.each(call="allocation", error=errno.ENOMEM))]
