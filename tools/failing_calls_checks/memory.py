"""Two initiators of the target of crates/two_initiators, which goes on if an allocation fails.

A writes 1 MiB to the disk, as its data is asked for, while B writes records to the tape and reads them back, and after them
fixed blocks. A resets the disk while B has a WRITE in flight and a command after it. Each reads what both wrote. Then A
reserves the disk and goes, and B preempts. Whatever allocation fails, one initiator is closed at the most. It was answered
the first PDUs of the plain run, and the other one is answered as in a run in which that one sends nothing from the piece on
at which it was closed, or from the next one on; and what it wrote there is to be read only if it was answered. It is
closed no earlier as the number of the allocation rises.
"""

import errno
from functools import cache
from typing import NamedTuple

from failing_calls_checks.serve import Failed, each_call
from failing_calls_checks.sweep import Sweep, is_front_of_lines
from replay.transcript import Run, Step
from wire import notation, pdu

A, B = range(2)
OUT_OF_MEMORY = 3  # the status if the program's own needs are not met

LOGIN = '[Login-Request I T CSG=1 NSG=3 ITT=16 CmdSN=1 | "InitiatorName={}" 00 "TargetName=t1" 00 "InitialR2T=No" 00]'
READY = "[TEST-UNIT-READY F LUN={} ITT={} CmdSN={}]"
BOTH_READY = "[TEST-UNIT-READY F I LUN=0 ITT=1 CmdSN=1] [TEST-UNIT-READY F I LUN=1 ITT=1 CmdSN=1]"
LARGE_WRITE = "[SCSI-Command W ITT=2 CmdSN=1 ExpectedDataTransferLength=1048576 CDB=2a000000000000080000 | 11*8192]"
DATA = "[Data-Out F ITT=2 TTT={} BufferOffset={} | {}*{}]"
WRITE = "[SCSI-Command F W ITT={} CmdSN={} ExpectedDataTransferLength=512 CDB=2a0000000bb800000100{}]"
READ = "[SCSI-Command F R ITT={} CmdSN={} ExpectedDataTransferLength=1024 CDB=2800{:08x}00000200]"
TAPE_WRITE = "[SCSI-Command F W LUN=1 ITT={} CmdSN={} ExpectedDataTransferLength={} CDB=0a000000{:02x}00 | {}]"
TAPE = "[SCSI-Command F LUN=1 ITT={} CmdSN={} CDB={}]"
TAPE_READ = "[SCSI-Command F R LUN=1 ITT={} CmdSN={} ExpectedDataTransferLength={} CDB=080{}0000{:02x}00]"
SELECT = "[SCSI-Command F W LUN=1 ITT={} CmdSN={} ExpectedDataTransferLength=12 CDB=151000000c00 | 00000008 00*6 0014]"
BLOCKS_WRITE = "[SCSI-Command F W LUN=1 ITT={} CmdSN={} ExpectedDataTransferLength={} CDB=0a010000{:02x}00 | {}]"
RESERVE = "[SCSI-Command F W ITT={} CmdSN={} ExpectedDataTransferLength=24 CDB=5f{}00000000001800 | {}]"
KEYS = "[SCSI-Command F R ITT={} CmdSN={} ExpectedDataTransferLength=16 CDB=5e000000000000001000]"
RESET = "[Task-Management-Request I Function=5 LUN=0 ITT=9 CmdSN=2 ReferencedTaskTag=0xffffffff]"
LOGOUT = "[Logout-Request Reason=0 ITT={} CmdSN={}]"
REWIND, FILEMARK, LOCATE = "010000000000", "100000000100", "2b0000{:08x}000000"
WRITTEN_AT = (15, 127, 639, 1151, 1663, 2047, 2999)  # each with the block after it: where one part of A's data ends


def disk_reads(c, number):
    """An initiator reads what was written to the disk."""
    return [(c, READ.format(number + n, number + n, at)) for n, at in enumerate(WRITTEN_AT)]


def tape_reads(c, number):
    """And what was written to the tape."""
    return [(c, READY.format(1, number, number)), (c, TAPE.format(number + 1, number + 1, REWIND))] \
        + [(c, TAPE_READ.format(number + n, number + n, 16, 2, 16)) for n in (2, 3, 4)] \
        + [(c, TAPE_READ.format(number + 5, number + 5, 80, 1, 4))]


# What is sent, in this order.
PARTS = [
    (A, LOGIN.format("a")), (B, LOGIN.format("b")), (A, BOTH_READY), (B, BOTH_READY),
    (A, LARGE_WRITE), (B, TAPE_WRITE.format(2, 1, 5, 5, "6162636465")),
    (A, DATA.format(0xFFFFFFFF, 8192, 22, 57344)), (B, TAPE_WRITE.format(3, 2, 9, 9, "001122334455667788")),
    (A, DATA.format(0, 65536, 33, 262144)), (B, TAPE.format(4, 3, FILEMARK)),
    (A, DATA.format(1, 327680, 44, 262144)), (B, TAPE.format(5, 4, REWIND)),
    (A, DATA.format(2, 589824, 55, 262144)), (B, TAPE_READ.format(6, 5, 8, 0, 8)),
    (A, DATA.format(3, 851968, 66, 196608)), (B, TAPE_READ.format(7, 6, 4, 0, 4)),
    (B, TAPE_READ.format(8, 7, 8, 0, 8)), (B, TAPE_READ.format(9, 8, 8, 0, 8)),
    (B, SELECT.format(10, 9)), (B, BLOCKS_WRITE.format(11, 10, 60, 3, "aa*20 bb*20 cc*20")),
    (B, TAPE.format(12, 11, LOCATE.format(3))), (B, TAPE_READ.format(13, 12, 80, 1, 4)),
    (B, WRITE.format(2, 13, "")), (B, READY.format(1, 3, 14)), (A, RESET), (B, DATA.format(0, 0, 77, 512)),
    (B, READY.format(0, 3, 15)), (A, READY.format(0, 3, 2)),
    *disk_reads(A, 3), *tape_reads(A, 10), *disk_reads(B, 16), *tape_reads(B, 23),
    (A, RESERVE.format(30, 16, "0000", "00*15 a1 00*8")), (A, RESERVE.format(31, 17, "0105", "00*7 a1 00*16")),
    (B, WRITE.format(30, 29, " | 88*512")), (B, READ.format(31, 30, 3000)),
    (A, WRITE.format(32, 18, " | 99*512")), (A, LOGOUT.format(33, 19)),
    (B, WRITE.format(32, 31, " | 88*512")), (B, RESERVE.format(33, 32, "0000", "00*15 b2 00*8")),
    (B, RESERVE.format(34, 33, "0405", "00*7 b2 00*7 a1 00*8")), (B, KEYS.format(35, 34)),
    (B, WRITE.format(36, 35, " | aa*512")), (B, READ.format(37, 36, 2999)),
]
# What the plain run is answered, to each initiator: the status of each SCSI Response that is not GOOD, and its sense data.
REFUSED = {
    A: ["02/06/2900", "02/06/2900", "02/06/2903", "02/06/2a01", "02/00/0001", "02/08/0005"],
    B: ["02/06/2900", "02/06/2900", "02/00/0000", "02/00/0000", "02/00/0001", "02/08/0005", "02/08/0005", "02/06/2903",
        "02/00/0001", "02/08/0005", "18", "18"],
}


class Seen(NamedTuple):
    """What a run shows: what each initiator was answered to each part, and who was starved at which part."""
    answers: list
    starved: dict

    def answered(self, c, parts=None):
        """All that an initiator was answered, or to the first parts."""
        return b"".join(told[c] for told in self.answers[:parts])


def seen(out):
    """What was printed, part by part."""
    answers, starved, told = [], {}, {A: b"", B: b""}
    for line in out.splitlines():
        if not line:
            answers.append(told)
            told = {A: b"", B: b""}
            continue
        c, text = line.split()
        if text == b"starved":
            starved[int(c)] = len(answers)
        else:
            told[int(c)] += bytes.fromhex(text.decode())
    return Seen(answers, starved)


def run_of(parts):
    """The run of the program with these parts as its input."""
    return Run(words=[], steps=[Step(0, f"{c} {data.hex()}\n".encode()) for c, data in parts])


def refused(answered):
    """The status of each SCSI Response that is not GOOD, with its sense key and code."""
    responses = [(header[3], segment) for header, _, segment in pdu.cut(answered)[0] if header[0] == 0x21 and header[3]]
    return [f"{status:02x}" + (f"/{segment[4] & 15:02x}/{segment[14:16].hex()}" if segment else "")
            for status, segment in responses]


class Memory:
    """The runs in which each allocation fails in turn."""

    def __init__(self, program, shim, parts):
        self.parts = [(c, notation.data(text, {})) for c, text in parts]
        self.sweep = Sweep(program, shim, run_of(self.parts))
        self.plain = seen(self.sweep.plain.stdout)

    @cache
    def left(self, c, part):
        """What the run shows in which one sends nothing from a part on."""
        parts = [(d, data if d != c or n < part else b"") for n, (d, data) in enumerate(self.parts)]
        return seen(Sweep(self.sweep.program, self.sweep.shim, run_of(parts)).plain.stdout)

    def check_starved(self, found, c, part):
        """One was starved at a part: it was answered a front, and the other one as if it had left."""
        answered, other = found.answered(c), found.answered(1 - c)
        if pdu.cut(answered)[1] or not self.plain.answered(c).startswith(answered):
            raise Failed(f"what {'AB'[c]} was answered is not how the plain run begins")
        before, after = (self.left(c, n).answered(1 - c) for n in (part, part + 1))
        if other not in (before, after):
            raise Failed(f"with {'AB'[c]} starved at part {part}, the other one is not answered as it must be")
        if other != before and not answered.startswith(self.plain.answered(c, part + 1)):
            raise Failed(f"what {'AB'[c]} did at part {part} is there, and was not answered")

    def check(self, ended):
        """Looks at one run, and gives who was starved, and where."""
        if ended.status == OUT_OF_MEMORY:
            if not is_front_of_lines(self.sweep, ended):
                raise Failed("what was printed is not how the plain run begins")
            return {}
        found = seen(ended.stdout)
        if ended.status or len(found.starved) > 1:
            raise Failed(f"status {ended.status}, starved: {found.starved}")
        if not found.starved and ended != self.sweep.plain:
            raise Failed("nobody is starved, and the run is not the plain run")
        for c, part in found.starved.items():
            self.check_starved(found, c, part)
        return found.starved

    def each(self, **settings):
        """Lets each allocation fail, and gives how many there are. Each initiator is starved in some run, and none at an
        earlier part than by an allocation before."""
        starved = {}

        def checked(number):
            ended, failures = self.sweep.ended(number=number, **settings)
            starved[number] = self.check(ended)
            return failures

        calls = each_call(checked)
        if {c for one in starved.values() for c in one} != {A, B}:
            raise Failed("there is an initiator that no run starved")
        parts = [part for _, one in sorted(starved.items()) for part in one.values()]
        if parts != sorted(parts):
            raise Failed("one is starved earlier by a later allocation")
        return calls


class Script(Memory):
    """The same of what is sent here."""

    def __init__(self, program, shim):
        super().__init__(program, shim, PARTS)

    def each(self, **settings):
        for c in (A, B):
            if refused(self.plain.answered(c)) != REFUSED[c]:
                raise Failed(f"{'AB'[c]} is refused {refused(self.plain.answered(c))} in the plain run")
        return super().each(**settings)


SWEEPS = [("each allocation fails", lambda m: m.each(call="allocation", error=errno.ENOMEM))]
