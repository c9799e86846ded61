"""The two initiators of memory.py on `targetd replay`, whose disk and tape are files: from some call on, each call on
these fails.

Whatever call that is, the program goes on to the end. The first answer that is not that of the plain run tells of a failed
read or write, sense key 03h, and comes no earlier as the number of the call rises.
"""

import errno

from failing_calls_checks.memory import PARTS
from failing_calls_checks.serve import LENGTH, Failed, each_call
from failing_calls_checks.sweep import Sweep
from replay.transcript import Run, Step
from wire import notation, pdu

CONFIG = b"""listen = "127.0.0.1:0"
[[target]]
name = "t1"
[[target.unit]]
lun = 0
kind = "disk"
serial = "D0"
file = "disk"
[[target.unit]]
lun = 1
kind = "tape"
serial = "T1"
file = "tape"
capacity = 100000
early = 90000
"""
FAILED = ((3, 0x1100), (3, 0x0C00))  # a read, a write
RESPONSE = 0x21  # the opcode of a SCSI Response


def run():
    """What the program is given."""
    lines = [b"open 0\n", b"open 1\n"]
    lines += [f"bytes {c} {notation.data(text, {}).hex()}\n".encode() for c, text in PARTS]
    return Run(words=["replay", "--config", "config.toml"], steps=[Step(0, line) for line in lines],
               files={"config.toml": CONFIG, "disk": bytes(LENGTH), "tape": b""})


def answers(out):
    """Each PDU that is printed, in order, with its connection."""
    return [(c, header, segment) for c, text in (line.split() for line in out.splitlines()) if text != b"closed"
            for header, _, segment in pdu.cut(bytes.fromhex(text.decode()))[0]]


def sense_of(answer):
    """The sense key and code of a SCSI Response with sense data."""
    _, header, segment = answer
    return (segment[4] & 15, int.from_bytes(segment[14:16], "big")) if header[0] == RESPONSE and segment else None


def first_other(plain, found):
    """The place of the first answer that is not that of the plain run."""
    return next((n for n, (one, wanted) in enumerate(zip(found, plain)) if one != wanted), min(len(plain), len(found)))


class Stores:
    """The runs in which the calls on files fail from each one on."""

    def __init__(self, program, shim):
        self.sweep = Sweep(program, shim, run())
        self.plain = answers(self.sweep.plain.stdout)

    def check(self, ended):
        """Looks at one run, and gives the place of its first answer of its own."""
        if ended.status or ended.stderr:
            raise Failed(f"status {ended.status}, {ended.stderr!r}")
        found = answers(ended.stdout)
        place = first_other(self.plain, found)
        if place < len(found) and sense_of(found[place]) not in FAILED:
            raise Failed(f"answer {place} is {found[place][1].hex()}, {sense_of(found[place])}")
        return place

    def each(self, **settings):
        """Lets the calls fail from each one on, and gives how many there are."""
        if any(sense_of(answer) in FAILED for answer in self.plain):
            raise Failed("the plain run tells of a failed call")
        places = {}

        def checked(number):
            ended, failures = self.sweep.ended(number=number, **settings)
            places[number] = self.check(ended)
            return failures

        calls = each_call(checked)
        found = [place for _, place in sorted(places.items())]
        if found != sorted(found) or found[0] == len(self.plain):
            raise Failed("a later call is told by an earlier answer")
        return calls


SWEEPS = [("the calls on the files fail from each one on",
           lambda s: s.each(call="store", error=errno.EIO, on=1))]
