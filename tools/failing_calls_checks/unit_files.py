"""A disk and a tape in files on `targetd replay`, while a call on one of the files is interrupted, moves a part or fails.

The shim reports every call on a file, with its offset, its bytes and its result. A call that a signal interrupts is made again
as it was, and one that moves a part is followed by one of the rest, at its offset. Nothing else differs from the plain run: not
the other calls, the answers or the files. A call that fails ends its command, and is not made again. After a failed read, all
is as with a TEST UNIT READY in the place of its command. After a failed write, cut or sync no call is made on that file, its
unit answers 04/4400 alone, and the other unit is as ever.
"""

import errno
import os
import tempfile
from functools import cache, partial
from pathlib import Path
from typing import NamedTuple

from failing_calls_checks.blocks import DATA_IN, NOT_READY, READ_FAILED, WRITE_FAILED, answer, sense
from failing_calls_checks.memory import FILEMARK, LOCATE, LOGIN, REWIND, refused
from failing_calls_checks.serve import Failed
from failing_calls_checks.stores import CONFIG
from replay.program import at_once
from replay.transcript import Run, Step
from wire import notation, pdu

DISK, TAPE = range(2)  # also the LUNs
READY = "000000000000"
KINDS = ("seek", "read", "write", "cut", "sync")
MOVING = ("read", "write")
MANY = 1 << 40  # parts, of which each has one byte
INTERRUPTED, FAULT = -errno.EINTR, -errno.EIO
GOOD = (0, b"")  # how a run ends: its status, and what it says on standard error
COMMAND = "[SCSI-Command F {} LUN={} ITT={} CmdSN={} ExpectedDataTransferLength={} CDB={}]"


class Part(NamedTuple):
    """A command: its unit and CDB, the data that it writes, in the notation of cases, and the number of bytes that it reads."""
    unit: int
    cdb: str
    writes: str = ""
    reads: int = 0

    def sent(self, number):
        """Gives the PDU, as the command of this number."""
        count = len(notation.data(self.writes, {})) or self.reads
        flags, data = "W" * bool(self.writes) + "R" * bool(self.reads), f" | {self.writes}" * bool(self.writes)
        return COMMAND.format(flags, self.unit, number, number, count, self.cdb + data)


# What is sent after a login, each the command of its number: each is answered by one line.
PARTS = (
    Part(DISK, READY), Part(TAPE, READY),
    Part(DISK, "28000000000300000200", reads=1024),
    Part(DISK, "2a000000000800000300", "a1*1536"),
    Part(DISK, "2a080000001400000100", "b2*512"),
    Part(DISK, "35000000000000000000"),
    Part(DISK, "2f020000000800000100", "a1*512"),
    Part(DISK, "89080000000000000014000000010000", "b2*512 c3*512"),
    Part(DISK, "41000000001e00000500", "d4*512"),
    Part(TAPE, "080000000200", reads=2),
    Part(TAPE, "0a0000000500", '"hello"'),
    Part(TAPE, "100000000200"),
    Part(TAPE, "0a0000000400", '"four"'),
    Part(TAPE, "100000000000"),
    Part(TAPE, LOCATE.format(3)),
    Part(TAPE, FILEMARK),
    Part(TAPE, LOCATE.format(1)),
    Part(TAPE, "080000000500", reads=5),
    Part(TAPE, "190000000000"),
    Part(TAPE, REWIND),
    Part(TAPE, "080000000200", reads=2),
    Part(TAPE, "080000000500", reads=5),
    Part(DISK, "28000000001400000100", reads=512),
    Part(DISK, READY), Part(TAPE, READY),
)


def item(data):
    """Gives an item of a tape, as it stands in the file."""
    length = len(data).to_bytes(4, "big")
    return length + data + length


# What the files hold at first, and in the end.
BEFORE = (b"".join(bytes([n]) * 512 for n in range(64)), item(b"ab") + item(b"") + item(b"xyz"))
AFTER = (BEFORE[DISK][:8 * 512] + b"\xa1" * 1536 + BEFORE[DISK][11 * 512:20 * 512] + b"\xc3" * 512
         + BEFORE[DISK][21 * 512:30 * 512] + b"\xd4" * 2560 + BEFORE[DISK][35 * 512:], item(b"ab") + item(b"hello"))
# What the plain run is answered: what is not GOOD, and the data.
REFUSED = ["02/06/2900", "02/06/2900"]
GIVEN = [b"\3" * 512 + b"\4" * 512, b"ab", b"hello", b"ab", b"hello", b"\xc3" * 512]


class Call(NamedTuple):
    """A call on a file, with the number of bytes that it returned, or its errno below 0."""
    kind: str
    file: int
    at: int
    count: int
    result: int


class Seen(NamedTuple):
    """What a run shows: the calls on the files, the lines of output after that of the login, what the files held in the end,
    and the status of the program with its standard error."""
    calls: list
    lines: list
    held: tuple
    end: tuple


def calls_of(text):
    """Reads the calls that were reported. The file of the first is the disk's."""
    told = [line.split() for line in text.splitlines()]
    order = list(dict.fromkeys(descriptor for _, descriptor, *_ in told))
    return [Call(kind, order.index(descriptor), *map(int, rest)) for kind, descriptor, *rest in told]


def run(program, shim, parts, **settings):
    """Runs these parts, in which calls on the files fail as the settings say."""
    lines = [LOGIN.format("a"), *(part.sent(n) for n, part in enumerate(parts, 1))]
    steps = [Step(0, b"open 0\n")] + [Step(0, f"bytes 0 {notation.data(line, {}).hex()}\n".encode()) for line in lines]
    with tempfile.TemporaryDirectory() as folder, tempfile.TemporaryFile() as trace:
        paths = [Path(folder) / name for name in ("disk", "tape")]
        config = CONFIG
        for path, content in zip(paths, BEFORE):
            path.write_bytes(content)
            config = config.replace(b'file = "%s"' % path.name.encode(), b'file = "%s"' % bytes(path))
        chosen = {f"FAIL_{name.upper()}": str(value) for name, value in settings.items()}
        inherited = {**os.environ, "LD_PRELOAD": str(shim), "FAIL_CALL": "unit", **chosen, "FAIL_TRACE": str(trace.fileno())}
        ended = at_once(program, Run(words=["replay", "--config", "config.toml"], files={"config.toml": config}, steps=steps),
                        None, env=inherited, pass_fds=[trace.fileno()])
        trace.seek(0)
        return Seen(calls_of(trace.read().decode()), ended.stdout.splitlines()[1:],
                    tuple(path.read_bytes() for path in paths), (ended.status, ended.stderr))


def made(call, *results):
    """Gives the calls with these results that take the place of one, each of the bytes that those before it left."""
    calls = []
    for result in results:
        calls.append(call._replace(result=result))
        call = call._replace(at=call.at + max(0, result), count=call.count - max(0, result))
    return calls


def check(name, found, wanted):
    """Fails at the first place where two lists differ."""
    if found != wanted:
        place = next((n for n, (one, other) in enumerate(zip(found, wanted)) if one != other), min(len(found), len(wanted)))
        one, other = found[place:place + 1], wanted[place:place + 1]
        raise Failed(f"{name} {place} of {len(found)} is {one}, and must be {other}, of {len(wanted)}")


def check_answered(seen):
    """Checks that each part is answered by a PDU."""
    if len(seen.lines) != len(PARTS) or any(line.endswith(b"closed") for line in seen.lines):
        raise Failed(f"it ended with {seen.end}, and {len(seen.lines)} lines")


class Files:
    """The runs of the parts, in which one call on a file does not do all."""

    def __init__(self, program, shim):
        self.seen = partial(run, program, shim)
        self.fronts = [self.seen(PARTS[:count]) for count in range(len(PARTS) + 1)]  # the last is the plain run
        self.without = cache(self.without)

    def check_plain(self):
        """Checks the plain run, and that the run of each front makes the first of its calls."""
        plain = self.fronts[-1]
        check_answered(plain)
        answered = b"".join(map(answer, plain.lines))
        given = [segment for header, _, segment in pdu.cut(answered)[0] if header[0] == DATA_IN]
        if (plain.end, plain.held, refused(answered), given) != (GOOD, AFTER, REFUSED, GIVEN):
            raise Failed(f"the plain run ends with {plain.end}, is refused {refused(answered)}, and gives {given}")
        if {call.kind for call in plain.calls} != set(KINDS) or any(call.result < call.count for call in plain.calls):
            raise Failed("the plain run has not all kinds of calls, each of which does all")
        for front in self.fronts:
            check("call", front.calls, plain.calls[:len(front.calls)])

    def without(self, place):
        """Gives what a run shows that has a TEST UNIT READY in the place of a part."""
        return self.seen((*PARTS[:place], Part(PARTS[place].unit, READY), *PARTS[place + 1:]))

    def is_unchanged(self, seen, number, calls):
        """Checks that a run differs from the plain one in these calls alone, which stand in the place of one."""
        plain = self.fronts[-1]
        check("call", seen.calls, plain.calls[:number] + calls + plain.calls[number + 1:])
        check("answer", seen.lines, plain.lines)
        if (seen.held, seen.end) != (AFTER, GOOD):
            raise Failed(f"the files are not as without, or it ended with {seen.end}")

    def interrupted(self, number, call, times):
        """Interrupts a call some times: nothing else changes."""
        seen = self.seen(PARTS, number=number + 1, error=errno.EINTR, times=times)
        self.is_unchanged(seen, number, made(call, *[INTERRUPTED] * times, call.result))

    def in_part(self, number, call, part, *interruptions):
        """Lets a call move a part of its bytes, and perhaps interrupts the next one: the rest is moved."""
        moved = max(1, call.count // part)
        seen = self.seen(PARTS, number=number + 1, part=part, error=errno.EINTR, times=len(interruptions))
        self.is_unchanged(seen, number, made(call, moved, *interruptions, call.count - moved))

    def failed_in_part(self, number, call):
        """Lets a call move half of its bytes, and the next one fail."""
        self.failed(number, call, call.count // 2, -errno.EIO, part=2, error=errno.EIO, times=1)

    def failed(self, number, call, *results, **settings):
        """Lets a call and its repetitions have these results, of which the last is a failure: it is reported."""
        seen = self.seen(PARTS, number=number + 1, **settings)
        calls = self.fronts[-1].calls[:number] + made(call, *results)
        place = next(n for n, front in enumerate(self.fronts) if len(front.calls) > number) - 1
        if place >= 0:
            check_answered(seen)
        if place < 0:
            self.is_refused(seen, call, calls)
        elif call.kind == "read":
            self.is_unread(seen, place, calls)
        else:
            self.is_unwritten(seen, place, call, calls)

    def is_refused(self, seen, call, calls):
        """Checks a run in which a call failed as a file was opened: the program ends, and no file is changed."""
        check("call", seen.calls, calls)
        told = (3, b"targetd: device fault at t1 unit %d\n" % call.file)
        if (seen.end, seen.held, seen.lines) != (told, BEFORE, []):
            raise Failed(f"it ended with {seen.end} and {len(seen.lines)} answers, or changed a file")

    def is_unread(self, seen, place, calls):
        """Checks that a part whose read failed reports it, and that all else is as if it had read nothing."""
        other = self.without(place)
        check("call", seen.calls, calls + other.calls[len(self.fronts[place].calls):])
        check("answer", seen.lines[:place] + seen.lines[place + 1:], other.lines[:place] + other.lines[place + 1:])
        if (sense(seen.lines[place]), seen.held, seen.end) != (READ_FAILED, other.held, GOOD):
            raise Failed(f"part {place} reports {sense(seen.lines[place])}, a file is changed, or it ended with {seen.end}")

    def is_unwritten(self, seen, place, call, calls):
        """Checks that a part whose write, cut or sync failed reports it, and that its unit is not ready from then on."""
        plain, later = self.fronts[-1], range(place + 1, len(PARTS))
        check("call", seen.calls,
              calls + [one for one in plain.calls[len(self.fronts[place + 1].calls):] if one.file != call.file])
        check("answer", seen.lines[:place], plain.lines[:place])
        if sense(seen.lines[place]) != WRITE_FAILED or seen.end != GOOD:
            raise Failed(f"part {place} reports {sense(seen.lines[place])}, and it ended with {seen.end}")
        check("answer of its unit", [sense(seen.lines[n]) for n in later if PARTS[n].unit == call.file],
              [NOT_READY for n in later if PARTS[n].unit == call.file])
        check("answer of the other unit", [seen.lines[n] for n in later if PARTS[n].unit != call.file],
              [plain.lines[n] for n in later if PARTS[n].unit != call.file])
        left = [self.left(place, calls) if unit == call.file else AFTER[unit] for unit in (DISK, TAPE)]
        if seen.held != tuple(left):
            raise Failed(f"part {place} leaves its file as it must not, or the other one")

    def left(self, place, calls):
        """Gives what these calls leave of the file of a part. What each wrote is what stands there if the part succeeds."""
        unit = PARTS[place].unit
        content, whole = self.fronts[place].held[unit], self.fronts[place + 1].held[unit]
        for call in calls[len(self.fronts[place].calls):]:
            if call.kind == "cut" and not call.result:
                content = content[:call.at]
            elif call.kind == "write" and call.result > 0:
                end = call.at + call.result
                content = content[:call.at] + whole[call.at:end] + content[end:]
        return content

    def each(self, kind, one, words, settings):
        """Checks a run for each call of a kind, and gives their number."""
        self.check_plain()
        calls = [(number, call) for number, call in enumerate(self.fronts[-1].calls) if call.kind == kind]
        for number, call in calls:
            try:
                one(self, number, call, *words, **settings)
            except Failed as fault:
                raise Failed(f"call {number + 1}, {call}: {fault}") from None
        return f"{len(calls)} calls"


# What happens to each call of some kinds, in words, and how it is checked: the kinds, the method, its words and settings.
WAYS = (
    ("is interrupted once", KINDS, Files.interrupted, (1,), {}),
    ("is interrupted 3 times", KINDS, Files.interrupted, (3,), {}),
    ("is interrupted 20 times", KINDS, Files.interrupted, (20,), {}),
    ("fails", KINDS, Files.failed, (FAULT,), {"error": errno.EIO}),
    ("is interrupted, and then fails", KINDS, Files.failed, (INTERRUPTED, FAULT), {"error": errno.EINTR, "then": errno.EIO}),
    ("finds no space", ("write",), Files.failed, (-errno.ENOSPC,), {"error": errno.ENOSPC}),
    ("moves half", MOVING, Files.in_part, (2,), {}),
    ("moves one byte", MOVING, Files.in_part, (MANY,), {}),
    ("moves half, and the next one is interrupted", MOVING, Files.in_part, (2, INTERRUPTED), {}),
    ("moves half, and the next one fails", MOVING, Files.failed_in_part, (), {}),
    ("moves nothing", MOVING, Files.failed, (0,), {"error": 0}),
)
SWEEPS = [(f"each {kind} {title}", partial(Files.each, kind=kind, one=one, words=words, settings=settings))
          for title, kinds, one, words, settings in WAYS for kind in kinds]
