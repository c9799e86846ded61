"""Fixed blocks of a tape in a file, on `targetd replay`, while a call of the program fails.

The block length is set, blocks are written, two of them read, others written in their place, and all are read. A READ whose
store fails, also half way, gives nothing and leaves the position: what else is answered is as with a TEST UNIT READY in its
place. Behind a WRITE whose store fails there is nothing but 04/4400, and the tape has what was before its position. Where an
allocation fails the program ends, and the tape is as those parts leave it that were answered, or one more.
"""

import errno
import tempfile
from functools import cache
from pathlib import Path

from failing_calls_checks.memory import BLOCKS_WRITE, FILEMARK, LOCATE, LOGIN, READY, REWIND, SELECT, TAPE, TAPE_READ, refused
from failing_calls_checks.serve import Failed
from failing_calls_checks.stores import CONFIG, first_other, sense_of
from failing_calls_checks.sweep import Sweep, out_of_memory
from replay.transcript import Run, Step
from wire import notation, pdu

POSITION = "[SCSI-Command F R LUN=1 ITT={} CmdSN={} ExpectedDataTransferLength=20 CDB=34000000000000000000]"
READ_FAILED, WRITE_FAILED, NOT_READY = (3, 0x1100), (3, 0x0C00), (4, 0x4400)
PIECE = 30  # the bytes of a call: a command with several blocks makes more than one
DATA_IN = 0x25  # an opcode

# What is sent: each part is answered by one line.
PARTS = (
    LOGIN.format("a"), READY.format(1, 1, 1), SELECT.format(2, 2),
    BLOCKS_WRITE.format(3, 3, 60, 3, "aa*20 bb*20 cc*20"),
    TAPE.format(4, 4, LOCATE.format(1)), TAPE_READ.format(5, 5, 40, 1, 2), POSITION.format(6, 6),
    TAPE.format(7, 7, LOCATE.format(1)), BLOCKS_WRITE.format(8, 8, 40, 2, "dd*20 ee*20"), TAPE.format(9, 9, FILEMARK),
    TAPE.format(10, 10, REWIND), TAPE_READ.format(11, 11, 80, 1, 4), POSITION.format(12, 12),
    TAPE_READ.format(13, 13, 80, 1, 4),
)
READS = (5, 11)  # the parts that read the store
WRITES = {3: 0, 8: 28, 9: 84}  # those that write to it, each with the bytes before its position
# What the plain run is answered: what is not GOOD, and the data.
REFUSED = ["02/06/2900", "02/00/0001", "02/08/0005"]
GIVEN = [notation.data(text, {}) for text in
         ("bb*20 cc*20", "00*4 00000003 00000003 00*8", "aa*20 dd*20 ee*20", "00*4 00000004 00000004 00*8")]


def answer(line):
    """The bytes that a line of output has."""
    return bytes.fromhex(line.split()[1].decode())


def sense(line):
    """The sense key and code of a line that is one SCSI Response."""
    found = [(0, header, segment) for header, _, segment in pdu.cut(answer(line))[0]]
    return sense_of(found[0]) if len(found) == 1 else None


def in_place_of(place):
    """The parts, with a TEST UNIT READY in the place of one."""
    return tuple(part if n != place else READY.format(1, n, n) for n, part in enumerate(PARTS))


class Blocks(Sweep):
    """The runs of some parts, whose tape can be looked at after each."""

    def __init__(self, program, shim, parts=PARTS):
        self.folder = tempfile.TemporaryDirectory()
        self.tape = Path(self.folder.name) / "tape"
        self.tape.write_bytes(b"")
        config = CONFIG.replace(b'file = "disk"', b"blocks = 8").replace(b'"tape"\nc', b'"%s"\nc' % bytes(self.tape))
        lines = [b"open 0\n", *(f"bytes 0 {notation.data(part, {}).hex()}\n".encode() for part in parts)]
        super().__init__(program, shim, Run(words=["replay", "--config", "config.toml"], files={"config.toml": config},
                                            steps=[Step(0, line) for line in lines]))
        self.lines, self.written = self.plain.stdout.splitlines(), self.tape.read_bytes()
        self.of = cache(lambda others: Blocks(program, shim, others))

    def ended(self, **settings):
        self.tape.write_bytes(b"")
        return super().ended(**settings)

    def each(self, must, **settings):
        """Lets each call fail in turn, and gives how many there are. The plain run is answered as it must be."""
        answered = b"".join(map(answer, self.lines))
        given = [segment for header, _, segment in pdu.cut(answered)[0] if header[0] == DATA_IN]
        if len(self.lines) != len(PARTS) or refused(answered) != REFUSED or given != GIVEN:
            raise Failed(f"the plain run is refused {refused(answered)}, and gives {given}")
        return super().each(must, **settings)

    def without(self, place):
        """What is answered after a part, and the tape, if a TEST UNIT READY stands in the part's place."""
        other = self.of(in_place_of(place))
        return other.lines[place + 1:], other.written

    def failed_part(self, ended):
        """The part whose call failed, which was answered as it must be, as were all others."""
        lines = ended.stdout.splitlines()
        place = first_other(self.lines, lines)
        if ended.status or ended.stderr or len(lines) != len(PARTS) or place == len(PARTS):
            raise Failed(f"status {ended.status}, {ended.stderr!r}, {len(lines)} lines, the first other one {place}")
        told, after, tape = sense(lines[place]), lines[place + 1:], self.tape.read_bytes()
        if place in READS:
            is_right = told == READ_FAILED and (after, tape) == self.without(place)
        else:
            is_right = (told == WRITE_FAILED and {sense(line) for line in after} == {NOT_READY}
                        and tape.startswith(self.written[:WRITES[place]]))
        if not is_right:
            raise Failed(f"part {place} is told {told}, and the others {[sense(line) for line in after]}")
        return place

    def stores(self, **settings):
        """Lets each call on the store fail, and gives how many there are. Each part that reads or writes fails, and half
        way too."""
        places = []
        calls = self.each(lambda _, __, ended: places.append(self.failed_part(ended)) or True, call="store", **settings)
        if any(places.count(place) < 2 for place in (*READS, *WRITES)):
            raise Failed(f"failed are the parts {places}")
        return calls

    def is_starved(self, _, number, ended):
        """It ran out of memory, and a part that was not answered is on the tape whole or not at all."""
        count = len(ended.stdout.splitlines())
        left = {self.of(PARTS[:count + after]).written for after in (0, 1)}
        return out_of_memory(self, number, ended) and self.tape.read_bytes() in left


SWEEPS = [
    ("each call on the tape fails", lambda b: b.stores(error=errno.EIO, piece=PIECE)),
    ("calls on the tape move pieces of each size", lambda b: b.whole([1, 2, 3, 7, 28, 64], call="store")),
    ("each allocation fails", lambda b: b.each(b.is_starved, call="allocation", error=errno.ENOMEM)),
]
