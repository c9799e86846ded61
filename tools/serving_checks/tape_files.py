"""A tape in a file, over sockets: it is the same after the program has ended, however it ended, and a file that is no
tape of its capacity is told before the program listens."""

import signal
import struct
import tempfile
from contextlib import contextmanager
from pathlib import Path

from serving_checks.loopback import LIMIT, answer_of, connect, ended, is_answered, serving, started
from wire import notation, pdu

UNITS = ('[[target]]\nname = "t1"\n[[target.unit]]\nlun = 0\nkind = "tape"\nserial = "T0"\n'
         'file = "{file}"\ncapacity = {capacity}\nearly = {capacity}\n')
CAPACITY = 10_000_000
FAULT = (3, "", "targetd: device fault at t1 unit 0\n")
GOOD = (b"", 0, b"")
READY, REWIND, TO_THE_END, ERASE = "000000000000", "010000000000", "110300000000", "190000000000"


def item(data=b""):
    """A record of these bytes, or a filemark, as the file has it."""
    length = struct.pack(">I", len(data))
    return length + data + length


def sense(key, code, information=None, bits=0):
    """CHECK CONDITION with this sense data and no data: FILEMARK 80h, EOM 40h, ILI 20h."""
    told = bytearray(pdu.sense_data(key, code))
    told[4] |= bits
    if information is not None:
        told[2] |= 0x80
        told[5:9] = struct.pack(">I", information & 0xFFFFFFFF)
    return b"", 2, bytes(told)


END_OF_DATA = 0x0005
UNREAD, UNWRITTEN, FAILED = sense(0x03, 0x1100), sense(0x03, 0x0C00), sense(0x04, 0x4400)


@contextmanager
def tape_file(content=b"", capacity=CAPACITY):
    """A tape with these bytes: its file, and the units of a configuration that has it."""
    with tempfile.TemporaryDirectory() as folder:
        path = Path(folder) / "tape"
        path.write_bytes(content)
        yield path, UNITS.format(file=path, capacity=capacity)


class Tape:
    """An initiator at a tape, whose attention it has met."""

    def __init__(self, client, connection=0):
        assert is_answered(client, 1, connection)
        self.client, self.number = client, 124

    def told(self, cdb, data=b"", asked=0):
        """What a command is answered: its data, its status, its sense data."""
        self.number += 1
        direction = "W" if data else "R" if asked else ""
        segment = f" | {data.hex()}" if data else ""
        self.client.sendall(notation.data(f"[SCSI-Command F {direction} ITT={self.number} CmdSN={self.number} "
                                          f"ExpectedDataTransferLength={len(data) or asked} CDB={cdb}{segment}]", {}))
        return answer_of(self.client)

    def read(self, length):
        return self.told(f"0800{length:06x}00", asked=length)

    def write(self, record):
        return self.told(f"0a00{len(record):06x}00", record)

    def marks(self, count):
        return self.told(f"1000{count:06x}00")

    def locate(self, number):
        return self.told(f"2b0000{number:08x}000000")


@contextmanager
def at(units):
    """The program at these units, and an initiator at its tape."""
    with serving(units=units) as (process, address), connect(address) as client:
        yield process, Tape(client)


def keeps_a_tape_in_a_file_however_the_program_ends():
    one, two, three = b"first", bytes(range(256)) * 8, b"third"
    for number in (signal.SIGTERM, signal.SIGKILL):
        with tape_file() as (path, units):
            with at(units) as (process, tape):
                assert [tape.write(one), tape.marks(1), tape.write(two), tape.marks(0)] == [GOOD] * 4
                process.send_signal(number)
                assert process.wait(LIMIT) == -number
            assert path.read_bytes() == item(one) + item() + item(two)
            with at(units) as (process, tape):
                assert tape.read(5) == (one, 0, b"")
                assert tape.read(5) == sense(0, 0x0001, 5, 0x80)
                assert tape.read(2048) == (two, 0, b"")
                assert tape.read(5) == sense(8, END_OF_DATA, 5)
                assert [tape.locate(1), tape.write(three), tape.marks(2)] == [GOOD] * 3
                process.send_signal(number)
                assert process.wait(LIMIT) == -number
            assert path.read_bytes() == item(one) + item(three) + item() * 2
            with at(units) as (_, tape):
                assert tape.told(TO_THE_END) == GOOD
                assert tape.read(5) == sense(8, END_OF_DATA, 5)
                assert [tape.locate(1), tape.told(ERASE)] == [GOOD] * 2
                assert path.read_bytes() == item(one)


def tells_a_tape_that_is_cut_at_any_byte_of_its_last_three_items():
    items = [item(b"ab"), item(b"record"), item(), item(b"the last")]
    content = b"".join(items)
    whole = {len(b"".join(items[:count])) for count in range(len(items) + 1)}
    for length in range(len(items[0]), len(content) + 1):
        with tape_file(content[:length]) as (path, units):
            with started("127.0.0.1:0", "--turns", "0", units=units) as process:
                status, out, err = ended(process)
                if length in whole:
                    assert (status, err) == (0, "") and out.startswith("listening on "), f"cut to {length} bytes"
                else:
                    assert (status, out, err) == FAULT, f"cut to {length} bytes"
            assert path.read_bytes() == content[:length], f"cut to {length} bytes"


def tells_a_tape_that_is_longer_than_its_capacity():
    content = item(b"ab") + item()
    for capacity in (len(content) - 1, len(content)):
        with tape_file(content, capacity) as (path, units):
            with started("127.0.0.1:0", "--turns", "0", units=units) as process:
                assert (ended(process) == FAULT) == (capacity < len(content)), capacity
            assert path.read_bytes() == content


def tells_a_tape_whose_file_was_cut_and_goes_on():
    with tape_file(item(b"one") + item(b"two")) as (path, units), at(units) as (_, tape):
        with path.open("r+b") as file:
            file.truncate(len(item(b"one")) + 4)
        assert [tape.read(3), tape.read(3), tape.read(3)] == [(b"one", 0, b""), UNREAD, UNREAD]
        assert [tape.told(READY), tape.told(REWIND), tape.read(3)] == [GOOD, GOOD, (b"one", 0, b"")]


def is_out_of_use_once_a_write_has_failed():
    # Each write to this device fails; it tells a length of 0, so it is an empty tape.
    with at(UNITS.format(file="/dev/full", capacity=CAPACITY)) as (_, tape):
        assert [tape.told(READY), tape.write(b"lost")] == [GOOD, UNWRITTEN]
        assert [tape.told(READY), tape.write(b"lost"), tape.told(REWIND), tape.read(4)] == [FAILED] * 4


def has_no_file_for_a_tape_and_another_unit():
    with tape_file(bytes(4096)) as (path, units):
        other = path.with_name("other")
        other.symlink_to(path)
        for second in ('kind = "disk"', 'kind = "tape"\ncapacity = 4096\nearly = 0'):
            unit = f'[[target.unit]]\nlun = 7\nserial = "S7"\nfile = "{other}"\n{second}\n'
            with started("127.0.0.1:0", units=units + unit) as process:
                assert ended(process) == (3, "", "targetd: device fault at t1 unit 7\n"), second


CHECKS = [
    keeps_a_tape_in_a_file_however_the_program_ends,
    tells_a_tape_that_is_cut_at_any_byte_of_its_last_three_items,
    tells_a_tape_that_is_longer_than_its_capacity,
    tells_a_tape_whose_file_was_cut_and_goes_on,
    is_out_of_use_once_a_write_has_failed,
    has_no_file_for_a_tape_and_another_unit,
]
