"""Data in both directions on real sockets: READs of an initiator that takes a few bytes at a time, and that leaves in the
middle, with segments of each length; WRITEs whose data comes in Data-Outs of each length."""

import random
import socket

from serving_checks.loopback import LIMIT, READY, answer_of, connect, disk_file, is_answered, read, read_10, reset, serving
from wire import notation, pdu

BLOCK, LONGEST = 512, 2048  # bytes of a block, and blocks of a READ at most
SEGMENTS = (512, 513, 4096, 262144, 16777215)
READS = 6  # of 1 MiB: their answers are more than a system takes of a connection nobody reads from
SIPS = (1, 47, 48, 49, 1000, 2304)  # bytes that are taken at a time
FIRST = 124  # the CmdSN after that of READY
PARTS = ((1, 2048), (511, 8192), (512, 8192), (513, 8192), (4095, 65536), (4096, 65536), (4096, 20480), (8192, 262144),
         (65536, 262144), (65536, 1 << 20), (262144, 1 << 20))  # bytes of a Data-Out at most, and of the WRITE


def logged_in(client, segment):
    """A client whose session has begun, and whose segments may be so long."""
    client.sendall(notation.data(f'[Login-Request I T CSG=1 NSG=3 ISID={segment} ITT=1 CmdSN=123 | "InitiatorName=a" 00 '
                                 f'"TargetName=t1" 00 "MaxRecvDataSegmentLength={segment}" 00]', {}) + READY)
    assert len(read(client, 104 + 68)) == 104 + 68
    return client


def narrow(address):
    """A client that the system takes as little for as it can."""
    client = socket.socket(socket.AF_INET)
    client.setsockopt(socket.SOL_SOCKET, socket.SO_RCVBUF, 1)
    client.settimeout(LIMIT)
    client.connect(address)
    return client


def sipped(client, count, sips):
    """So many bytes, of which a few are taken at a time."""
    data = bytearray()
    while len(data) < count:
        piece = client.recv(min(next(sips), count - len(data)))
        assert piece, f"the answers end after {len(data)} of {count} bytes"
        data += piece
    return bytes(data)


def data_of(client, segment, sips):
    """The data of a READ, which comes in segments that are no longer than they may be, and after which it is GOOD."""
    data = bytearray()
    while True:
        header = sipped(client, pdu.HEADER, sips)
        length = pdu.get(header, pdu.COMMON["DataSegmentLength"])
        if header[0] == 0x21:
            assert header[1:4] == b"\x80\0\0", header.hex()
            return bytes(data)
        at = pdu.get(header, pdu.LAYOUTS["Data-In"][2]["BufferOffset"])
        assert header[0] == 0x25 and at == len(data) and length <= segment, header.hex()
        data += sipped(client, length + pdu.padding(length), sips)[:length]


def one_by_one():
    while True:
        yield 1


def at_random(chance):
    while True:
        yield chance.choice(SIPS)


def reads_the_same_bytes_however_few_are_taken_at_a_time():
    chance = random.Random(31)
    content = chance.randbytes(BLOCK * 2 * LONGEST)
    with disk_file(content) as (_, units), serving(units=units) as (_, address):
        for segment in SEGMENTS:
            with logged_in(narrow(address), segment) as client:
                client.sendall(b"".join(read_10(FIRST + n, 256 * n, LONGEST) for n in range(READS)))
                for n in range(READS):
                    wanted = content[BLOCK * 256 * n:][:BLOCK * LONGEST]
                    found = data_of(client, segment, at_random(chance) if n else one_by_one())
                    assert found == wanted, f"READ {n} with a segment of {segment} bytes"


def ends_only_the_session_that_leaves_in_the_middle_of_its_data():
    content = random.Random(32).randbytes(BLOCK * LONGEST)
    with disk_file(content) as (_, units), serving(units=units) as (_, address), connect(address) as other:
        assert is_answered(other, 1, 0)
        for number, taken in enumerate((0, 1, 47, 48, 49, 4144, 262144, 1 << 20, 3 << 20)):
            for end in (socket.socket.close, reset):
                client = logged_in(connect(address), SEGMENTS[number % len(SEGMENTS)])
                client.sendall(b"".join(read_10(FIRST + n, 0, LONGEST) for n in range(READS)))
                assert len(read(client, taken)) == taken
                end(client)
            other.sendall(read_10(125 + number, 0, LONGEST))
            assert answer_of(other) == (content, 0, b""), taken


def data_outs(number, tag, content, at, most):
    """The Data-Outs of what an R2T asks for, of so many bytes at most each."""
    starts = range(0, len(content), most)
    return b"".join(notation.data(f"[Data-Out {'F' if start == starts[-1] else ''} ITT={number} TTT={tag} DataSN={n} "
                                  f"BufferOffset={at + start} DataSegmentLength={len(part)}]", {})
                    + part + bytes(pdu.padding(len(part)))
                    for n, start in enumerate(starts) for part in [content[start:start + most]])


def is_written(client, number, first, content, most):
    """A WRITE from this block on is GOOD whose data comes in Data-Outs of so many bytes at most."""
    client.sendall(notation.data(f"[SCSI-Command F W ITT={number} CmdSN={number} "
                                 f"ExpectedDataTransferLength={len(content)} "
                                 f"CDB=2a00{first:08x}00{len(content) // BLOCK:04x}00]", {}))
    fields = pdu.LAYOUTS["R2T"][2]
    while (header := read(client, pdu.HEADER))[0] == pdu.LAYOUTS["R2T"][0]:
        at, length = (pdu.get(header, fields[name]) for name in ("BufferOffset", "DesiredDataTransferLength"))
        client.sendall(data_outs(number, pdu.get(header, fields["TTT"]), content[at:at + length], at, most))
    return header[:4] == b"\x21\x80\0\0"


def writes_data_that_comes_in_parts_of_each_length():
    chance, zeros = random.Random(33), bytes(BLOCK * LONGEST)
    with disk_file(zeros) as (path, units), serving(units=units) as (_, address):
        with connect(address) as client, connect(address) as other:
            assert is_answered(client, 1) and is_answered(other, 2)
            for number, (most, length) in enumerate(PARTS, 125):
                for one in (client, other):
                    content, held = chance.randbytes(length), path.read_bytes()
                    first = chance.randrange(LONGEST - length // BLOCK + 1)
                    at = BLOCK * first
                    assert is_written(one, number, first, content, most), most
                    assert path.read_bytes() == held[:at] + content + held[at + length:], most


CHECKS = [
    reads_the_same_bytes_however_few_are_taken_at_a_time,
    ends_only_the_session_that_leaves_in_the_middle_of_its_data,
    writes_data_that_comes_in_parts_of_each_length,
]
