"""A host that logs in and writes, and logs in again if its connection ends, as initiators do."""

import socket
import struct
import threading
import time

from wire import notation, pdu

PORT, BLOCK = 3260, 512
LIMIT = 120  # seconds that a write may take, with every login that it needs
READY = "000000000000"
TARGET = "iqn.2024-01.com.example:disk"


class Gone(Exception):
    """The connection has ended."""


def taken(client, count):
    """So many bytes."""
    data = b""
    while len(data) < count:
        piece = client.recv(count - len(data))
        if not piece:
            raise Gone
        data += piece
    return data


class Session:
    """A session with the target of the example."""

    def __init__(self, name="h"):
        self.client = socket.create_connection(("127.0.0.1", PORT), LIMIT)
        self.client.sendall(notation.data(f'[Login-Request I T CSG=1 NSG=3 ISID=1 ITT=1 CmdSN=1 | "InitiatorName={name}" 00 '
                                          f'"TargetName={TARGET}" 00]', {}))
        header = self.header()[0]
        assert header[0] == 0x23 and header[36:38] == b"\0\0", header.hex()
        self.number = 0

    def header(self):
        """The header and the data of the next PDU."""
        header = taken(self.client, pdu.HEADER)
        length = int.from_bytes(header[5:8], "big")
        return header, taken(self.client, length + pdu.padding(length))[:length]

    def told(self, lun, cdb, data=b"", asked=0):
        """What a command is answered: its data and its status."""
        self.number += 1
        front, rest = data[:8192], data[8192:]
        self.client.sendall(notation.data(
            f"[SCSI-Command F {'W' if data else 'R' if asked else ''} ITT={self.number} CmdSN={self.number} LUN={lun} "
            f"ExpectedDataTransferLength={len(data) or asked} CDB={cdb} DataSegmentLength={len(front)}]", {}) + front)
        found = b""
        while True:
            header, segment = self.header()
            if header[0] == 0x21:
                return found, header[3]
            if header[0] == 0x31:
                self.send(header, rest, len(front))
            else:
                found += segment

    def send(self, asked, rest, first):
        """Sends the data for which an R2T asks."""
        at, length = struct.unpack(">II", asked[40:48])
        piece = rest[at - first:at - first + length]
        self.client.sendall(notation.data(f"[Data-Out F ITT={self.number} TTT={int.from_bytes(asked[20:24], 'big')} "
                                          f"BufferOffset={at} DataSegmentLength={length}]", {}) + piece)

    def settle(self, lun):
        """Meets the attentions of a unit."""
        while self.told(lun, READY)[1]:
            pass
        return self


class Writer(threading.Thread):
    """Writes a block after the other to the disk of LUN 0, each again until it is answered."""

    def __init__(self, blocks):
        super().__init__(daemon=True)
        self.blocks, self.session = blocks, None
        self.answered, self.logins, self.fault, self.is_over = {}, 0, None, threading.Event()

    def content(self, number):
        """What write N has."""
        return struct.pack(">Q", number) * (BLOCK // 8)

    def write(self, number):
        """Makes a write, by as many logins as it takes."""
        until = time.monotonic() + LIMIT
        while True:
            try:
                if self.session is None:
                    self.session = Session().settle(0)
                    self.logins += 1
                status = self.session.told(0, f"2a00{number % self.blocks:08x}00000100", self.content(number))[1]
                assert status == 0, f"write {number} is answered {status}"
                return
            except (OSError, Gone) as error:
                self.session = None
                assert time.monotonic() < until, f"write {number}: {error!r}"
                time.sleep(0.02)

    def run(self):
        try:
            number = 1
            while not self.is_over.is_set():
                self.write(number)
                self.answered[number % self.blocks] = number
                number += 1
        except AssertionError as fault:
            self.fault = fault

    def has_written(self, count):
        """Waits until so many more writes are answered."""
        until, wanted = time.monotonic() + LIMIT, self.last() + count
        while self.last() < wanted:
            assert self.fault is None and time.monotonic() < until, self.fault or "no write is answered"
            time.sleep(0.01)

    def last(self):
        """The number of the last write that was answered."""
        return max(dict(self.answered).values(), default=0)

    def close(self):
        """Ends it."""
        self.is_over.set()
        self.join(LIMIT)
        assert self.fault is None, self.fault

    def check(self, disk):
        """Each block of the disk has the last write that was answered, or one after it that was not."""
        with open(disk, "rb") as file:
            for block, number in self.answered.items():
                file.seek(block * BLOCK)
                found = file.read(BLOCK)
                assert found in (self.content(number), self.content(number + self.blocks)), (block, number, found[:16])
