"""A session that does what tools/bench_parts/ask.c does not: it leaves answers unread, and sends a part of its data."""

import socket
import struct
from pathlib import Path

from bench_parts.ends import LIMIT, settle
from wire import notation, pdu

MEBIBYTE = 1 << 20
LOGIN = notation.data('[Login-Request I T CSG=1 NSG=3 ISID=0x400000000007 ITT=16 CmdSN=1 | "InitiatorName=a" 00 '
                      '"TargetName=t1" 00 "MaxRecvDataSegmentLength=262144" 00]', {})
READY = notation.data("[TEST-UNIT-READY F I ITT=1 CmdSN=1]", {})
COMMAND = "[SCSI-Command F {} ITT=9 CmdSN={} ExpectedDataTransferLength=1048576 CDB={}000000000000080000]"
ANSWERED, SAME = MEBIBYTE + 5 * pdu.HEADER, 16  # of a READ; and after how many that the system takes whole it gives up
ESTABLISHED = "01"


def data_out(tag, order, at, data, is_last):
    """A Data-Out of the command, for the R2T of this tag."""
    return (struct.pack(">BBHI", 0x05, 0x80 if is_last else 0, 0, len(data)) + bytes(8) + struct.pack(">II", 9, tag)
            + bytes(12) + struct.pack(">II", order, at) + bytes(4) + data)


class Session:
    """A session whose answers are read when that is said."""

    def __init__(self, port):
        self.port, self.number, self.unread = port, 1, 0
        self.client = socket.create_connection(("127.0.0.1", port), LIMIT)
        for request in (LOGIN, READY):
            self.client.sendall(request)
            length = pdu.get(self.read(pdu.HEADER), pdu.COMMON["DataSegmentLength"])
            self.read(length + pdu.padding(length))

    def read(self, count):
        """So many bytes of what it is answered."""
        data = bytearray()
        while len(data) < count:
            piece = self.client.recv(count - len(data))
            if not piece:
                raise OSError("the answers end")
            data += piece
        return data

    def send(self, flag, operation):
        """Sends a command of 1 MiB at the front of the disk."""
        self.client.sendall(notation.data(COMMAND.format(flag, self.number, operation), {}))
        self.number += 1

    def ask(self):
        """Sends a READ."""
        self.send("R", "28")
        self.unread += ANSWERED

    def write(self, most):
        """Sends a WRITE and its data in Data-Outs of so many bytes at most, but for the last. How many were sent."""
        self.send("W", "2a")
        while True:
            r2t = self.read(pdu.HEADER)
            tag, at, length = struct.unpack(">I", r2t[20:24]) + struct.unpack(">II", r2t[40:48])
            for order, start in enumerate(range(at, at + length, most)):
                data = bytes(min(most, at + length - start))
                if start + len(data) == MEBIBYTE:
                    return start
                self.client.sendall(data_out(tag, order, start, data, start + len(data) == at + length))

    def read_all(self):
        """Reads all that it was answered."""
        while self.unread:
            self.read(ANSWERED)
            self.unread -= ANSWERED

    def in_the_system(self):
        """How many bytes of its answers the system has, which the server has sent (the kernel's proc_net_tcp)."""
        count = 0
        for line in Path("/proc/net/tcp").read_text(encoding="ascii").splitlines()[1:]:
            _, here, there, state, queues, *_ = line.split()
            if state == ESTABLISHED:
                untaken, unread = (int(queue, 16) for queue in queues.split(":"))
                count += untaken if int(here.rpartition(":")[2], 16) == self.port else 0
                count += unread if int(there.rpartition(":")[2], 16) == self.port else 0
        return count

    def wait(self, pid):
        """Sends READs and reads none of their answers, until one waits in the server, at least in part."""
        for _ in range(SAME):
            self.ask()
            settle(pid)
            if self.in_the_system() < self.unread:
                return
        raise OSError("the system takes every answer, whether it is read or not")
