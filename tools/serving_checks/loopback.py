"""targetd on real sockets of loopback, and what clients send it and read of it."""

import os
import signal
import socket
import struct
import subprocess
import sys
import tempfile
import time
from contextlib import contextmanager
from pathlib import Path

from running.patience import LIMIT
from wire import notation, pdu

TOP = Path(__file__).resolve().parents[2]
PROGRAM = Path(sys.argv[1] if len(sys.argv) > 1 else TOP / "crates/targetd/out/targetd").resolve()

CONNECTIONS = 64  # as many are served at once
UNITS = '[[target]]\nname = "t1"\n[[target.unit]]\nlun = 0\nkind = "disk"\nserial = "D0"\nblocks = 8\n'

# A login of the initiator "a00" to "t1" with CmdSN 123 and two TEST UNIT READYs, and what they are
# answered on connection 0.
LOGIN = bytes.fromhex(
    "438700000000002080000000000100000000000100010000" "0000007b00000000" + "00" * 16) \
    + b"InitiatorName=a00\0TargetName=t1\0"
READY = bytes.fromhex("01810000000000000000000000000000" "00000002000000000000007b00000001" + "00" * 16)
READY_AGAIN = bytes.fromhex(
    "01810000000000000000000000000000" "00000003000000000000007c00000002" + "00" * 16)
ACCEPTED = bytes.fromhex(
    "23870000000000378000000000010001" "0000000100000000000000000000007b" "0000009a" + "00" * 12) \
    + b"TargetPortalGroupTag=1\0MaxRecvDataSegmentLength=262144\0\0"
ATTENTION = bytes.fromhex(
    "21800002000000140000000000000000" "0000000200000000000000010000007c" "0000009b" + "00" * 12
    + "0012700006000000000a00000000290000000000")
GOOD = bytes.fromhex(
    "21800000000000000000000000000000" "0000000300000000000000020000007d" "0000009c" + "00" * 12)


def requests(number):
    """What an initiator of a name of its own sends."""
    return LOGIN.replace(b"a00", b"a%02d" % number) + READY + READY_AGAIN


def answers(connection):
    """What it is answered on this connection: the TSIH is the connection's number and one."""
    return ACCEPTED[:14] + struct.pack(">H", connection + 1) + ACCEPTED[16:] + ATTENTION + GOOD


def within(descriptors):
    """Words that give the program after them no more descriptors than these, until it is told otherwise."""
    return ["sh", "-c", f'ulimit -S -n {descriptors}; exec "$@"', "sh"] if descriptors else []


@contextmanager
def started(listen, *words, stdout=subprocess.PIPE, units=UNITS, descriptors=None, by=()):
    """The program, listening, and ended when the check is over. It is run by these words in front of it."""
    with tempfile.TemporaryDirectory() as folder:
        config = Path(folder) / "config.toml"
        config.write_text(f'listen = "{listen}"\n{units}', encoding="ascii")
        process = subprocess.Popen([*by, *within(descriptors), PROGRAM, "serve", "--config", config, *words],
                                   stdin=subprocess.DEVNULL, stdout=stdout, stderr=subprocess.PIPE, text=True)
        try:
            yield process
        finally:
            process.kill()
            process.wait(LIMIT)
            process.stderr.close()
            if process.stdout:
                process.stdout.close()


@contextmanager
def serving(listen="127.0.0.1:0", *words, **settings):
    """The program and its address."""
    with started(listen, *words, **settings) as process:
        line = process.stdout.readline()
        assert line.startswith("listening on "), f"{line!r} {process.poll()}"
        host, _, port = line.removeprefix("listening on ").strip().rpartition(":")
        yield process, (host.strip("[]"), int(port))


def ended(process):
    """How the program ended: its status and what it printed."""
    out, err = process.communicate(timeout=LIMIT)
    return process.returncode, out, err


def connect(address):
    return socket.create_connection(address, LIMIT)


def read(client, count):
    """So many bytes, or those until the end."""
    data = b""
    while len(data) < count:
        try:
            piece = client.recv(count - len(data))
        except ConnectionResetError:
            break
        if not piece:
            break
        data += piece
    return data


def is_closed(client):
    """The target has closed the connection."""
    try:
        return client.recv(1) == b""
    except ConnectionResetError:
        return True


def connection_in(data):
    """The connection on which these are the answers as ever. None if they are not."""
    return next((c for c in range(CONNECTIONS) if data == answers(c)), None)


def connection_of(client):
    """The connection of a client whose requests wait, once it is answered. None if it is not answered as ever."""
    return connection_in(read(client, len(answers(0))))


def is_answered(client, number, connection=None):
    """A client is answered as ever, on this connection if one is given. Those who connect one after the other
    may be accepted in any order, so only one who is alone, or follows those who were answered, knows its own."""
    client.sendall(requests(number))
    found = connection_of(client)
    return found is not None and connection in (None, found)


def is_answered_at_last(address, number, connection):
    """A client is answered on this connection, once the program has seen that the one who had it is gone."""
    until = time.monotonic() + LIMIT
    while time.monotonic() < until:
        with connect(address) as client:
            client.sendall(requests(number))
            if connection_of(client) == connection:
                return True
        time.sleep(0.05)
    return False


def reset(client):
    """Ends a connection at once, and drops what waits on it."""
    client.setsockopt(socket.SOL_SOCKET, socket.SO_LINGER, struct.pack("ii", 1, 0))
    client.close()


@contextmanager
def disk_file(content):
    """A disk with this content: its file, and the units of a configuration that has it."""
    with tempfile.TemporaryDirectory() as folder:
        path = Path(folder) / "disk"
        path.write_bytes(content)
        yield path, UNITS.replace("blocks = 8", f'file = "{path}"')


def read_10(number, address, blocks):
    """A READ (10) with this CmdSN."""
    return notation.data(f"[SCSI-Command F R ITT={number} CmdSN={number} "
                         f"ExpectedDataTransferLength={512 * blocks} CDB=2800{address:08x}00{blocks:04x}]", {})


def answer_of(client):
    """The data that comes, and the status and sense data of the SCSI Response after it."""
    data = b""
    while True:
        header = read(client, pdu.HEADER)
        assert len(header) == pdu.HEADER, f"the answers end: {header.hex()}"
        length = int.from_bytes(header[5:8], "big")
        segment = read(client, length + pdu.padding(length))[:length]
        if header[0] != 0x25:
            return data, header[3], segment
        data += segment


def send_asked(client, asked, content):
    """Sends the data that an R2T asks for, in pieces."""
    number, tag, at, length = struct.unpack(">II16xII", asked[16:48])
    starts = range(at, at + length, 65536)
    for n, start in enumerate(starts):
        piece = content[start:min(start + 65536, at + length)]
        client.sendall(notation.data(
            f"[Data-Out {'F' if n + 1 == len(starts) else ''} ITT={number} TTT={tag} DataSN={n} "
            f"BufferOffset={start} DataSegmentLength={len(piece)}]", {}) + piece)


def data_asked_for(client, content):
    """For each R2T of the one command that waits sends its data; says None for it, and last the status."""
    while (header := read(client, pdu.HEADER))[0] == 0x31:
        send_asked(client, header, content)
        yield None
    yield header[3]


def writing(client, number, address, content):
    """Sends a WRITE (10), and for each R2T its data in pieces; says None for it, and last the status."""
    client.sendall(notation.data(f"[SCSI-Command F W ITT={number} CmdSN={number} "
                                 f"ExpectedDataTransferLength={len(content)} "
                                 f"CDB=2a00{address:08x}00{len(content) // 512:04x}]", {}))
    yield from data_asked_for(client, content)


def held_clients(address, count):
    """So many clients that are connected."""
    return [connect(address) for _ in range(count)]


@contextmanager
def stopped(process):
    """Stops a process, waits until it makes no call, and lets it go on after the block."""
    process.send_signal(signal.SIGSTOP)
    until = time.monotonic() + LIMIT
    while Path(f"/proc/{process.pid}/stat").read_text(encoding="utf-8").rpartition(")")[2].split()[0] != "T":
        assert time.monotonic() < until
        time.sleep(0.001)
    try:
        yield
    finally:
        process.send_signal(signal.SIGCONT)


def processor_time(process):
    """For how many seconds a process has worked (proc(5))."""
    fields = Path(f"/proc/{process.pid}/stat").read_text(encoding="ascii").rpartition(")")[2].split()
    return (int(fields[11]) + int(fields[12])) / os.sysconf("SC_CLK_TCK")


def descriptors_of(process):
    """How many descriptors a process has open (proc(5))."""
    return len(os.listdir(f"/proc/{process.pid}/fd"))
