"""The log: which line each event writes, and that it holds up nothing, whatever is done to its file."""

import errno
import fcntl
import os
import re
import socket
import struct
import tempfile
import time
from contextlib import contextmanager
from pathlib import Path

from running.libraries import CALLS
from serving_checks.loopback import (CONNECTIONS, LIMIT, LOGIN, READY, UNITS, answers, connect, disk_file, ended,
                                     held_clients, is_answered, is_closed, read, read_10, requests, serving,
                                     started)
from serving_checks.surroundings import library
from wire import notation, pdu

LINE = re.compile(r"\d{4}-\d\d-\d\dT\d\d:\d\d:\d\dZ ")
MOST = 20  # lines a second of connections that have not logged in
NAME = "InitiatorName="
F_SETPIPE_SZ, PAGES = 1031, 8192  # fcntl(2)
LOGOUT = "[Logout-Request I Reason=0 ITT=7 CmdSN=125]"


def login(initiator=b"a00", target=b"TargetName=t1\0", isid=1):
    """A login of this initiator, as one PDU."""
    text = NAME.encode() + initiator + b"\0" + target
    header = notation.data(f"[Login-Request I T CSG=1 NSG=3 ITT=1 CmdSN=123 ISID=0x80000000000{isid} "
                           f"DataSegmentLength={len(text)}]", {})
    return header + text + bytes(pdu.padding(len(text)))


def lines_of(text):
    """The lines of a log, without their times."""
    lines = text.splitlines()
    assert all(LINE.match(line) for line in lines), lines
    return [LINE.sub("", line, count=1) for line in lines]


def lines_in(path, count):
    """The lines of a file, as soon as it has so many, without their times."""
    until = time.monotonic() + LIMIT
    while time.monotonic() < until:
        text = path.read_text(encoding="ascii") if path.exists() else ""
        if text.count("\n") >= count:
            return lines_of(text)
        time.sleep(0.02)
    raise AssertionError(f"{count} lines are not in {text!r}")


def lines_until(path, last):
    """The lines of a file up to this one, as soon as it is there, without their times."""
    until = time.monotonic() + LIMIT
    while time.monotonic() < until:
        found = lines_of(path.read_text(encoding="ascii").rpartition("\n")[0])
        if last in found:
            return found[:found.index(last) + 1]
        time.sleep(0.02)
    raise AssertionError(f"{last!r} is not among {found}")


def narrowed(pipe):
    """A pipe is made to hold two pages (fcntl(2))."""
    fcntl.fcntl(pipe, F_SETPIPE_SZ, PAGES)


@contextmanager
def logging(units=UNITS, **settings):
    """The program, its address and the file of its log."""
    with tempfile.TemporaryDirectory() as folder:
        path = Path(folder) / "log"
        with serving(units=f'log = "{path}"\n{units}', **settings) as (process, address):
            yield process, address, path


def named(client):
    """The address of a client, as it is logged."""
    return f"127.0.0.1:{client.getsockname()[1]}"


def tells_where_it_listens_who_came_logged_in_and_logged_out():
    with logging() as (_, address, path), connect(address) as client:
        assert is_answered(client, 5, 0)
        client.sendall(notation.data(LOGOUT, {}))
        assert len(read(client, 48)) == 48 and is_closed(client)
        assert lines_in(path, 4) == [
            f"listening on 127.0.0.1:{address[1]}", f"connection 0 from {named(client)}",
            "connection 0 logged in: initiator a05, target t1, TSIH 1", "session of connection 0 ended: logout"]


def tells_a_discovery_and_a_login_in_pieces():
    with logging() as (_, address, path), connect(address) as client:
        text = b"InitiatorName=iqn.a\0SessionType=Discovery\0"
        for flags, part in (("C", text[:20]), ("T", text[20:])):
            client.sendall(notation.data(f"[Login-Request I {flags} CSG=1 NSG={3 if flags == 'T' else 0} ITT=1 "
                                         f"ISID=0x800000000001 DataSegmentLength={len(part)}]", {})
                           + part + bytes(pdu.padding(len(part))))
            header = read(client, 48)
            length = int.from_bytes(header[5:8], "big")
            read(client, length + pdu.padding(length))
        assert lines_in(path, 3)[2] == "connection 0 logged in: initiator iqn.a, discovery, TSIH 1"


def tells_who_was_refused_and_why():
    with logging() as (_, address, path):
        for number, (sent, wanted) in enumerate((
                (login(b"h", b"TargetName=t9\0"), "0203h, target not found: initiator h, target t9"),
                (login(b"h", b""), "0207h, missing parameter: initiator h, no target"),
                (LOGIN[:14] + b"\0\7" + LOGIN[16:],
                 "020Ah, session does not exist: initiator a00, target t1"))):
            with connect(address) as client:
                client.sendall(sent)
                assert len(read(client, 48)) == 48 and is_closed(client)
            assert lines_in(path, 3 + 2 * number)[-1] == f"connection 0 refused: {wanted}"


def escapes_what_initiators_name_themselves():
    long = b"iqn." + b"x" * 219
    with logging() as (_, address, path):
        for number, (name, wanted) in enumerate((
                (b"a\n2026-01-01T00:00:00Z listening", "a\\x0A2026-01-01T00:00:00Z\\x20listening"),
                (b"\x1b[2J\x7f\\\r\t\xff", "\\x1B[2J\\x7F\\x5C\\x0D\\x09\\xFF"), (long, long.decode()))):
            with connect(address) as client:
                client.sendall(login(name, b"TargetName=no\nne\0"))
                assert len(read(client, 48)) == 48 and is_closed(client)
            line = lines_in(path, 3 + 2 * number)[-1]
            assert line.endswith(f": initiator {wanted}, target no\\x0Ane"), line


def tells_how_a_session_ended():
    with logging() as (_, address, path):
        with connect(address) as client:
            assert is_answered(client, 1, 0)
        assert lines_in(path, 4)[-1] == "session of connection 0 ended: its peer closed the connection"
        with connect(address) as client:
            assert is_answered(client, 1, 0)
            client.setsockopt(socket.SOL_SOCKET, socket.SO_LINGER, struct.pack("ii", 1, 0))
        assert lines_in(path, 7)[-1] == "session of connection 0 ended: its peer is gone"
        with connect(address) as client:
            assert is_answered(client, 1, 0)
            client.sendall(LOGIN)
            assert is_closed(client)
            assert lines_in(path, 10)[-1] == (
                "session of connection 0 ended: violation: Login Request (00000001h), in full feature phase")
        with connect(address) as client:
            client.sendall(READY)
            assert is_closed(client)
            assert lines_in(path, 12)[-1] == (
                "connection 0 ended without a login: violation: SCSI Command (00000002h), before full feature phase")


def tells_by_which_connection_a_session_was_reinstated():
    with logging() as (_, address, path), connect(address) as older:
        assert is_answered(older, 3, 0)
        with connect(address) as newer:
            newer.sendall(requests(3))
            assert is_closed(older)
            found = lines_in(path, 6)
            assert "session of connection 0 ended: reinstated by connection 1" in found, found
            assert "connection 1 logged in: initiator a03, target t1, TSIH 2" in found, found


def tells_that_there_is_no_place():
    with logging() as (_, address, path):
        clients = held_clients(address, CONNECTIONS)
        lines_in(path, 1 + MOST)
        time.sleep(2)  # those that came count in the seconds in which they came
        for number, client in enumerate(clients):
            assert is_answered(client, number)
        with connect(address) as further:
            assert is_closed(further)
            assert lines_in(path, 1)[-1] == f"no place for a connection from {named(further)}"
        for client in clients:
            client.close()


def tells_a_task_management_function_and_its_answer():
    with logging() as (_, address, path), connect(address) as client:
        assert is_answered(client, 1, 0)
        for function, name, response in ((5, "LOGICAL UNIT RESET", "function complete"),
                                         (7, "TARGET COLD RESET", "function not supported")):
            client.sendall(notation.data(f"[Task-Management-Request I Function={function} LUN=0 ITT=9 CmdSN=125]", {}))
            assert len(read(client, 48)) == 48
            assert lines_until(path, f"connection 0 is answered (00000009h): {response}")[-2] == (
                f"connection 0 asks for {name} (00000009h), unit 0")


def status_of(client, request):
    """The sense data that a request is answered."""
    client.sendall(notation.data(request, {}))
    header = read(client, 48)
    length = int.from_bytes(header[5:8], "big")
    return read(client, length + pdu.padding(length))[:length]


def tells_a_read_that_failed():
    with disk_file(bytes(4096)) as (disk, units), logging(units) as (_, address, path), connect(address) as client:
        assert is_answered(client, 1, 0)
        os.truncate(disk, 512)
        client.sendall(read_10(125, 1, 1))
        assert len(read(client, 68)) == 68
        assert lines_in(path, 4)[-1] == (
            "target t1, unit 0: 03/1100, a read failed; connection 0, initiator a01, READ (10) of 1 blocks from 1")


def tells_a_write_that_failed_and_once_that_the_unit_is_not_ready():
    with disk_file(bytes(4096)) as (_, units):
        settings = {"LD_PRELOAD": str(library(CALLS)), "FAIL_CALL": "store", "FAIL_NUMBER": "1",
                    "FAIL_ERROR": str(errno.ENOSPC), "FAIL_ON": "1"}
        by = ["env", *map("=".join, settings.items())]
        with logging(units, by=by) as (_, address, path), connect(address) as client:
            assert is_answered(client, 1, 0)
            write = notation.data("[SCSI-Command F W ITT=4 CmdSN=125 ExpectedDataTransferLength=512 "
                                  "DataSegmentLength=512 CDB=2a000000000000000100]", {}) + bytes(512)
            client.sendall(write)
            assert len(read(client, 68)) == 68
            for number in (126, 127):
                status_of(client, f"[TEST-UNIT-READY F ITT={number} CmdSN={number}]")
            client.sendall(notation.data(LOGOUT.replace("125", "128"), {}))
            assert lines_in(path, 6)[-3:] == [
                "target t1, unit 0: 03/0C00, a write failed; connection 0, initiator a01, WRITE (10) of 1 blocks from 0",
                "target t1, unit 0: 04/4400, it is not ready until the next start",
                "session of connection 0 ended: logout"]


def start_fault(folder, listen, units):
    """What a start that fails prints, and what the log has of it then, without its time."""
    log = Path(folder) / "log"
    log.unlink(missing_ok=True)
    with started(listen, units=f'log = "{log}"\n{units}') as process:
        status, printed, line = ended(process)
    assert (status, printed) == (3, "")
    return line, [line.partition(" ")[2] for line in log.read_text(encoding="ascii").splitlines()]


def says_why_nothing_is_served():
    device, torn = "targetd: device fault at t1 unit 0\n", bytes.fromhex("00000200") + bytes(100)
    tape = UNITS.replace('"disk"', '"tape"').replace("blocks = 8", 'capacity = 2000\nearly = 1000\nfile = "{}"')
    disk = UNITS.replace("blocks = 8", 'file = "{}"')
    with tempfile.TemporaryDirectory() as folder, socket.socket() as taken:
        file = Path(folder) / "file"
        for units, content, why in ((disk, bytes(1000), "the length of its file is no positive multiple of 512 bytes"),
                                    (tape, torn, "its last item, at byte 0, is torn"),
                                    (tape, bytes(2008), "its file is longer than its capacity")):
            file.write_bytes(content)
            assert start_fault(folder, "127.0.0.1:0", units.format(file)) == (device, [f"device fault at t1 unit 0: {why}"])
            assert file.read_bytes() == content
        file.write_bytes(bytes(1024))
        with open(file, "rb") as held:
            fcntl.flock(held, fcntl.LOCK_EX)
            assert start_fault(folder, "127.0.0.1:0", disk.format(file)) == (
                device, ["device fault at t1 unit 0: another process or unit has its file open"])
        for path, why in ((f"{folder}/none", "No such file or directory (os error 2)"),
                          (folder, "Is a directory (os error 21)")):
            assert start_fault(folder, "127.0.0.1:0", disk.format(path)) == (device, [f"device fault at t1 unit 0: {why}"])
        taken.bind(("127.0.0.1", 0))
        taken.listen()
        used = f"127.0.0.1:{taken.getsockname()[1]}"
        for listen, why in ((used, "Address already in use (os error 98)"), ("nonsense", "it is no address with a port")):
            assert start_fault(folder, listen, UNITS) == ("targetd: socket fault\n", [f"socket fault at {listen}: {why}"])


def writes_no_line_into_the_file_of_a_unit_as_the_start_fails():
    with tempfile.TemporaryDirectory() as folder:
        file, other = Path(folder) / "file", Path(folder) / "other"
        file.write_bytes(bytes(1000))
        other.hardlink_to(file)
        for log in (file, other, f"{folder}/../{Path(folder).name}/file"):
            with started("127.0.0.1:0", units=f'log = "{log}"\n' + UNITS.replace("blocks = 8", f'file = "{file}"')) as process:
                assert ended(process) == (3, "", "targetd: device fault at t1 unit 0\n"), log
            assert file.read_bytes() == bytes(1000), log


def says_that_a_log_cannot_be_opened_before_it_serves():
    with tempfile.TemporaryDirectory() as folder, disk_file(bytes(512)) as (disk, units):
        for path in (folder, f"{folder}/none/log", "", disk, "a\\u0000b"):
            with started("127.0.0.1:0", units=f'log = "{path}"\n{units}') as process:
                assert ended(process) == (3, "", "targetd: stream fault\n"), path
        assert disk.read_bytes() == bytes(512)
        for value in ("7", "true", "[]"):
            with serving(units=f"log = {value}\n{UNITS}") as (_, address), connect(address) as client:
                assert is_answered(client, 1, 0), value


def appends_and_begins_anew_where_the_file_is_moved_or_removed():
    with logging() as (_, address, path):
        path.write_text("before\n", encoding="ascii")
        with connect(address) as client:
            assert is_answered(client, 1, 0)
            assert path.read_text(encoding="ascii").startswith("before\n")
        kept = path.rename(path.with_name("log.1"))
        with connect(address) as client:
            assert is_answered(client, 2)
            assert lines_in(path, 1) and kept.read_text(encoding="ascii").startswith("before\n")
        path.unlink()
        with connect(address) as client:
            assert is_answered(client, 3)
            assert lines_in(path, 1)


def goes_on_where_the_log_takes_nothing():
    with tempfile.TemporaryDirectory() as folder:
        fifo = Path(folder) / "fifo"
        os.mkfifo(fifo)
        held = os.open(fifo, os.O_RDWR | os.O_NONBLOCK)
        narrowed(held)
        for path in ("/dev/full", fifo):
            with serving(units=f'log = "{path}"\n{UNITS}') as (process, address):
                for number in range(900):
                    with connect(address) as client:
                        client.sendall(login(b"x" * 200, b"TargetName=t9\0") if number % 9 else requests(1))
                        assert len(read(client, 48)) == 48
                assert process.poll() is None, path
        assert os.read(held, PAGES).count(b"\n") > 3  # so many lines it held
        os.close(held)


def goes_on_where_nobody_reads_standard_error():
    with serving(units=f'log = "-"\n{UNITS}') as (process, address):
        narrowed(process.stderr)
        for number in range(600):
            with connect(address) as client:
                client.sendall(login(b"\1" * 220))
                assert len(read(client, 48)) == 48, number
        process.kill()
        found = lines_of(process.stderr.read().rpartition("\n")[0])
        assert found[0].startswith("listening on "), found
        assert "initiator " + 220 * "\\x01" + ", target t1" in found[2], found


def counts_refused_strangers_in_place_of_a_line_each():
    with logging() as (_, address, path):
        began = time.monotonic()
        for _ in range(1000):
            with connect(address) as client:
                client.sendall(login(b"h", b"TargetName=t9\0"))
                assert len(read(client, 48)) == 48
        seconds = time.monotonic() - began
        time.sleep(1.1)
        with connect(address) as client:
            assert is_answered(client, 1)
            found = lines_until(path, "connection 0 logged in: initiator a01, target t1, TSIH 1")
        assert len(found) <= (MOST + 1) * (seconds + 3) + 2, (len(found), seconds)
        counts = [int(line.split()[0]) for line in found if line.endswith(" lines left out")]
        told = [line for line in found if "refused" in line or "connection" in line and " from " in line]
        assert sum(counts) + len(told) == 2001, (counts, len(told))


def answers_and_writes_the_same_with_a_log_and_without():
    for log in ("", 'log = "/dev/null"\n', 'log = "-"\n'):
        with disk_file(bytes(range(256)) * 16) as (disk, units), serving(units=log + units) as (_, address):
            with connect(address) as client:
                client.sendall(requests(1))
                assert read(client, len(answers(0))) == answers(0), log
                client.sendall(notation.data(
                    "[SCSI-Command F W ITT=4 CmdSN=125 ExpectedDataTransferLength=512 DataSegmentLength=512 "
                    "CDB=2a000000000100000100]", {}) + b"w" * 512)
                header = read(client, 48)
                assert header == notation.data("[SCSI-Response ITT=4 StatSN=3 ExpCmdSN=126 MaxCmdSN=157]", {}), log
                content = bytes(range(256)) * 2 + b"w" * 512 + bytes(range(256)) * 12
                assert disk.read_bytes() == content, log


CHECKS = [
    tells_where_it_listens_who_came_logged_in_and_logged_out,
    tells_a_discovery_and_a_login_in_pieces,
    tells_who_was_refused_and_why,
    escapes_what_initiators_name_themselves,
    tells_how_a_session_ended,
    tells_by_which_connection_a_session_was_reinstated,
    tells_that_there_is_no_place,
    tells_a_task_management_function_and_its_answer,
    tells_a_read_that_failed,
    tells_a_write_that_failed_and_once_that_the_unit_is_not_ready,
    says_why_nothing_is_served,
    writes_no_line_into_the_file_of_a_unit_as_the_start_fails,
    says_that_a_log_cannot_be_opened_before_it_serves,
    appends_and_begins_anew_where_the_file_is_moved_or_removed,
    goes_on_where_the_log_takes_nothing,
    goes_on_where_nobody_reads_standard_error,
    counts_refused_strangers_in_place_of_a_line_each,
    answers_and_writes_the_same_with_a_log_and_without,
]
