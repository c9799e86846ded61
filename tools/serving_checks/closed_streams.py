"""Standard streams that are closed as the program starts: no unit, socket or log gets the descriptor of one, what is meant
for a stream is written into no file, and whoever uses one fails as ever."""

import itertools
import os
import subprocess
import tempfile
import time
from contextlib import contextmanager, suppress
from pathlib import Path
from typing import NamedTuple

from running.server import free_port
from serving_checks.log_lines import LOGOUT, lines_in, lines_of, login
from serving_checks.loopback import (LIMIT, LOGIN, PROGRAM, READY, READY_AGAIN, answer_of, connect, ended,
                                     held_clients, is_answered, is_closed, read, started)
from serving_checks.surroundings import library
from serving_checks.tape_files import item
from wire import notation, pdu

STREAMS = range(3)
SETS = [closed for count in (1, 2, 3) for closed in itertools.combinations(STREAMS, count)]
NOTHING = "/dev/null"
BLOCK = bytes(range(256)) * 2
RECORDS = b"first", b"second"
STREAM_FAULT = "targetd: stream fault\n"
DESCRIPTORS = 20
UNITS = """log = "{log}"
[[target]]
name = "t1"
[[target.unit]]
lun = 0
kind = "disk"
serial = "D0"
file = "{disk}"
[[target.unit]]
lun = 1
kind = "tape"
serial = "T1"
file = "{tape}"
capacity = 100000
early = 100000
"""


class Files(NamedTuple):
    """The file of a disk, that of a tape, and the path of a log."""
    disk: Path
    tape: Path
    log: Path

    def units(self, log=None):
        """The configuration of a disk, a tape and this log, or none."""
        text = UNITS.format(disk=self.disk, tape=self.tape, log=log)
        return text if log else text.partition("\n")[2]

    def holds_what_was_written(self):
        """The disk has a block, and the tape a record, more than at the start, and nothing else has changed."""
        return (self.disk.read_bytes() == BLOCK * 2 + bytes(512 * 6)
                and self.tape.read_bytes() == item(RECORDS[0]) + item(RECORDS[1]))

    def holds_what_it_held(self):
        """Nothing has changed since the start."""
        return self.disk.read_bytes() == BLOCK + bytes(512 * 7) and self.tape.read_bytes() == item(RECORDS[0])


@contextmanager
def files():
    """A disk with a block that is not zero, a tape with a record, and no log yet."""
    with tempfile.TemporaryDirectory() as folder:
        found = Files(*(Path(folder) / name for name in ("disk", "tape", "log")))
        found.disk.write_bytes(BLOCK + bytes(512 * 7))
        found.tape.write_bytes(item(RECORDS[0]))
        yield found


def closing(closed):
    """Words that close these descriptors before they run what comes after them."""
    return ["sh", "-c", "exec " + " ".join(f"{number}>&-" for number in closed) + '; exec "$@"', "sh"]


def connected(process, address):
    """A client of a program that does not say when it listens."""
    until = time.monotonic() + LIMIT
    while process.poll() is None and time.monotonic() < until:
        try:
            return connect(address)
        except ConnectionRefusedError:
            time.sleep(0.02)
    raise AssertionError(f"it does not listen: {process.poll()}")


@contextmanager
def serving_without(closed, units, descriptors=None):
    """The program, started with these descriptors closed, and its address."""
    address = "127.0.0.1", free_port()
    with started("%s:%d" % address, units=units, by=closing(closed), descriptors=descriptors) as process:
        yield process, address


def command(number, lun, cdb, data=b""):
    """A command with this CmdSN, and its data."""
    segment = f" | {data.hex()}" if data else ""
    return notation.data(f"[SCSI-Command F {'W' if data else ''} LUN={lun} ITT={number} CmdSN={number} "
                         f"ExpectedDataTransferLength={len(data)} CDB={cdb}{segment}]", {})


# A block of the disk is written, and a record of the tape after the first. The first command of a unit meets an attention.
WRITES = (command(125, 1, "000000000000"), command(126, 1, "110000000100"), command(127, 0, "2a000000000100000100", BLOCK),
          command(128, 1, f"0a00{len(RECORDS[1]):06x}00", RECORDS[1]))
STATUSES = [2, 0, 0, 0]


def writes(client):
    """A session writes to both units, and ends."""
    assert is_answered(client, 1, 0)
    statuses = []
    for one in WRITES:
        client.sendall(one)
        statuses.append(answer_of(client)[1])
    client.sendall(notation.data(LOGOUT.replace("125", "129"), {}))
    assert statuses == STATUSES and len(read(client, 48)) == 48 and is_closed(client), statuses


def is_refused(address):
    """One who asks for another target is refused, of which the log has a line."""
    with connect(address) as client:
        client.sendall(login(b"h", b"TargetName=t9\0"))
        return len(read(client, 48)) == 48 and is_closed(client)


def links_of(process):
    """What each descriptor of a program is, by its number (proc(5))."""
    found = {}
    for path in Path(f"/proc/{process.pid}/fd").iterdir():
        with suppress(FileNotFoundError):  # it was closed meanwhile
            found[int(path.name)] = os.readlink(path)
    return found


def has_streams_alone_below_three(process, closed, those):
    """Each descriptor of a stream is what it was, or /dev/null if it was closed, and these files and a socket have
    others."""
    links = links_of(process)
    above = [link for number, link in links.items() if number not in STREAMS]
    return (all(links.get(number) == NOTHING for number in closed)
            and all(links[number] == NOTHING or links[number].startswith("pipe:") for number in STREAMS)
            and {str(path) for path in those} <= set(above) and any(link.startswith("socket:") for link in above))


def has_whole_log(found):
    """The lines of a log begin where the program listens, and have both clients."""
    return (found[0].startswith("listening on ") and "session of connection 0 ended: logout" in found
            and "connection 0 refused: 0203h, target not found: initiator h, target t9" in found)


def serves_without(closed, log, those):
    """The program serves with these descriptors closed and this log, and writes what it is told to."""
    with serving_without(closed, those.units(log)) as (process, address):
        with connected(process, address) as client:
            writes(client)
        assert is_refused(address)
        opened = [those.disk, those.tape, *([those.log] if log == str(those.log) else [])]
        assert has_streams_alone_below_three(process, closed, opened), links_of(process)
        if log == str(those.log):
            assert has_whole_log(lines_in(those.log, 6)), those.log.read_text(encoding="ascii")
        process.kill()
        out, err = process.communicate(timeout=LIMIT)
        assert out == "listening on %s:%d\n" % address, out
        assert has_whole_log(lines_of(err)) if log == "-" and 2 not in closed else err == "", err


def ends_without(closed, log, those):
    """The program cannot say where it listens, and ends before it serves anybody."""
    with serving_without(closed, those.units(log)) as (process, _):
        status, out, err = ended(process)
    told = lines_of(err.removesuffix(STREAM_FAULT)) if log == "-" and 2 not in closed else []
    assert (status, out) == (3, "") and (err.endswith(STREAM_FAULT) if 2 not in closed else not err), (status, out, err)
    assert all(line.startswith("listening on ") for line in told), told


def each_set_and_log(has_output):
    """Each set of closed streams with standard output open, or closed, and each kind of log."""
    return [(closed, kind) for closed in SETS if (1 not in closed) == has_output
            for kind in ("none", "standard error", "a file")]


def with_each(sets_and_logs, runs, holds):
    """Runs the program with each of these sets and logs: what its files hold then."""
    for closed, kind in sets_and_logs:
        with files() as those:
            log = {"none": None, "standard error": "-", "a file": str(those.log)}[kind]
            try:
                runs(closed, log, those)
            except (AssertionError, OSError) as error:
                raise AssertionError(f"without {closed}, log {kind}: {error}") from error
            assert holds(those), (closed, kind)


def serves_with_standard_input_or_error_closed():
    with_each(each_set_and_log(True), serves_without, Files.holds_what_was_written)


def ends_by_a_stream_fault_with_standard_output_closed():
    with_each(each_set_and_log(False), ends_without, Files.holds_what_it_held)


def replay(by, those, lines):
    """How a replay of these lines ended at these files: its status and what it printed, and how much of them it read."""
    config, events = those.disk.with_name("config.toml"), those.disk.with_name("events")
    config.write_text(f'listen = "127.0.0.1:0"\n{those.units("-")}', encoding="ascii")
    events.write_text(lines, encoding="ascii")
    with events.open("rb") as source:
        ran = subprocess.run([*by, PROGRAM, "replay", "--config", config], stdin=source, capture_output=True, text=True,
                             timeout=LIMIT, check=False)
        return (ran.returncode, ran.stdout, ran.stderr), os.lseek(source.fileno(), 0, os.SEEK_CUR)


def statuses_in(printed):
    """The statuses of the SCSI Responses in the answers of a replay."""
    found, _ = pdu.cut(bytes.fromhex("".join(line.partition(" ")[2] for line in printed.splitlines())))
    return [header[3] for header, _, _ in found if header[0] == 0x21]


EVENTS = "".join(f"bytes 0 {data.hex()}\n" for data in (LOGIN + READY + READY_AGAIN, *WRITES))


def replays_with_any_standard_streams_closed():
    for closed in SETS:
        with files() as those:
            (status, out, err), _ = replay(closing(closed), those, f"open 0\n{EVENTS}no event\n")
            if 0 in closed or 1 in closed:
                told = 3, "", "" if 2 in closed else STREAM_FAULT
                assert (status, out, err) == told and those.holds_what_it_held(), (closed, status, out, err)
                continue
            assert (status, err) == (2, ""), (closed, status, err)
            assert statuses_in(out) == [2, 0, *STATUSES], (closed, out)
            assert those.holds_what_was_written(), closed


def serves_20_descriptors_without_standard_input_and_error():
    with files() as those, serving_without((0, 2), those.units(), DESCRIPTORS) as (process, address):
        with connected(process, address) as client:
            writes(client)
        others = held_clients(address, DESCRIPTORS - 12)
        assert all(is_answered(client, number) for number, client in enumerate(others))
        for client in others:
            client.close()
        assert those.holds_what_was_written(), "other bytes are written"


def ends_by_a_stream_fault_where_nothing_stands_in_for_a_stream():
    lacking = ["env", f"LD_PRELOAD={library('serving_checks/no_null.c')}"]
    for closed in [(), *SETS]:
        by = [*(closing(closed) if closed else []), *lacking]
        told = 3, "", "" if 2 in closed else STREAM_FAULT
        with files() as those:
            assert replay(by, those, "open 0\n") == (told, 0), closed
            assert those.holds_what_it_held(), closed
            with started("127.0.0.1:0", units=those.units(str(those.log)), by=by) as process:
                assert ended(process) == told, closed
            assert those.holds_what_it_held() and not those.log.exists(), closed
            # Without it, and without a configuration, the streams fail first.
            ran = subprocess.run([*by, PROGRAM, "serve", "--config", those.log], capture_output=True, text=True,
                                 timeout=LIMIT, check=False)
            assert (ran.returncode, ran.stdout, ran.stderr) == told, closed


CHECKS = [
    serves_with_standard_input_or_error_closed,
    ends_by_a_stream_fault_with_standard_output_closed,
    replays_with_any_standard_streams_closed,
    serves_20_descriptors_without_standard_input_and_error,
    ends_by_a_stream_fault_where_nothing_stands_in_for_a_stream,
]
