"""What 64 connections wrote and read leaves no memory behind: what the program holds comes back to what it held before."""

import time
from concurrent.futures import ThreadPoolExecutor
from pathlib import Path

from serving_checks.long_turns import logged_in
from serving_checks.loopback import (CONNECTIONS, LIMIT, TOP, answer_of, disk_file, read, read_10, send_asked, serving,
                                     writing)
from wire import notation, pdu

LENGTH = 1 << 20  # bytes of the disk, and of each WRITE and READ
ROUNDS = 8
QUEUED = 8  # WRITEs in flight on a connection
MOST_LEFT = 32 << 20  # bytes above those before
PAUSE = 0.2  # seconds


def resident(process):
    """The bytes of memory that a process has (proc(5))."""
    lines = Path(f"/proc/{process.pid}/smaps_rollup").read_text(encoding="ascii").splitlines()
    return next(int(line.split()[1]) * 1024 for line in lines if line.startswith("Rss:"))


def comes_back(process, before):
    """Waits until the program holds little more than before, for some seconds. Gives what it holds above that."""
    until = time.monotonic() + LIMIT / 6
    while (left := resident(process) - before) > MOST_LEFT and time.monotonic() < until:
        time.sleep(PAUSE)
    return left


def write_one_by_one(client, content):
    for n in range(ROUNDS):
        assert [*writing(client, 125 + n, 0, content)][-1] == 0


def read_one_by_one(client, content):
    for n in range(ROUNDS):
        client.sendall(read_10(125 + ROUNDS + n, 0, LENGTH // 512))
        assert answer_of(client) == (content, 0, b"")


def write_at_once(client, content):
    """Writes with many WRITEs in flight."""
    client.sendall(b"".join(notation.data(
        f"[SCSI-Command F W ITT={n} CmdSN={n} ExpectedDataTransferLength={LENGTH} CDB=2a000000000000{LENGTH // 512:04x}]", {})
        for n in range(125, 125 + QUEUED)))
    done = 0
    while done < QUEUED:
        header = read(client, pdu.HEADER)
        if header[0] == 0x31:
            send_asked(client, header, content)
        else:
            assert (header[0], header[3]) == (0x21, 0), header.hex()
            done += 1


def at_the_same_time(work, clients, content):
    with ThreadPoolExecutor(CONNECTIONS) as pool:
        for done in [pool.submit(work, client, content) for client in clients]:
            done.result(LIMIT)


def gives_back_what_64_connections_wrote_and_read():
    content = bytes(range(256)) * (LENGTH // 256)
    with disk_file(content) as (_, units), serving(units=units) as (process, address):
        clients = [logged_in(address, number) for number in range(CONNECTIONS)]
        write_one_by_one(clients[0], content)
        read_one_by_one(clients[0], content)  # so that one of each was done before
        before = resident(process)
        for work in (write_one_by_one, read_one_by_one):
            at_the_same_time(work, clients[1:], content)
            left = comes_back(process, before)
            assert left <= MOST_LEFT, f"{left >> 20} MiB are left while the sessions are idle"
        for client in clients:
            client.close()
        left = comes_back(process, before)
        assert left <= MOST_LEFT, f"{left >> 20} MiB are left of sessions that have ended"


def environment():
    """Words that set what the unit of systemd sets in the environment."""
    lines = Path(TOP / "install/targetd.service.in").read_text(encoding="utf-8").splitlines()
    return ["env", *[line.removeprefix("Environment=") for line in lines if line.startswith("Environment=")]]


def gives_back_what_many_writes_at_once_took_as_the_unit_runs_it():
    content = bytes(range(256)) * (LENGTH // 256)
    with disk_file(content) as (_, units), serving(units=units, by=environment()) as (process, address):
        before = resident(process)
        at_the_same_time(write_at_once, [logged_in(address, number) for number in range(CONNECTIONS)], content)
        left = comes_back(process, before)
        assert left <= MOST_LEFT, f"{left >> 20} MiB are left"


CHECKS = [gives_back_what_64_connections_wrote_and_read, gives_back_what_many_writes_at_once_took_as_the_unit_runs_it]
