"""What befalls a server beside the requests: accepts that fail, any number of bytes unread, peers that are gone, are
silent or read nothing, a signal in the middle of answers."""

import errno
import os
import random
import shutil
import signal
import socket
import subprocess
import tempfile
import time
from concurrent.futures import ThreadPoolExecutor
from contextlib import ExitStack, contextmanager, suppress
from pathlib import Path

from running import checks
from running.libraries import CALLS, built
from serving_checks.endings import (BLOCKS, INITIATOR, TARGET, connect_in, disk_of_reads, ip, may_make_networks,
                                    reads, rest_of, two_networks)
from serving_checks.loopback import (CONNECTIONS, LIMIT, LOGIN, TOP, answer_of, connect, ended, is_answered,
                                     is_answered_at_last, is_closed, read_10, requests, serving)
from wire import pdu

# What accept(2) says of a connection that is gone already, and what a system answers that has not enough of something.
PASSED_OVER = (errno.ECONNABORTED, errno.EPROTO, errno.ENOPROTOOPT, errno.EHOSTDOWN, errno.ENONET, errno.EHOSTUNREACH,
               errno.EOPNOTSUPP, errno.ENETDOWN, errno.ENETUNREACH, errno.EINTR, errno.EPERM, errno.ETIMEDOUT,
               errno.EMFILE, errno.ENFILE, errno.ENOBUFS, errno.ENOMEM)
BROKEN = (errno.EBADF, errno.EINVAL, errno.ENOTSOCK)
ESTABLISHED, KEEPALIVE = "01", "02"  # a state and a timer of proc_net_tcp
SILENT = 30  # seconds of silence after which a peer is asked for
SMALL = 65536  # bytes that a client lets the system keep for it
SESSIONS = 100 - CONNECTIONS  # of peers that are gone: none has the name of one of those who come, of 100 names


class Skipped(checks.Skipped):
    """What a check needs is not on this machine."""


def library(source):
    """A library of this source, which is loaded into the program."""
    if not shutil.which("gcc"):
        raise Skipped("there is no gcc")
    return built(source)


def is_served(client, number):
    """A client is answered as ever, and has not been closed for want of a place."""
    with suppress(ConnectionError):
        return is_answered(client, number)
    return False


def refusing(report, error, first, on):
    """Words that let the system refuse the accept of this number, or all from it on, and report each that it did."""
    settings = {"LD_PRELOAD": str(library(CALLS)), "FAIL_CALL": "accept", "FAIL_NUMBER": str(first),
                "FAIL_ERROR": str(error), "FAIL_ON": str(int(on)), "FAIL_REPORT": "9"}
    return ["sh", "-c", f'exec 9>>{report}; exec "$@"', "sh", "env", *map("=".join, settings.items())]


@contextmanager
def serving_with_refusals(error, first=1, on=False):
    """The program, its address, and the file that tells of each accept that the system refused."""
    with tempfile.TemporaryDirectory() as folder:
        report = Path(folder) / "report"
        with serving(by=refusing(report, error, first, on)) as (process, address):
            yield process, address, report


def accepts_again_with_no_event_after_each_error_that_is_not_of_the_listener():
    with ExitStack() as stack:
        all_served = [(number, *stack.enter_context(serving_with_refusals(number))) for number in PASSED_OVER]
        clients = [stack.enter_context(connect(address)) for _, _, address, _ in all_served]
        for (number, process, _, report), client in zip(all_served, clients):
            assert is_answered(client, 1), errno.errorcode[number]
            assert process.poll() is None and report.read_text() == "failed\n", errno.errorcode[number]


def goes_on_with_its_sessions_while_each_accept_is_refused():
    for number in (errno.ENFILE, errno.ENOMEM):
        with serving_with_refusals(number, first=2, on=True) as (process, address, report), connect(address) as client:
            assert is_answered(client, 1)
            with connect(address) as waiting:
                waiting.sendall(requests(2))
                time.sleep(4)
                count = len(report.read_text().splitlines())
                assert 2 <= count <= 20, f"{errno.errorcode[number]}: {count} accepts in 4 seconds"
                client.sendall(read_10(125, 0, 1))
                assert answer_of(client) == (bytes(512), 0, b"") and process.poll() is None


def ends_by_a_socket_fault_where_the_listener_is_none():
    for number in BROKEN:
        with serving_with_refusals(number) as (process, address, _):
            with suppress(ConnectionError):  # it may have ended before the client is told that it is connected
                connect(address).close()
            assert ended(process) == (3, "", "targetd: socket fault\n"), errno.errorcode[number]


def sends_what_waits_with_any_number_of_bytes_unread():
    chance = random.Random(9)
    amounts = [0, 1, 47, 48, 49, 16384, 65535, 65536, 1 << 20]
    amounts += chance.sample(range(1 << 20), CONNECTIONS - len(amounts))
    with disk_of_reads(3) as (content, _, address), ThreadPoolExecutor(CONNECTIONS) as pool:
        def fault_of(number):
            """What one client with so many bytes unread is not answered, or nothing."""
            with connect(address) as client:
                if not is_answered(client, number):
                    return "the login"
                sent = pool_of_senders.submit(client.sendall, reads(3) + LOGIN + bytes(amounts[number]))
                time.sleep(1)
                for n in range(3):
                    if answer_of(client) != (content[512 * BLOCKS * n:512 * BLOCKS * (n + 1)], 0, b""):
                        return f"READ {n}"
                rest = rest_of(client)
                sent.result()
                return None if rest == (b"", False) else f"{rest[1]} after {len(rest[0])} bytes more"

        with ThreadPoolExecutor(CONNECTIONS) as pool_of_senders:
            faults = {amounts[n]: fault for n, fault in enumerate(pool.map(fault_of, range(CONNECTIONS))) if fault}
        assert not faults, faults


def row_of(here, there):
    """What the system says of the end of a connection that has the port `here`: bytes sent that are not acknowledged,
    bytes that came and are not read, the number of its timer and when it ends, in hundredths of a second."""
    try:
        lines = Path("/proc/net/tcp").read_text(encoding="ascii").splitlines()[1:]
    except OSError as error:
        raise Skipped("there is no /proc/net/tcp") from error
    for fields in map(str.split, lines):
        ports = [int(address.rpartition(":")[2], 16) for address in fields[1:3]]
        if ports == [here, there] and fields[3] == ESTABLISHED:
            unsent, unread = (int(number, 16) for number in fields[4].split(":"))
            timer, _, when = fields[5].partition(":")
            return unsent, unread, timer, int(when, 16)
    raise Skipped("/proc/net/tcp does not have each connection here")


def needs_rows():
    """The check is skipped if the system does not tell what it knows of a connection."""
    with socket.create_server(("127.0.0.1", 0)) as listener, connect(listener.getsockname()) as one:
        other, (_, there) = listener.accept()
        with other:
            here = listener.getsockname()[1]
            other.setsockopt(socket.SOL_SOCKET, socket.SO_KEEPALIVE, 1)
            one.sendall(bytes(1000))
            time.sleep(0.1)
            _, unread, timer, when = row_of(here, there)
            if unread != 1000 or timer != KEEPALIVE or when == 0:
                raise Skipped("/proc/net/tcp tells no numbers of bytes, or no timers, here")


def lets_the_system_ask_for_a_peer_that_is_silent():
    needs_rows()
    with serving() as (_, address), connect(address) as client:
        assert is_answered(client, 1)
        until = time.monotonic() + LIMIT
        while (row := row_of(address[1], client.getsockname()[1]))[2] == "01" and time.monotonic() < until:
            time.sleep(0.05)  # what was sent is about to be acknowledged
        assert row[2] == KEEPALIVE and 0 < row[3] <= 100 * SILENT, row


def gives_the_place_of_one_who_reads_nothing_to_another():
    by = ["env", f"LD_PRELOAD={library('serving_checks/sooner.c')}"]
    with serving(by=by) as (_, address), connect(address) as client:
        assert is_answered(client, 1, 0)
        with connect(address) as other:
            assert is_answered(other, 2)
            client.sendall(b"".join(read_10(125 + n, 0, 8) for n in range(1000)))
            assert is_answered_at_last(address, 3, 0), "the place is still taken"
            other.sendall(read_10(125, 0, 8))
            assert answer_of(other) == (bytes(512 * 8), 0, b"")


def gives_all_64_places_of_peers_that_are_gone_to_others():
    if not may_make_networks():
        raise Skipped("no network namespaces can be made here: that wants root, ip and a system that lets root do so")
    by = ["ip", "netns", "exec", TARGET, "env", f"LD_PRELOAD={library('serving_checks/sooner.c')}"]
    with ExitStack() as stack:
        stack.enter_context(two_networks())
        _, address = stack.enter_context(serving("10.199.0.1:0", by=by))
        gone = [stack.enter_context(connect_in(INITIATOR, address)) for _ in range(CONNECTIONS)]
        for number, client in enumerate(gone[:SESSIONS]):
            assert is_answered(client, number), number
        with connect_in(TARGET, address) as one_more:
            assert is_closed(one_more)
        ip("-n", INITIATOR, "link", "set", "i0", "down")
        until = time.monotonic() + 2 * LIMIT
        served = 0
        while served < CONNECTIONS and time.monotonic() < until:
            client = stack.enter_context(connect_in(TARGET, address))
            if is_served(client, SESSIONS + served):
                served += 1
            else:
                client.close()
                time.sleep(0.2)
        assert served == CONNECTIONS, f"{CONNECTIONS - served} places are still taken"


def taken_by_the_system(here, there):
    """How many bytes of what a program has written to a connection have not been read: those that the system has not
    sent yet, and those that came. It is looked at until nothing moves."""
    until, last, since = time.monotonic() + LIMIT, None, 0.0
    while time.monotonic() < until:
        now = row_of(here, there)[0], row_of(there, here)[1]
        if now != last:
            last, since = now, time.monotonic()
        elif time.monotonic() - since > 1:
            break
        time.sleep(0.05)
    return sum(last)


def data_of(answered_bytes):
    """The data of Data-Ins, of which the last may be cut."""
    data, at = b"", 0
    while at + pdu.HEADER <= len(answered_bytes):
        header = answered_bytes[at:at + pdu.HEADER]
        length = int.from_bytes(header[5:8], "big")
        if header[0] == 0x25:
            data += answered_bytes[at + pdu.HEADER:at + pdu.HEADER + length]
        at += pdu.HEADER + length + pdu.padding(length)
    return data


def sends_each_byte_that_the_system_has_taken_when_a_signal_ends_it():
    needs_rows()
    count = 60
    for number in (signal.SIGTERM, signal.SIGINT, signal.SIGHUP):
        with disk_of_reads(count) as (content, process, address), socket.socket() as client:
            client.setsockopt(socket.SOL_SOCKET, socket.SO_RCVBUF, SMALL)
            client.settimeout(LIMIT)
            client.connect(address)
            assert is_answered(client, 1)
            client.sendall(reads(count))
            taken = taken_by_the_system(address[1], client.getsockname()[1])
            process.send_signal(number)
            assert process.wait(LIMIT) == -number
            with serving(f"{address[0]}:{address[1]}") as (_, again), connect(again) as other:
                assert is_answered(other, 2), number
            rest, is_reset = rest_of(client)
            assert not is_reset and len(rest) == taken, (number, is_reset, len(rest), taken)
            assert content.startswith(data_of(rest)) and len(data_of(rest)) > 0, number


def ends_by_the_signals_that_end_programs_but_pipe():
    for number in (signal.SIGTERM, signal.SIGINT, signal.SIGHUP, signal.SIGUSR1, signal.SIGUSR2, signal.SIGALRM):
        with serving() as (process, _):
            process.send_signal(number)
            assert process.wait(LIMIT) == -number, number
    with serving() as (process, address), connect(address) as client:
        process.send_signal(signal.SIGPIPE)
        assert is_answered(client, 1) and process.poll() is None


CHECKS = [
    accepts_again_with_no_event_after_each_error_that_is_not_of_the_listener,
    goes_on_with_its_sessions_while_each_accept_is_refused,
    ends_by_a_socket_fault_where_the_listener_is_none,
    sends_what_waits_with_any_number_of_bytes_unread,
    lets_the_system_ask_for_a_peer_that_is_silent,
    gives_the_place_of_one_who_reads_nothing_to_another,
    gives_all_64_places_of_peers_that_are_gone_to_others,
    sends_each_byte_that_the_system_has_taken_when_a_signal_ends_it,
    ends_by_the_signals_that_end_programs_but_pipe,
]
