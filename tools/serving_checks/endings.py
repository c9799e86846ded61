"""How connections end, and what of their answers still arrives: closed by the target with bytes unread, by a
signal to the program, by a peer that is gone."""

import ctypes
import os
import random
import shutil
import signal
import socket
import subprocess
import threading
import time
from contextlib import contextmanager

from serving_checks.loopback import (LIMIT, LOGIN, TOP, answer_of, answers, connect, disk_file, is_answered,
                                     processor_time, read, read_10, requests, serving)
from wire import pdu

BLOCKS = 512  # blocks of a READ of 256 KiB
UNREAD = (0, 1, 4096, 65536, 262144, 1 << 20)  # bytes for which the target has no more use
MOST_UNREAD = 1 << 24  # bytes that the target reads of a connection that it has closed
WITHOUT_END = 1 << 30  # bytes beyond that, and beyond those that any system holds for a connection
SOONER = TOP / "tools/out/sooner.so"
TARGET, INITIATOR = f"targetd-target-{os.getpid()}", f"targetd-initiator-{os.getpid()}"  # network namespaces
CLONE_NEWNET = 0x40000000  # sched(7)


def reads(count):
    """READs of 256 KiB each, one after the other."""
    return b"".join(read_10(125 + n, BLOCKS * n, BLOCKS) for n in range(count))


def rest_of(client):
    """All that still comes, and whether the connection was reset in the end."""
    data = b""
    try:
        while piece := client.recv(1 << 16):
            data += piece
    except ConnectionResetError:
        return data, True
    return data, False


@contextmanager
def disk_of_reads(count):
    """A disk that so many READs read whole: its content, the program and its address."""
    content = random.Random(7).randbytes(512 * BLOCKS * count)
    with disk_file(content) as (_, units), serving(units=units) as (process, address):
        yield content, process, address


def sends_what_waits_before_it_closes_whatever_it_has_not_read():
    with disk_of_reads(3) as (content, _, address):
        for unread in UNREAD:
            with connect(address) as client:
                assert is_answered(client, 1, 0), unread
                client.sendall(reads(3) + LOGIN)
                sending = threading.Thread(target=client.sendall, args=(bytes(unread),))
                sending.start()
                time.sleep(1)
                for n in range(3):
                    part = content[512 * BLOCKS * n:512 * BLOCKS * (n + 1)]
                    assert answer_of(client) == (part, 0, b""), f"{unread} bytes unread, READ {n}"
                assert rest_of(client) == (b"", False), f"{unread} bytes unread"
                sending.join()


def closes_at_last_on_one_who_sends_without_end():
    with serving() as (_, address), connect(address) as client:
        assert is_answered(client, 1, 0)
        client.sendall(LOGIN)
        assert client.recv(1) == b""
        sent = 0
        try:
            while sent <= WITHOUT_END:
                sent += client.send(bytes(1 << 16))
        except (ConnectionResetError, BrokenPipeError):
            pass
        assert MOST_UNREAD <= sent <= WITHOUT_END, sent


def takes_others_while_one_that_it_closed_stays():
    with serving() as (process, address), connect(address) as silent:
        assert is_answered(silent, 1, 0)
        silent.sendall(LOGIN)
        assert silent.recv(1) == b""
        before = processor_time(process)
        time.sleep(1)
        assert processor_time(process) - before < 0.1, "it spins"
        with connect(address) as other:
            assert is_answered(other, 2, 0)


def sends_what_the_system_has_taken_when_a_signal_ends_it():
    for number in (signal.SIGTERM, signal.SIGINT, signal.SIGHUP):
        with disk_of_reads(3) as (content, process, address), connect(address) as client:
            assert is_answered(client, 1, 0)
            client.sendall(reads(3))
            for n in range(2):
                part = content[512 * BLOCKS * n:512 * BLOCKS * (n + 1)]
                assert answer_of(client) == (part, 0, b""), f"READ {n}"
            assert len(client.recv(1, socket.MSG_PEEK)) == 1
            process.send_signal(number)
            assert process.wait(LIMIT) == -number
            with serving(f"{address[0]}:{address[1]}") as (_, again), connect(again) as other:
                assert is_answered(other, 2, 0), number
            rest, is_reset = rest_of(client)
            last = content[2 * 512 * BLOCKS:]
            assert not is_reset and rest[pdu.HEADER:pdu.HEADER + 4096] == last[:4096], (number, len(rest))


def ip(*words):
    subprocess.run(["ip", *words], check=True, capture_output=True, timeout=LIMIT)


@contextmanager
def two_networks():
    """Two network namespaces with a link between them: 10.199.0.1 is the target's end, 10.199.0.2 the initiator's."""
    try:
        for n, name in enumerate((TARGET, INITIATOR), 1):
            ip("netns", "add", name)
            ip("-n", name, "link", "set", "lo", "up")
        ip("link", "add", "t0", "netns", TARGET, "type", "veth", "peer", "name", "i0", "netns", INITIATOR)
        for n, (name, link) in enumerate(((TARGET, "t0"), (INITIATOR, "i0")), 1):
            ip("-n", name, "address", "add", f"10.199.0.{n}/24", "dev", link)
            ip("-n", name, "link", "set", link, "up")
        yield
    finally:
        for name in (TARGET, INITIATOR):
            subprocess.run(["ip", "netns", "delete", name], check=False, capture_output=True, timeout=LIMIT)


def may_make_networks():
    """Network namespaces can be made here: that wants root, the command ip and a system that lets root do so. The
    library that is loaded into the program there wants gcc."""
    if os.geteuid() != 0 or not shutil.which("ip") or not shutil.which("gcc"):
        return False
    try:
        with two_networks():
            return True
    except (OSError, subprocess.SubprocessError):
        return False


def connect_in(name, address):
    """A client in a network namespace."""
    system = ctypes.CDLL(None, use_errno=True)
    with open("/proc/self/ns/net", "rb") as own, open(f"/run/netns/{name}", "rb") as other:
        assert system.setns(other.fileno(), CLONE_NEWNET) == 0, os.strerror(ctypes.get_errno())
        try:
            return connect(address)
        finally:
            system.setns(own.fileno(), CLONE_NEWNET)


def is_first(address):
    """One who logs in beside the target has connection 0."""
    with connect_in(TARGET, address) as client:
        client.sendall(requests(2))
        return read(client, len(answers(0))) == answers(0)


def gives_the_place_of_a_peer_that_is_gone_to_another():
    SOONER.parent.mkdir(exist_ok=True)
    subprocess.run(["gcc", "-O1", "-Wall", "-Wextra", "-Werror", "-shared", "-fPIC", "-o", SOONER,
                    TOP / "tools/serving_checks/sooner.c"], check=True)
    by = ["ip", "netns", "exec", TARGET, "env", f"LD_PRELOAD={SOONER}"]
    with two_networks(), serving("10.199.0.1:0", by=by) as (_, address):
        with connect_in(INITIATOR, address) as client:
            assert is_answered(client, 1, 0)
            assert not is_first(address)
            ip("-n", INITIATOR, "link", "set", "i0", "down")
            began = time.monotonic()
            while not is_first(address):
                assert time.monotonic() - began < LIMIT, "the place is still taken"
                time.sleep(0.5)


CHECKS = [
    sends_what_waits_before_it_closes_whatever_it_has_not_read,
    closes_at_last_on_one_who_sends_without_end,
    takes_others_while_one_that_it_closed_stays,
    sends_what_the_system_has_taken_when_a_signal_ends_it,
]
if may_make_networks():
    CHECKS.append(gives_the_place_of_a_peer_that_is_gone_to_another)
else:
    print("not shown, since no network namespaces can be made: that the place of a peer that is gone is given to another")
