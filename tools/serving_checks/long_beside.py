"""Connections to which much is sent at once, beside those that reset units, end, read slowly or not at all, and beside
others that connect without end: each is answered as ever."""

import multiprocessing
import random
import socket
import struct
import threading
import time
from concurrent.futures import ThreadPoolExecutor
from contextlib import contextmanager

from serving_checks.loopback import (CONNECTIONS, LIMIT, answer_of, connect, descriptors_of, disk_file, is_answered,
                                     is_answered_at_last, is_closed, read, read_10, reset, serving, stopped)
from serving_checks.long_turns import BLOCKS, LENGTH, SHORT, logged_in, one_read, reads
from wire import notation, pdu

WHOLE = LENGTH // 512  # blocks of a READ of 1 MiB
BURST = 262144  # bytes that an R2T asks for
RESET, CLEARED = pdu.sense_data(0x06, 0x2903), pdu.sense_data(0x06, 0x2F00)  # what other sessions are told
ABORT_TASK, ABORT_TASK_SET, CLEAR_TASK_SET, UNIT_RESET, WARM_RESET = 1, 2, 4, 5, 6
ROUNDS = 3  # of all functions
WAIT = 30  # seconds that an answer may take: that is far more than it does
FLOODED = 3  # seconds for which others connect and close at least
FLOODS = 2  # processes that do
MANY = 20  # READs of a client: if of 1 MiB, the system does not take all their answers while nobody reads them
SLOWLY = 2000  # bytes that are read each by a call of its own: within the 60 seconds after which a peer counts as gone


def header_of(client):
    """The header of the next PDU."""
    header = read(client, pdu.HEADER)
    assert len(header) == pdu.HEADER, f"the answers end: {header.hex()}"
    return header


def ready(number):
    """A TEST UNIT READY with this CmdSN."""
    return notation.data(f"[TEST-UNIT-READY F ITT={number} CmdSN={number}]", {})


def reads_on(client, content, is_over):
    """READs 256 KiB at a time, two of them in flight, until that is over. How many were done, and how many were not since
    the units were reset."""
    places, done, told, sent = [8 * n for n in range(64)], 0, 0, 0
    while not is_over.is_set() or done + told < sent:
        while sent < done + told + 2 and not is_over.is_set():
            client.sendall(read_10(126 + sent, places[sent % 64], BLOCKS))
            sent += 1
        if done + told < sent:
            at = 512 * places[(done + told) % 64]
            data, status, sense = answer_of(client)
            if status == 0:
                assert data == content[at:at + 512 * BLOCKS], "data of another READ"
                done += 1
            else:
                assert (data, status) == (b"", 2) and sense in (RESET, CLEARED), (len(data), status, sense.hex())
                told += 1
    return done, told


@contextmanager
def reading(clients, content):
    """These clients read on meanwhile. In the end the list has what each of them did."""
    is_over, told = threading.Event(), []
    with ThreadPoolExecutor(len(clients)) as pool:
        others = [pool.submit(reads_on, client, content, is_over) for client in clients]
        try:
            yield told
        finally:
            is_over.set()
        told += [other.result() for other in others]


class Managing:
    """A session that removes its own commands, and resets units."""

    def __init__(self, address, number):
        self.client, self.number = logged_in(address, number), 125

    def command(self, operation, blocks=WHOLE):
        """A command of this operation code at the front of the disk."""
        flag = "R" if operation == 0x28 else "W"
        self.number += 1
        return notation.data(f"[SCSI-Command F {flag} ITT={self.number - 1} CmdSN={self.number - 1} "
                             f"ExpectedDataTransferLength={512 * blocks} CDB={operation:02x}000000000000{blocks:04x}]", {})

    def function(self, code, tag=0xFFFFFFFF):
        """A Task Management request for immediate delivery."""
        return notation.data(f"[Task-Management-Request I Function={code} LUN=0 ITT=9 CmdSN={self.number} "
                             f"ReferencedTaskTag={tag}]", {})

    def is_ready(self):
        """The next that the session is answered is that its unit is ready, and nothing before that."""
        self.number += 1
        self.client.sendall(ready(self.number - 1))
        return answer_of(self.client)

    def answered(self):
        """The response of the function that it is answered next."""
        header = header_of(self.client)
        assert header[0] == 0x22 and header[16:20] == struct.pack(">I", 9), header.hex()
        return header[2]

    def begins_to_write(self):
        """Sends a WRITE of 1 MiB without its data and a READ of 1 MiB after it, which waits. The R2T for the WRITE."""
        self.client.sendall(self.command(0x2A) + self.command(0x28))
        r2t = header_of(self.client)
        assert r2t[0] == 0x31 and r2t[40:48] == struct.pack(">II", 0, BURST), r2t.hex()
        return r2t

    def sends_burst(self, r2t):
        """Sends the data that an R2T asked for, in two Data-Outs, none of which is on the disk."""
        for n, last in enumerate(("", "F")):
            self.client.sendall(notation.data(
                f"[Data-Out {last} ITT={pdu.get(r2t, pdu.COMMON['ITT'])} TTT={pdu.get(r2t, pdu.TTT)} DataSN={n} "
                f"BufferOffset={n * BURST // 2} DataSegmentLength={BURST // 2}]", {}) + b"x" * (BURST // 2))

    def logs_out(self):
        """It is answered that it is logged out, and closed."""
        self.client.sendall(notation.data(f"[Logout-Request Reason=0 ITT={self.number} CmdSN={self.number}]", {}))
        header = header_of(self.client)
        assert (header[:1], header[2]) == (b"\x26", 0) and is_closed(self.client), header.hex()
        self.client.close()


def aborts_a_read(session, content):
    """A READ of 1 MiB is aborted right after it was sent: it is answered whole before the function is, or not at all."""
    request = session.command(0x28)
    session.client.sendall(request + session.function(ABORT_TASK, session.number - 1))
    header, data = header_of(session.client), b""
    while header[0] == 0x25:
        data += read(session.client, int.from_bytes(header[5:8], "big"))
        header = header_of(session.client)
    if data:
        assert data == content and header[:4] == b"\x21\x80\0\0", (len(data), header.hex())
        assert session.answered() == 1  # the task does not exist, since it is done
    else:
        assert header[:3] == b"\x22\x80\0", header.hex()


def removes_each_way(session, other):
    """Commands are removed by each function, and those of another session by those that reach it. None is answered."""
    r2t = session.begins_to_write()
    session.client.sendall(session.function(ABORT_TASK, session.number - 1))
    assert session.answered() == 0
    session.client.sendall(session.function(ABORT_TASK_SET))
    session.sends_burst(r2t)
    assert session.answered() == 0 and session.is_ready() == (b"", 0, b"")
    for code, told in ((CLEAR_TASK_SET, CLEARED), (UNIT_RESET, RESET), (WARM_RESET, RESET)):
        r2t, late = session.begins_to_write(), other.begins_to_write()
        session.client.sendall(session.function(code))
        session.sends_burst(r2t)
        assert session.answered() == 0, code
        other.sends_burst(late)
        assert other.is_ready() == (b"", 2, told), code
        if told == RESET:
            assert session.is_ready() == (b"", 2, RESET), code
        assert session.is_ready() == other.is_ready() == (b"", 0, b""), code


def answers_each_function_beside_62_that_read_much():
    content = random.Random(13).randbytes(LENGTH)
    with disk_file(content) as (path, units), serving(units=units) as (_, address):
        readers = [logged_in(address, number) for number in range(62)]
        with reading([one_read(client) for client in readers], content) as done:
            longest = 0
            for _ in range(ROUNDS):
                began = time.monotonic()
                session, other = Managing(address, 62), Managing(address, 63)
                aborts_a_read(session, content)
                removes_each_way(session, other)
                session.logs_out()
                other.logs_out()
                longest = max(longest, time.monotonic() - began)
        assert all(count > 0 and told > 0 for count, told in done), done
        assert longest < WAIT, longest
        assert path.read_bytes() == content


def half_close(client):
    """Ends what it sends, and goes on reading."""
    client.shutdown(socket.SHUT_WR)


class Stream:
    """A client, and what was read of it ahead."""

    def __init__(self, client, ahead):
        self.client, self.ahead = client, ahead

    def recv(self, count):
        """The next bytes, first those that were read ahead."""
        taken, self.ahead = self.ahead[:count], self.ahead[count:]
        return taken or self.client.recv(count)


def goes_on_when_those_that_read_much_end_in_the_middle_of_their_data():
    content = random.Random(16).randbytes(LENGTH)
    with disk_file(content) as (_, units), serving(units=units) as (process, address):
        others = [one_read(logged_in(address, number)) for number in range(16)]
        alone = descriptors_of(process)
        with reading(others, content) as done:
            for count in (1, pdu.HEADER, pdu.HEADER + 1, 65536, BURST, BURST + pdu.HEADER, LENGTH):
                for end in (socket.socket.close, reset, half_close):
                    client = logged_in(address, 20)
                    client.sendall(reads(4, WHOLE))
                    stream = Stream(client, read(client, count))
                    end(client)
                    if end == half_close:
                        assert is_front(read(stream, 5 * LENGTH), content), count
                        assert is_closed(client), count
                        client.close()
        assert has_at_last(process, alone)
        assert all(count > 0 and told == 0 for count, told in done), done


def is_front(answers, content):
    """These are the first bytes of the answers to READs of this content, each of which stands in its place."""
    at = 0
    while at + pdu.HEADER <= len(answers):
        header = answers[at:at + pdu.HEADER]
        length, offset = int.from_bytes(header[5:8], "big"), int.from_bytes(header[40:44], "big")
        data, at = answers[at + pdu.HEADER:at + pdu.HEADER + length], at + pdu.HEADER + length
        if header[0] == 0x25 and data != content[offset:offset + len(data)]:
            return False
    return True


def has_at_last(process, descriptors):
    """The program has this number of descriptors open, once it has seen who is gone."""
    until = time.monotonic() + LIMIT
    while descriptors_of(process) > descriptors and time.monotonic() < until:
        time.sleep(0.01)
    return descriptors_of(process) == descriptors


def waits_for_those_that_read_nothing_or_byte_by_byte_beside_others_that_read_much():
    content = random.Random(17).randbytes(LENGTH)
    with disk_file(content) as (_, units), serving(units=units) as (_, address):
        others = [one_read(logged_in(address, number)) for number in range(16)]
        silent, slow = ([logged_in(address, first + n) for n in range(2)] for first in (16, 18))
        with reading(others, content) as done:
            for client in silent + slow:
                client.sendall(reads(MANY, WHOLE))
            streams = [Stream(client, b"".join(read(client, 1) for _ in range(SLOWLY))) for client in slow]
        assert all(count > 0 and told == 0 for count, told in done), done
        # The turn of those that are stalled comes too, and nothing comes of it.
        one = one_read(logged_in(address, 20))
        for number in range(MANY):
            one.sendall(reads(1, SHORT, 126 + number))
            assert answer_of(one) == (content[:512 * SHORT], 0, b""), number
        for client in silent + streams:
            for number in range(MANY):
                assert answer_of(client) == (content, 0, b""), number


def ends_out_of_turn(process, address, content, count):
    """All of 16 that read much are ready, and some have ended, while it is the turn of one of them. Each has this number of
    READs to be done."""
    alone = descriptors_of(process)
    clients = [one_read(logged_in(address, number)) for number in range(16)]
    steady, halves, closed, gone = (clients[n::4] for n in range(4))
    with stopped(process):
        for client in clients:
            client.sendall(reads(count, SHORT, 126))
        for those, end in ((halves, half_close), (closed, socket.socket.close), (gone, reset)):
            for client in those:
                end(client)
    for client in steady + halves:
        for number in range(count):
            assert answer_of(client) == (content[:512 * SHORT], 0, b""), (count, number)
    assert all(is_closed(client) for client in halves), count
    assert has_at_last(process, alone + len(steady)), count
    for client in steady:
        client.sendall(ready(126 + count))
        assert answer_of(client) == (b"", 0, b""), count
        client.close()
    assert has_at_last(process, alone), count


def sees_that_peers_end_while_it_is_not_their_turn():
    content = random.Random(18).randbytes(LENGTH)
    with disk_file(content) as (_, units), serving(units=units) as (process, address):
        for count in (1, 2, MANY):
            ends_out_of_turn(process, address, content, count)


def connects_and_resets(address, is_over, count):
    """Connects and ends at once, over and over until that is over. Counts how often."""
    while not is_over.is_set():
        try:
            reset(connect(address))
        except OSError:
            continue
        with count.get_lock():
            count.value += 1


@contextmanager
def flooded(address):
    """Processes of their own connect and end meanwhile, as fast as they can, so that somebody always waits to be accepted."""
    own = multiprocessing.get_context("fork")
    is_over, count = own.Event(), own.Value("q", 0)
    floods = [own.Process(target=connects_and_resets, args=(address, is_over, count)) for _ in range(FLOODS)]
    for flood in floods:
        flood.start()
    try:
        yield count
    finally:
        is_over.set()
        for flood in floods:
            flood.join()


def answers_one_and_8_that_read_much_beside_a_listener_that_is_always_ready():
    content = random.Random(19).randbytes(LENGTH)
    for is_full in (False, True):
        with disk_file(content) as (_, units), serving(units=units) as (_, address):
            one, *much = (one_read(logged_in(address, number)) for number in range(9))
            held = [logged_in(address, 9 + number) for number in range(CONNECTIONS - 9 if is_full else 0)]
            began, number, longest = time.monotonic(), 126, 0
            with flooded(address) as count, reading(much, content) as done:
                while count.value <= CONNECTIONS or time.monotonic() - began < FLOODED:
                    sent = time.monotonic()
                    one.sendall(ready(number))
                    assert answer_of(one) == (b"", 0, b""), number
                    longest, number = max(longest, time.monotonic() - sent), number + 1
                    assert longest < WAIT and sent - began < LIMIT, (longest, count.value)
            assert all(read_them > 0 and told == 0 for read_them, told in done), done
            for client in held:
                client.sendall(ready(125))
                assert answer_of(client) == (b"", 0, b"")
            assert is_full or is_answered_at_last(address, 99, 9)


CHECKS = [
    answers_each_function_beside_62_that_read_much,
    goes_on_when_those_that_read_much_end_in_the_middle_of_their_data,
    waits_for_those_that_read_nothing_or_byte_by_byte_beside_others_that_read_much,
    sees_that_peers_end_while_it_is_not_their_turn,
    answers_one_and_8_that_read_much_beside_a_listener_that_is_always_ready,
]
