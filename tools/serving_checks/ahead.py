"""What the ports read ahead of the target: sessions in any pieces, many commands at once, resets, ends and violations
with commands after them, slow clients beside busy ones."""

import random
import select
import socket
import struct
import threading
import time

from serving_checks.loopback import (CONNECTIONS, LOGIN, READY, READY_AGAIN, UNITS, answer_of, answers, connect,
                                     disk_file, held_clients, is_answered, is_closed, read, read_10, requests,
                                     reset, serving, stopped)
from wire import notation, pdu

AHEAD = 65536  # bytes that are read ahead of a connection at most
LONG = 2 * AHEAD // pdu.HEADER  # commands that are more than may be ahead
READS = 300  # of 256 KiB: their answers are more than any system takes while they are not read
SETTING_UP = 200  # turns: more than two logins take
BUSY = 400  # commands, of which a turn does one at most
BIG_UNITS = UNITS.replace("blocks = 8", "blocks = 4096")


def ready(number):
    """A TEST UNIT READY with this CmdSN and Initiator Task Tag."""
    return READY_AGAIN[:16] + struct.pack(">I", number) + READY_AGAIN[20:24] + struct.pack(">I", number) + READY_AGAIN[28:]


def commands(count, first=125):
    return b"".join(ready(first + n) for n in range(count))


def are_good(data, first=125):
    """SCSI Responses, each GOOD, to commands from this number on. How many there are."""
    whole = [data[at:at + pdu.HEADER] for at in range(0, len(data) - pdu.HEADER + 1, pdu.HEADER)]
    for n, header in enumerate(whole):
        assert header[:4] == b"\x21\x80\0\0" and header[16:20] == struct.pack(">I", first + n), f"answer {n}: {header.hex()}"
    return len(whole)


def write_10(number, address, content):
    """A WRITE (10) whose data comes with it."""
    return notation.data(f"[SCSI-Command F W ITT={number} CmdSN={number} "
                         f"ExpectedDataTransferLength={len(content)} DataSegmentLength={len(content)} "
                         f"CDB=2a00{address:08x}00{len(content) // 512:04x}]", {}) + content


def answers_a_session_that_is_cut_in_two_at_any_byte():
    with serving() as (_, address):
        whole = requests(1)
        for count in range(1, len(whole)):
            with connect(address) as client:
                client.setsockopt(socket.IPPROTO_TCP, socket.TCP_NODELAY, 1)
                client.sendall(whole[:count])
                time.sleep(0.002)
                client.sendall(whole[count:])
                data = read(client, len(answers(0)))
                assert data[:14] == answers(0)[:14] and data[16:] == answers(0)[16:], f"cut at {count}: {data.hex()}"


def answers_more_commands_than_it_reads_at_once():
    with serving() as (_, address), connect(address) as client:
        assert is_answered(client, 1, 0)
        client.sendall(commands(LONG))
        assert are_good(read(client, pdu.HEADER * LONG)) == LONG


def answers_all_that_came_before_an_end():
    with serving() as (_, address):
        for count in (0, 1, 2, AHEAD // pdu.HEADER, AHEAD // pdu.HEADER + 1, LONG):
            with connect(address) as client:
                assert is_answered(client, 1, 0), count
                client.sendall(commands(count) + ready(125 + count)[:20])
                client.shutdown(socket.SHUT_WR)
                assert are_good(read(client, pdu.HEADER * (count + 1))) == count, count
                assert is_closed(client), count


def answers_the_whole_requests_of_one_who_ends_at_any_byte():
    with serving() as (_, address):
        whole = requests(1)
        for sent in range(len(whole) + 1):
            with connect(address) as client:
                client.sendall(whole[:sent])
                client.shutdown(socket.SHUT_WR)
                count = sum(length for end, length in ((80, 104), (128, 68), (176, 48)) if sent >= end)
                data = read(client, len(answers(0)) + 1)
                assert data[16:] == answers(0)[16:count] and len(data) == count, f"after {sent} bytes: {data.hex()}"


def ends_only_the_connection_that_is_reset_with_commands_ahead():
    with serving() as (_, address), connect(address) as steady:
        assert is_answered(steady, 99, 0)
        for number in range(100):
            gone = connect(address)
            gone.sendall(requests(1) + commands(10 * number))
            reset(gone)
            steady.sendall(ready(125 + number))
            assert are_good(read(steady, pdu.HEADER), 125 + number) == 1, number


def carries_out_nothing_after_a_violation():
    content = bytes([7]) * 512
    with disk_file(bytes(512 * 8)) as (path, units), serving(units=units) as (_, address):
        for before in (0, 1, 30):
            with connect(address) as client:
                assert is_answered(client, 1, 0), before
                writes = b"".join(write_10(125 + before + n, 0, content) for n in range(20))
                client.sendall(commands(before) + LOGIN + writes)
                assert are_good(read(client, pdu.HEADER * (before + 1))) == before, before
                assert is_closed(client), before
            assert path.read_bytes() == bytes(512 * 8), before
        with connect(address) as client:
            assert is_answered(client, 1, 0)
            client.sendall(write_10(125, 0, content))
            assert are_good(read(client, pdu.HEADER)) == 1
        assert path.read_bytes()[:512] == content


def begins_with_nothing_ahead_under_a_number_that_was_used():
    with serving() as (_, address):
        for _ in range(20):
            with connect(address) as first:
                first.sendall(requests(1) + LOGIN + commands(100))
                data = read(first, len(answers(0)) + 1)
                assert len(data) == len(answers(0)), data.hex()
            with connect(address) as second:
                second.sendall(requests(2))
                assert read(second, len(answers(0)))[16:] == answers(0)[16:]


def answers_what_came_after_urgent_data():
    # A read ends at the mark of the urgent byte, which is no part of the stream. Nothing more comes after it.
    with serving() as (process, address), connect(address) as client:
        with stopped(process):
            client.sendall(LOGIN + READY)
            client.send(b"!", socket.MSG_OOB)
            client.sendall(READY_AGAIN)
            time.sleep(0.1)
        data = read(client, len(answers(0)))
        assert data == answers(0), data.hex()
        client.send(b"!", socket.MSG_OOB)
        client.sendall(commands(1))
        assert are_good(read(client, pdu.HEADER)) == 1


def serves_a_slow_client_beside_63_floods():
    with serving(units=BIG_UNITS) as (_, address):
        clients = held_clients(address, CONNECTIONS)
        for n, client in enumerate(clients):
            assert is_answered(client, n), n
        slow, busy = clients[0], clients[1:]
        for client in busy:
            client.sendall(commands(1000))
        for number in range(20):
            request = ready(125 + number)
            for at in range(0, pdu.HEADER, 16):
                slow.sendall(request[at:at + 16])
            assert are_good(read(slow, pdu.HEADER), 125 + number) == 1, number
        for n, client in enumerate(busy):
            assert are_good(read(client, pdu.HEADER * 1000)) == 1000, n
        for client in clients:
            client.close()


def goes_on_for_the_others_while_one_does_not_read():
    with serving(units=BIG_UNITS) as (_, address):
        with connect(address) as stalled, connect(address) as other:
            assert is_answered(stalled, 1) and is_answered(other, 2)
            unsent = b"".join(read_10(125 + n, 0, 512) for n in range(READS))
            while unsent and select.select([], [stalled], [], 0.2)[1]:
                unsent = unsent[stalled.send(unsent[:pdu.HEADER]):]
            for number in range(100):
                other.sendall(ready(125 + number))
                assert are_good(read(other, pdu.HEADER), 125 + number) == 1, number
            rest = threading.Thread(target=stalled.sendall, args=(unsent,))
            rest.start()
            for number in range(READS):
                assert answer_of(stalled) == (bytes(512 * 512), 0, b""), f"READ {number} of {READS}"
            rest.join()


def answers_commands_in_pieces_of_any_length():
    chance = random.Random(8)
    with serving() as (_, address), connect(address) as client:
        assert is_answered(client, 1, 0)
        rest, got = commands(3000), b""
        while rest:
            count = chance.choice([1, 47, 48, 49, 95, 1000, 5000, 70000])
            client.sendall(rest[:count])
            rest = rest[count:]
            while select.select([client], [], [], 0)[0]:
                got += client.recv(1 << 16)
        got += read(client, pdu.HEADER * 3000 - len(got))
        assert are_good(got) == 3000


def answers_commands_after_large_pdus_that_are_cut_anywhere():
    # After a large PDU the next header is read with what has come after it. If that is much, it is lent, and not copied.
    chance = random.Random(9)
    number, stored = 125, bytearray(AHEAD)
    with serving(units=BIG_UNITS) as (_, address), connect(address) as client:
        assert is_answered(client, 1, 0)
        client.setsockopt(socket.IPPROTO_TCP, socket.TCP_NODELAY, 1)
        for _ in range(300):
            few, content = chance.randrange(5), chance.randbytes(chance.choice([512, 4096, 4608, AHEAD // 2, AHEAD, AHEAD]))
            ends = [pdu.HEADER, pdu.HEADER + 4096, pdu.HEADER + len(content), 2 * pdu.HEADER + len(content)]
            whole = write_10(number, 0, content) + commands(few, number + 1)
            near = min(chance.choice(ends) + chance.choice([-1, 0, 1]), len(whole))
            cuts = [0, *sorted([near, chance.randrange(len(whole))]), len(whole)]
            for start, end in zip(cuts, cuts[1:]):
                client.sendall(whole[start:end])
                time.sleep(chance.choice([0, 0.001]))
            assert are_good(read(client, pdu.HEADER * (few + 1)), number) == few + 1, cuts
            stored[:len(content)] = content
            number += few + 1
        client.sendall(read_10(number, 0, AHEAD // 512))
        assert answer_of(client) == (bytes(stored), 0, b"")


def two_that_send_at_once(address, process, counts):
    """Two clients that are logged in. What they send, so many commands each, is there before the program goes on."""
    clients = held_clients(address, 2)
    for n, client in enumerate(clients):
        assert is_answered(client, n), n
    with stopped(process):
        for client, count in zip(clients, counts):
            client.sendall(commands(count))
    return clients


def answers_another_while_one_is_busy():
    with serving("127.0.0.1:0", "--turns", str(SETTING_UP)) as (process, address):
        busy, other = two_that_send_at_once(address, process, (BUSY, 1))
        assert are_good(read(other, pdu.HEADER + 1)) == 1
        # The turns were over before all commands of the first were done.
        assert are_good(read(busy, pdu.HEADER * BUSY)) < BUSY


def serves_two_that_are_busy_side_by_side():
    # One after the other they would take twice as many turns.
    with serving("127.0.0.1:0", "--turns", str(SETTING_UP + BUSY)) as (process, address):
        for client in two_that_send_at_once(address, process, (BUSY, BUSY)):
            assert are_good(read(client, pdu.HEADER * BUSY)) == BUSY


CHECKS = [
    answers_a_session_that_is_cut_in_two_at_any_byte,
    answers_more_commands_than_it_reads_at_once,
    answers_all_that_came_before_an_end,
    answers_the_whole_requests_of_one_who_ends_at_any_byte,
    ends_only_the_connection_that_is_reset_with_commands_ahead,
    carries_out_nothing_after_a_violation,
    begins_with_nothing_ahead_under_a_number_that_was_used,
    answers_what_came_after_urgent_data,
    serves_a_slow_client_beside_63_floods,
    goes_on_for_the_others_while_one_does_not_read,
    answers_commands_in_pieces_of_any_length,
    answers_commands_after_large_pdus_that_are_cut_anywhere,
    answers_another_while_one_is_busy,
    serves_two_that_are_busy_side_by_side,
]
