"""Clients that mean harm: pings whose answers nobody reads, halves of PDUs, headers and PDUs without sense, connections
without end, a reset at each byte of a write. The others are answered meanwhile, the program takes no more memory than each
connection may make it hold, and gives it back in the end."""

import random
import select
import struct
import threading
import time
from pathlib import Path

from serving_checks.loopback import (LIMIT, READY_AGAIN, UNITS, answer_of, answers, connect, disk_file,
                                     held_clients, is_answered, read, read_10, requests, reset, serving)
from wire import notation, pdu

MEBIBYTE = 1 << 20
PING = 262144  # bytes of data, as many as a PDU may bear
# What one connection may make the program hold if nothing is read of it: what waits to be sent, up to 1 MiB and the
# answer that passes this mark, a frame that is not whole, and what is ahead.
MOST_HELD = 2 * MEBIBYTE
SLACK = 32 * MEBIBYTE  # what the C library may keep for itself
GREEDY = notation.data("[Login-Request T CSG=1 NSG=3 ISID=0x400000000099 CmdSN=123 | "
                       '"InitiatorName=greedy" 00 "TargetName=t1" 00 "MaxRecvDataSegmentLength=16777215" 00]', {})
PINGS = notation.data(f"[NOP-Out I ITT=7 CmdSN=123 DataSegmentLength={PING}]", {}) + bytes(PING)
RESET_0 = notation.data("[Task-Management-Request I Function=5 LUN=0 ITT=1000 CmdSN=125 ReferencedTaskTag=0xffffffff]", {})
FLOOD = 64 * MEBIBYTE  # bytes that a client sends at most who sends without end


def resident(process):
    """How many bytes of memory the program has (proc(5))."""
    for line in Path(f"/proc/{process.pid}/status").read_text(encoding="ascii").splitlines():
        if line.startswith("VmRSS:"):
            return int(line.split()[1]) * 1024
    raise AssertionError("no VmRSS")


def gives_back(process, before):
    """The program has what it had before, or soon has it, but for what the C library keeps."""
    until = time.monotonic() + LIMIT
    while resident(process) > before + SLACK and time.monotonic() < until:
        time.sleep(0.05)
    return resident(process) <= before + SLACK


def pushed(client, data, most, sent=0):
    """Sends this again and again, after what was sent of it before, until so many bytes were taken or more, or nothing is
    for half a second. How many were."""
    client.setblocking(False)
    while sent < most and select.select([], [client], [], 0.5)[1]:
        at = sent % len(data)
        sent += client.send(data[at:at + MEBIBYTE])
    client.settimeout(LIMIT)
    return sent


def queued(local, remote):
    """How many bytes of a TCP connection the system has: what its end at this port sent and the other one has not taken,
    and what came to it and was not read (proc_net_tcp of the kernel's documentation)."""
    for line in Path("/proc/net/tcp").read_text(encoding="ascii").splitlines()[1:]:
        _, here, there, _, queues, *_ = line.split()
        if (int(here.rpartition(":")[2], 16), int(there.rpartition(":")[2], 16)) == (local, remote):
            return tuple(int(count, 16) for count in queues.split(":"))
    raise AssertionError("the connection is not in /proc/net/tcp")


def waiting(client, sent):
    """How many bytes of the answers to its pings wait in the program, of a client that sent so many bytes of pings and
    reads nothing."""
    here, there = client.getsockname()[1], client.getpeername()[1]
    (unsent, unread), (taken, untaken) = queued(here, there), queued(there, here)
    return 104 + (sent - unsent - untaken) // len(PINGS) * len(PINGS) - unread - taken


def ready(number):
    """A TEST UNIT READY with this CmdSN and Initiator Task Tag."""
    return READY_AGAIN[:16] + struct.pack(">I", number) + READY_AGAIN[20:24] + struct.pack(">I", number) + READY_AGAIN[28:]


def goes_on(client, number):
    """A client whose session has begun is answered: how many seconds that took."""
    began = time.monotonic()
    client.sendall(ready(number))
    header = read(client, pdu.HEADER)
    assert header[:4] == b"\x21\x80\0\0" and header[16:20] == struct.pack(">I", number), header.hex()
    return time.monotonic() - began


def goes_on_after_resets(client, number):
    """A client is answered, but is told first if another one has reset the units: the number of its next command."""
    client.sendall(ready(number))
    header = read(client, pdu.HEADER)
    told = read(client, 20) if header[:4] == b"\x21\x80\0\x02" else b""
    if not told:
        assert header[:4] == b"\x21\x80\0\0" and header[16:20] == struct.pack(">I", number), header.hex()
        return number + 1
    assert told[4] == 0x06 and told[14:16] == b"\x29\x03", told.hex()
    return goes_on_after_resets(client, number + 1)


def stops_reading_pings_whose_answers_nobody_reads():
    with serving() as (process, address), connect(address) as other:
        assert is_answered(other, 1, 0)
        before = resident(process)
        with connect(address) as greedy:
            greedy.sendall(GREEDY)
            taken = pushed(greedy, PINGS, FLOOD)
            # It is not read on once more than 1 MiB waits.
            until = time.monotonic() + LIMIT
            while waiting(greedy, taken) <= MEBIBYTE and time.monotonic() < until:
                taken = pushed(greedy, PINGS, FLOOD, taken)
            assert MEBIBYTE < waiting(greedy, taken) <= MEBIBYTE + len(PINGS), waiting(greedy, taken)
            # What was taken beyond what the program holds lies in the buffers of the system.
            assert taken < FLOOD, taken
            for number in range(20):
                goes_on(other, 125 + number)
            assert resident(process) < before + MOST_HELD + SLACK, resident(process) - before
            # All that was sent whole is answered once it is read.
            login, whole = read(greedy, 104), taken // len(PINGS)
            assert len(login) == 104
            for number in range(whole):
                answer = read(greedy, len(PINGS))
                assert len(answer) == len(PINGS) and answer[0] == 0x20, number
        assert gives_back(process, before), resident(process) - before


def answers_one_beside_63_who_ping_and_read_nothing():
    with serving() as (process, address):
        clients = held_clients(address, 64)
        assert is_answered(clients[0], 0, 0)
        before = resident(process)
        for n, client in enumerate(clients[1:], 1):
            client.sendall(GREEDY.replace(b"greedy", b"gree%02d" % n))
            pushed(client, PINGS, 8 * MEBIBYTE)
            goes_on(clients[0], 124 + n)
        assert resident(process) < before + 63 * MOST_HELD + SLACK, resident(process) - before
        for client in clients[1:]:
            reset(client)
        assert gives_back(process, before), resident(process) - before
        goes_on(clients[0], 188)
        clients[0].close()


def keeps_no_room_of_large_answers_for_those_who_are_idle():
    with serving(units=UNITS.replace("blocks = 8", "blocks = 2048")) as (process, address):
        clients = held_clients(address, 64)
        for n, client in enumerate(clients):
            assert is_answered(client, n, n), n
        before = resident(process)
        for client in clients[1:]:
            client.sendall(read_10(125, 0, 2048))
            data, status, _ = answer_of(client)
            assert (len(data), status) == (MEBIBYTE, 0), (len(data), status)
        # What is sent to the one that is not idle is the time by which the others give back what they do not need.
        for number in range(64):
            goes_on(clients[0], 125 + number)
        assert gives_back(process, before), resident(process) - before
        for client in clients:
            client.close()


def holds_no_more_than_a_frame_of_those_who_send_half_a_pdu():
    half = notation.data(f"[SCSI-Command F W ITT=9 CmdSN=125 ExpectedDataTransferLength={PING} DataSegmentLength={PING} "
                         f"CDB=2a00000000000008]", {}) + bytes(PING // 2)
    with serving() as (process, address):
        clients = held_clients(address, 64)
        for n, client in enumerate(clients):
            assert is_answered(client, n, n), n
        before = resident(process)
        for client in clients[1:]:
            client.sendall(half)
        for number in range(20):
            goes_on(clients[0], 125 + number)
        assert resident(process) < before + 63 * MOST_HELD + SLACK, resident(process) - before
        for client in clients[1:]:
            reset(client)
        assert gives_back(process, before), resident(process) - before
        goes_on(clients[0], 145)
        clients[0].close()


def write_command(number):
    """A WRITE of a long PDU's data at the front of a disk, none of which comes with it."""
    return notation.data(f"[SCSI-Command F W ITT={number} CmdSN={number} ExpectedDataTransferLength={PING} "
                         f"CDB=2a000000000000{PING // 512:04x}00]", {})


def all_is_read(client):
    """The program has read all that this client sent (within the limit)."""
    here, there = client.getsockname()[1], client.getpeername()[1]
    until = time.monotonic() + LIMIT
    while (queued(here, there)[0] or queued(there, here)[1]) and time.monotonic() < until:
        time.sleep(0.01)
    return not (queued(here, there)[0] or queued(there, here)[1])


def counts_data_that_no_command_takes():
    lost = notation.data(f"[Data-Out ITT=9 TTT=0xFFFFFFFF DataSegmentLength={PING}]", {}) + bytes(PING)
    wrong = notation.data(f"[Data-Out F ITT=125 TTT=0 BufferOffset=512 DataSegmentLength={PING}]", {}) + bytes(PING)
    with serving(units=UNITS.replace("blocks = 8", "blocks = 2048")) as (process, address):
        clients = held_clients(address, 64)
        for n, client in enumerate(clients):
            assert is_answered(client, n, n), n
        for client in clients[1::2]:
            client.sendall(write_command(125))
            assert read(client, pdu.HEADER)[:1] == b"\x31"
        before = resident(process)
        for client, data in zip(clients, [lost, wrong] * 32):
            client.sendall(data[:-1])
        for client in clients:
            assert all_is_read(client)
        assert resident(process) < before + 2 * MEBIBYTE, resident(process) - before
        # A Data-Out of no command is dropped, and one with a fault is a violation, once it is whole.
        for client in clients[::2]:
            client.sendall(lost[-1:])
            goes_on(client, 125)
        for client in clients[1::2]:
            client.sendall(wrong[-1:])
            assert client.recv(1) == b""
        for client in clients:
            client.close()


def drops_counted_data_of_a_command_that_another_session_removed():
    wrong = notation.data(f"[Data-Out F ITT=125 TTT=0 BufferOffset=512 DataSegmentLength={PING}]", {}) + bytes(PING)
    right = notation.data(f"[Data-Out F ITT=125 TTT=0 BufferOffset=0 DataSegmentLength={PING}]", {}) + bytes(PING)
    for data in (wrong, right):
        for count in (pdu.HEADER, pdu.HEADER + 100, len(data) // 2, len(data) - 1):
            with serving(units=UNITS.replace("blocks = 8", "blocks = 2048")) as (_, address):
                with connect(address) as other, connect(address) as client:
                    assert is_answered(other, 1, 0) and is_answered(client, 2, 1)
                    client.sendall(write_command(125))
                    assert read(client, pdu.HEADER)[:1] == b"\x31"
                    client.sendall(data[:count])
                    assert all_is_read(client)
                    other.sendall(RESET_0)
                    assert read(other, pdu.HEADER)[:3] == b"\x22\x80\0"
                    client.sendall(data[count:])
                    goes_on_after_resets(client, 126)


def answers_the_others_beside_floods_of_headers():
    unknown, snack, late = bytes([0x1C, 0x80]) + bytes(46), bytes([0x10, 0x80]) + bytes(46), ready(5000)
    with serving() as (process, address), connect(address) as other:
        assert is_answered(other, 1, 0)
        before, number = resident(process), 125
        for header in (unknown, snack, late):
            with connect(address) as flood:
                assert has_begun(flood, 2)
                pushed(flood, header * 1000, 4 * MEBIBYTE)
                for _ in range(20):
                    goes_on(other, number)
                    number += 1
                assert resident(process) < before + MOST_HELD + SLACK, resident(process) - before
        assert gives_back(process, before), resident(process) - before


def has_begun(client, number):
    """A session begins, whatever the number of its connection."""
    client.sendall(requests(number))
    told = read(client, len(answers(0)))
    return told[:14] == answers(0)[:14] and told[16:] == answers(0)[16:]


def random_pdus(chance, count):
    """PDUs of any fields and short data, whose lengths are right."""
    pdus = b""
    for number in range(count):
        data = chance.randbytes(chance.choice([0, 0, 1, 4, 511, 512]))
        opcode = chance.choice([0x00, 0x01, 0x02, 0x04, 0x05, 0x10, 0x1C]) | chance.choice([0, 0x40])
        lengths = bytes([0]) + struct.pack(">I", len(data))[1:]
        header = bytearray([opcode]) + chance.randbytes(3) + lengths + chance.randbytes(40)
        if chance.random() < 0.7:  # a number that is looked at
            header[24:28] = struct.pack(">I", 125 + number)
        pdus += header + data + bytes(pdu.padding(len(data)))
    return pdus


def ends_no_other_session_by_random_pdus():
    chance = random.Random(26)
    with serving() as (process, address), connect(address) as other:
        assert is_answered(other, 1, 0)
        before, number = resident(process), 125
        for _ in range(300):
            with connect(address) as wild:
                assert has_begun(wild, 2)
                try:
                    wild.sendall(random_pdus(chance, 20))
                except (BrokenPipeError, ConnectionResetError):
                    pass
            number = goes_on_after_resets(other, number)
        assert gives_back(process, before), resident(process) - before


def answers_the_others_while_one_connects_without_end():
    with serving() as (process, address), connect(address) as other:
        assert is_answered(other, 1, 0)
        is_over = threading.Event()

        def connects():
            while not is_over.is_set():
                try:
                    reset(connect(address))
                except OSError:
                    pass
        threads = [threading.Thread(target=connects) for _ in range(4)]
        for thread in threads:
            thread.start()
        try:
            for number in range(500):
                goes_on(other, 125 + number)
        finally:
            is_over.set()
            for thread in threads:
                thread.join()
        assert process.poll() is None


def writes_all_or_nothing_of_one_who_is_reset_at_any_byte():
    content = random.Random(27).randbytes(512 * 2)
    command = notation.data("[SCSI-Command F W ITT=9 CmdSN=125 ExpectedDataTransferLength=1024 "
                            "CDB=2a000000000000000200]", {})
    data = notation.data("[Data-Out F ITT=9 TTT=0 DataSN=0 BufferOffset=0 DataSegmentLength=1024]", {}) + content
    with disk_file(bytes(512 * 8)) as (path, units), serving(units=units) as (process, address), connect(address) as other:
        assert is_answered(other, 1, 0)
        for count in range(len(command + data)):
            client = connect(address)
            assert has_begun(client, 2), count
            client.sendall(command[:count])
            if count >= len(command):
                assert read(client, pdu.HEADER)[:1] == b"\x31", count
                client.sendall(data[:count - len(command)])
            reset(client)
        goes_on(other, 125)
        assert path.read_bytes() == bytes(512 * 8)
        with connect(address) as client:
            assert has_begun(client, 2)
            client.sendall(command)
            assert read(client, pdu.HEADER)[:1] == b"\x31"
            client.sendall(data)
            assert read(client, pdu.HEADER)[:4] == b"\x21\x80\0\0"
        assert path.read_bytes() == content + bytes(512 * 6)
        assert process.poll() is None


CHECKS = [
    stops_reading_pings_whose_answers_nobody_reads,
    answers_one_beside_63_who_ping_and_read_nothing,
    keeps_no_room_of_large_answers_for_those_who_are_idle,
    holds_no_more_than_a_frame_of_those_who_send_half_a_pdu,
    counts_data_that_no_command_takes,
    drops_counted_data_of_a_command_that_another_session_removed,
    answers_the_others_beside_floods_of_headers,
    ends_no_other_session_by_random_pdus,
    answers_the_others_while_one_connects_without_end,
    writes_all_or_nothing_of_one_who_is_reset_at_any_byte,
]
