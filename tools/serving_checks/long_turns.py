"""Connections to which much is sent at once take turns: each is answered whole, and nobody waits for one that does not read."""

import random
import threading
from concurrent.futures import ThreadPoolExecutor
from pathlib import Path

from serving_checks.ahead import commands
from serving_checks.loopback import (CONNECTIONS, READY_AGAIN, answer_of, connect, disk_file, held_clients,
                                     is_answered, is_answered_at_last, read, read_10, reset, serving, stopped,
                                     writing)
from wire import notation, pdu

LENGTH = 1 << 20  # bytes of the disk
BLOCKS = 512  # of a READ: 256 KiB, which goes in one PDU
SHORT = 128  # blocks of a READ of 64 KiB
WHOLE = LENGTH // 512  # blocks of a READ of the disk, 1 MiB
AT_ONCE = 24 << 20  # bytes that the answers in flight may take: far fewer than 64 MiB, and more than eight of them
QUEUED = 30  # commands that a session may have unanswered, and some less
TURNS = 200  # more than the logins take, and fewer than all READs of eight
TURNS_OF_ALL = 700  # the same of 24 that read much and 16 that ask for little
MOST_WAITED = 64  # turns


def logged_in(address, number):
    """A client that takes 262,144 bytes in a PDU."""
    client = connect(address)
    client.sendall(notation.data(
        '[Login-Request I T CSG=1 NSG=3 ISID=800000000000 ITT=1 CmdSN=123 | '
        f'"InitiatorName=long{number:02}" 00 "TargetName=t1" 00 "MaxRecvDataSegmentLength=262144" 00]', {}))
    header = read(client, pdu.HEADER)
    assert header[0] == 0x23 and header[36:38] == b"\0\0", header.hex()
    length = int.from_bytes(header[5:8], "big")
    read(client, length + pdu.padding(length))
    client.sendall(notation.data("[TEST-UNIT-READY F ITT=2 CmdSN=123]", {}))
    assert answer_of(client)[1] == 2  # the attention of a new session
    client.sendall(READY_AGAIN)
    assert answer_of(client)[1] == 0
    return client


def reads(count, blocks, first=125):
    """READs of the front of the disk."""
    return b"".join(read_10(first + n, 0, blocks) for n in range(count))


def answers_each_of_64_that_read_much():
    chance = random.Random(11)
    content = chance.randbytes(LENGTH)
    expected = (content[:512 * BLOCKS], 0, b"")
    with disk_file(content) as (_, units), serving(units=units) as (_, address):
        clients = [logged_in(address, number) for number in range(CONNECTIONS)]
        for client in clients:
            client.sendall(reads(4, BLOCKS))
        silent, ends, slow, *others = clients
        assert len(read(ends, 1000)) == 1000
        reset(ends)
        front = b"".join(read(slow, 1) for _ in range(500))
        for client in others:
            for _ in range(4):
                assert answer_of(client) == expected
        assert front[pdu.HEADER:] == content[:500 - pdu.HEADER]
        rest = read(slow, pdu.HEADER + 512 * BLOCKS - 500)
        assert front + rest == front[:pdu.HEADER] + content[:512 * BLOCKS]
        assert answer_of(slow) == (b"", 0, b"")
        for client, left in ((slow, 3), (silent, 4)):
            for _ in range(left):
                assert answer_of(client) == expected
        assert is_answered_at_last(address, 99, 1)


def answers_one_that_asks_for_little_beside_63_that_read_much():
    with disk_file(bytes(LENGTH)) as (_, units), serving(units=units) as (_, address):
        clients = [logged_in(address, number) for number in range(CONNECTIONS)]
        little, *much = clients
        for client in much:
            client.sendall(reads(QUEUED, BLOCKS))
        for number in range(50):
            little.sendall(notation.data(f"[TEST-UNIT-READY F ITT={125 + number} CmdSN={125 + number}]", {}))
            assert answer_of(little)[1] == 0
        # One that reads much, and then little, and much again.
        little.sendall(reads(1, BLOCKS, 175) + notation.data("[TEST-UNIT-READY F ITT=176 CmdSN=176]", {}) + reads(1, BLOCKS, 177))
        assert [len(answer_of(little)[0]) for _ in range(3)] == [512 * BLOCKS, 0, 512 * BLOCKS]
        for client in much[:20]:
            reset(client)
        assert is_answered_at_last(address, 99, 1)


def counted(client, counts, n):
    """Counts the answers that come until the end."""
    while len(header := read(client, pdu.HEADER)) == pdu.HEADER:
        length = int.from_bytes(header[5:8], "big")
        if len(read(client, length)) < length:
            return
        counts[n] += header[0] == 0x21


def gives_each_of_8_that_read_much_its_turn():
    with disk_file(bytes(LENGTH)) as (_, units), serving("127.0.0.1:0", "--turns", str(TURNS), units=units) as (process, address):
        clients = [logged_in(address, number) for number in range(8)]
        counts = [0] * len(clients)
        readers = [threading.Thread(target=counted, args=(client, counts, n)) for n, client in enumerate(clients)]
        for reader in readers:
            reader.start()
        with stopped(process):
            for client in clients:
                client.sendall(reads(QUEUED, SHORT))
        for reader in readers:
            reader.join()
        # A turn reads of one of them, each time of the next, so the turns are over before all is read.
        assert max(counts) - min(counts) <= 2, counts
        assert 4 <= min(counts) and max(counts) < QUEUED, counts


def one_read(client):
    """Reads 64 KiB, so that much is sent to the client at once."""
    client.sendall(reads(1, SHORT))
    assert len(answer_of(client)[0]) == 512 * SHORT
    return client


def lets_nobody_wait_for_more_than_64_turns():
    with disk_file(bytes(LENGTH)) as (_, units), \
            serving("127.0.0.1:0", "--turns", str(TURNS_OF_ALL), units=units) as (process, address):
        much = [one_read(logged_in(address, number)) for number in range(24)]
        little = {logged_in(address, 24 + n): 20 * (n + 1) for n in range(16)}
        clients = [*much, *little]
        counts = [0] * len(clients)
        readers = [threading.Thread(target=counted, args=(client, counts, n)) for n, client in enumerate(clients)]
        for reader in readers:
            reader.start()
        with stopped(process):
            for client in much:
                client.sendall(reads(QUEUED, SHORT, 126))
            for client, count in little.items():
                client.sendall(commands(count))
        for reader in readers:
            reader.join()
        # A turn reads of one that reads much, so they tell the turns. It reads of each other one, whose answers leave
        # once all its commands are done.
        turns = sum(counts[:len(much)])
        told = [(count, answered) for count, answered in zip(little.values(), counts[len(much):])
                if count + MOST_WAITED <= turns]
        assert max(counts[:len(much)]) - min(counts[:len(much)]) <= 2, counts
        assert len(told) >= 4 and max(counts[:len(much)]) < QUEUED, counts
        assert all(count == answered for count, answered in told), (turns, told)


def answers_64_that_read_much_and_little_by_turns():
    content = random.Random(14).randbytes(LENGTH)
    lengths = [SHORT, 1, SHORT, 1, 1, BLOCKS, SHORT - 1, 8, SHORT, 1]
    wanted = [(7 * n, blocks) for n, blocks in enumerate(lengths)]
    with disk_file(content) as (_, units), serving(units=units) as (_, address):
        clients = [logged_in(address, number) for number in range(CONNECTIONS)]
        for client in clients:
            client.sendall(b"".join(read_10(125 + n, *one) for n, one in enumerate(wanted)))
        for at, blocks in wanted:
            for number, client in enumerate(clients):
                assert answer_of(client) == (content[512 * at:512 * (at + blocks)], 0, b""), (number, at, blocks)


def peak_of(process):
    """The most memory that a process has had, in bytes."""
    lines = Path(f"/proc/{process.pid}/status").read_text(encoding="utf-8").splitlines()
    return 1024 * next(int(line.split()[1]) for line in lines if line.startswith("VmHWM:"))


def makes_few_answers_at_once_for_64_that_were_idle():
    content = random.Random(20).randbytes(LENGTH)
    with disk_file(content) as (_, units), serving(units=units) as (process, address):
        clients = [logged_in(address, number) for number in range(CONNECTIONS)]
        before = peak_of(process)
        with stopped(process):
            for client in clients:
                client.sendall(reads(1, WHOLE))
        with ThreadPoolExecutor(CONNECTIONS) as pool:
            assert list(pool.map(answer_of, clients)) == [(content, 0, b"")] * CONNECTIONS
        assert peak_of(process) - before < AT_ONCE, peak_of(process) - before


def writes_much_among_those_that_read_much():
    chance = random.Random(12)
    front = chance.randbytes(512 * BLOCKS)
    with disk_file(front + bytes(LENGTH - len(front))) as (_, units), serving(units=units) as (_, address):
        readers = [logged_in(address, number) for number in range(20)]
        for client in readers:
            client.sendall(reads(4, BLOCKS))
        for number in range(8):
            writer, content = logged_in(address, 20 + number), chance.randbytes(512 * BLOCKS)
            *_, status = writing(writer, 125, 2 * BLOCKS, content)
            writer.sendall(read_10(126, 2 * BLOCKS, BLOCKS))
            assert (status, answer_of(writer)) == (0, (content, 0, b"")), number
            writer.close()
        for client in readers:
            for _ in range(4):
                assert answer_of(client) == (front, 0, b"")


def writes_on(client, content, start):
    """Writes 256 KiB and 1 MiB from this block of a disk on. The statuses."""
    told, at = [], start
    for n, blocks in enumerate((BLOCKS, 4 * BLOCKS)):
        *_, status = writing(client, 125 + n, at, content[512 * at:512 * (at + blocks)])
        told.append(status)
        at += blocks
    return told


def writes_for_4_at_once_among_those_that_read_much():
    chance, own = random.Random(15), 5 * BLOCKS  # blocks that each of them writes
    content = chance.randbytes(512 * 5 * own)
    with disk_file(content[:LENGTH] + bytes(len(content) - LENGTH)) as (path, units), \
            serving(units=units) as (_, address), ThreadPoolExecutor(4) as pool:
        readers = [logged_in(address, number) for number in range(24)]
        writers = [logged_in(address, 24 + number) for number in range(4)]
        for client in readers:
            client.sendall(reads(2, 4 * BLOCKS))
        told = [pool.submit(writes_on, writer, content, (n + 1) * own) for n, writer in enumerate(writers)]
        for _ in range(2):
            for number, client in enumerate(readers):
                assert answer_of(client) == (content[:LENGTH], 0, b""), number
        assert [one.result() for one in told] == [[0, 0]] * 4
        found = path.read_bytes()
        assert found[:LENGTH] == content[:LENGTH] and found[LENGTH:512 * own] == bytes(512 * own - LENGTH)
        assert found[512 * own:] == content[512 * own:]


def logs_in_one_after_the_other_beside_those_that_read_much():
    with disk_file(bytes(LENGTH)) as (_, units), serving(units=units) as (_, address):
        much = [logged_in(address, number) for number in range(40)]
        for client in much:
            client.sendall(reads(QUEUED, BLOCKS))
        for n, client in enumerate(held_clients(address, 20)):
            assert is_answered(client, 50 + n), n
            client.close()


CHECKS = [
    answers_each_of_64_that_read_much,
    answers_one_that_asks_for_little_beside_63_that_read_much,
    gives_each_of_8_that_read_much_its_turn,
    lets_nobody_wait_for_more_than_64_turns,
    answers_64_that_read_much_and_little_by_turns,
    makes_few_answers_at_once_for_64_that_were_idle,
    writes_much_among_those_that_read_much,
    writes_for_4_at_once_among_those_that_read_much,
    logs_in_one_after_the_other_beside_those_that_read_much,
]
