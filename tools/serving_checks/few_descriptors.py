"""More clients than targetd has descriptors for: those who wait are answered once there are some, with no event that
tells of it."""

import resource
import select
import struct
from contextlib import contextmanager

from serving_checks.loopback import (LIMIT, READY_AGAIN, connection_of, descriptors_of, held_clients,
                                     processor_time, read, requests, serving)

DESCRIPTORS, CLIENTS = 12, 20
QUIET = 1.5  # seconds in which a program that spins is seen, and one that looks again each second does so


def answered(clients, count, connections):
    """So many of these clients, whose requests wait, are answered, each on another of these connections, and nobody
    else is. Gives those who were, and those who wait."""
    found, waiting = {}, list(clients)
    while len(found) < count:
        ready = select.select(waiting, [], [], LIMIT)[0]
        assert ready, f"{len(found)} of {count} are answered"
        for client in ready:
            found[client] = connection_of(client)
            waiting.remove(client)
    numbers = set(found.values())
    assert len(found) == count == len(numbers) and numbers <= set(connections), sorted(map(str, found.values()))
    return list(found), waiting


@contextmanager
def short_of_descriptors():
    """The program, those of the clients for whom it has descriptors, and those who wait."""
    with serving(descriptors=DESCRIPTORS) as (process, address):
        count = DESCRIPTORS - descriptors_of(process)
        clients = held_clients(address, CLIENTS)
        for n, client in enumerate(clients):
            client.sendall(requests(n))
        first, waiting = answered(clients, count, range(count))
        assert first and process.poll() is None
        yield process, first, waiting
        for client in clients:
            client.close()


def answers_those_who_wait_once_descriptors_are_closed():
    with short_of_descriptors() as (process, first, waiting):
        for client in first:
            client.sendall(READY_AGAIN[:24] + struct.pack(">I", 125) + READY_AGAIN[28:])
            assert len(read(client, 48)) == 48
        before = processor_time(process)
        assert not select.select(waiting, [], [], QUIET)[0], "one who waits is answered"
        assert processor_time(process) - before < 0.1, "it spins"
        connections = range(len(first))
        while waiting:
            for client in first:
                client.close()
            first, waiting = answered(waiting, min(len(first), len(waiting)), connections)


def answers_those_who_wait_once_the_limit_is_raised_with_no_event():
    with short_of_descriptors() as (process, first, waiting):
        most = resource.getrlimit(resource.RLIMIT_NOFILE)[1]
        resource.prlimit(process.pid, resource.RLIMIT_NOFILE, (64, most))
        answered(waiting, len(waiting), range(len(first), CLIENTS))


CHECKS = [
    answers_those_who_wait_once_descriptors_are_closed,
    answers_those_who_wait_once_the_limit_is_raised_with_no_event,
]
