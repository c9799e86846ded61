"""Clients that take all 64 places: each is answered, a 65th is closed, and targetd-status tells them from outside."""

import json
import random
import select
import struct
import subprocess
import time

from serving_checks.loopback import (CONNECTIONS, LIMIT, READY_AGAIN, TOP, answers, connect, connection_in,
                                     connection_of, held_clients, is_answered_at_last, is_closed, read, requests,
                                     serving)

STATUS = TOP / "tools/status"


def answers_64_clients_at_once_in_pieces_of_their_own():
    chance = random.Random(1)
    with serving() as (_, address):
        clients = held_clients(address, 64)
        unsent = {client: requests(n) for n, client in enumerate(clients)}
        got = {client: b"" for client in clients}
        until = time.monotonic() + LIMIT
        while any(len(data) < len(answers(0)) for data in got.values()) and time.monotonic() < until:
            for client in chance.sample(clients, 64):
                piece = unsent[client][:chance.choice([1, 3, 7, 48, 49, 200])]
                client.sendall(piece)
                unsent[client] = unsent[client][len(piece):]
            for client in select.select(clients, [], [], 0.01)[0]:
                got[client] += client.recv(4096)
        found = {connection_in(data) for data in got.values()}
        assert found == set(range(CONNECTIONS)), [data.hex() for data in got.values() if connection_in(data) is None]
        for client in clients:
            client.close()


def closes_the_65th_and_goes_on_with_the_64():
    with serving() as (_, address):
        clients = held_clients(address, 64)
        for n, client in enumerate(clients):
            client.sendall(requests(n))
        connections = [connection_of(client) for client in clients]
        assert set(connections) == set(range(CONNECTIONS)), connections
        with connect(address) as one_more:
            assert is_closed(one_more)
        for n, client in enumerate(clients):
            client.sendall(READY_AGAIN[:24] + struct.pack(">I", 125) + READY_AGAIN[28:])
            assert read(client, 48)[3:4] == b"\0", f"client {n}"
        clients[7].close()
        assert is_answered_at_last(address, 64, connections[7])
        for client in clients:
            client.close()


def status_of(process):
    """What targetd-status tells of a process."""
    ran = subprocess.run([STATUS, "--json"], capture_output=True, text=True, timeout=LIMIT, check=False)
    return next(one for one in json.loads(ran.stdout)["processes"] if one["process"] == process.pid)


def connections_of(process):
    """What it tells of the connections of a process, by the addresses of the hosts."""
    return {one["remote"]: one for one in status_of(process)["connections"]}


def tells_64_clients_from_outside_and_those_that_are_left():
    with serving() as (process, address):
        clients = held_clients(address, 64)
        for n, client in enumerate(clients):
            client.sendall(requests(n))
        assert all(connection_of(client) is not None for client in clients)
        told = connections_of(process)
        assert set(told) == {"%s:%d" % client.getsockname() for client in clients}, told
        for one in told.values():
            assert (one["target"], one["state"], one["unread"]) == ("t1", "established", 0), one
            assert one["received"] in (None, len(requests(0))) and one["sent"] in (None, len(answers(0))), one
        for client in clients[:63]:
            client.close()
        until = time.monotonic() + LIMIT
        while len(told := connections_of(process)) > 1 and time.monotonic() < until:
            pass
        assert set(told) == {"%s:%d" % clients[63].getsockname()}, told
        clients[63].close()


CHECKS = [
    answers_64_clients_at_once_in_pieces_of_their_own,
    closes_the_65th_and_goes_on_with_the_64,
    tells_64_clients_from_outside_and_those_that_are_left,
]
