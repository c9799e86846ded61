"""The parts of tools/bench: what is measured, what is aimed at, and the table of each."""

import re
from functools import partial

from bench_parts.busy import fairness
from bench_parts.ends import BLOCK, SIZE, processor_seconds, ran, resident, settle
from bench_parts.far import far
from bench_parts.holding import flight, headers, parts, unread, written
from bench_parts.pieces import pieces
from bench_parts.requests import requests
from bench_parts.rows import FIGURES, OURS, figures, head, ratios, row, spread
from bench_parts.tape_parts import opening, reading, spacing, tape
from serving_checks import logins

CONNECTIONS = (1, 4, 16, 64)
ALONE = "alone"
# What neighbours there are, and the aim: times the cost alone. Those who are stalled ask for more than a system takes.
NEIGHBOURS = {ALONE: (None, None),
              "beside 63 idle": ({"connections": 63, "count": 0}, 1.05),
              "beside 62 stalled": ({"connections": 62, "window": 24, "length": 262144, "stalled": 1}, 1.3)}
# How many sessions are idle, how often another one is answered before memory is looked at, and the aim in KiB.
IDLE, BUSY, IDLE_AIM = 63, 200, 12
ORDERS = {"one after the other": 1, "all at the same time": 0}
# How many texts a login has, how many such logins there are in a round, and the aim: times the cost of one text.
LOGINS = {1: (40, None), 8: (5, 10)}
SESSIONS = 64
# What initiators do: the bytes of a request, how many are in flight, and how many WRITEs are sent.
TRANSFERS = [(4096, 1, 10000), (4096, 32, 20000), (262144, 1, 1000), (262144, 32, 2000)]
PERF_SECONDS, TURNS = 1, 3


def connections(bench):
    """Many connections at once."""
    with bench.targets() as targets, bench.ends.plain("limit", str(max(CONNECTIONS)), str(SIZE)) as limit:
        servers = {**targets, "limit": limit}
        head("READ of 4 KiB, 8 in flight on each", "Server", *FIGURES, "Times the limit")
        for count in CONNECTIONS:
            load = {"connections": count, "window": 8, "length": 4096}
            found = bench.seen(servers, **load)
            for name, seen in found.items():
                calls, times = bench.calls(servers[name], **load), ratios(seen.cost, found["limit"].cost)
                row(f"{count} connection{'s' if count > 1 else ''}", name, *figures(seen, calls),
                    "" if name == "limit" else spread(times))


def beside(bench, served, which, look):
    """What this look sees of one connection that has such neighbours."""
    load = {"window": 32, "length": 4096, "milliseconds": bench.pace.milliseconds}
    settle(served.pid)
    if which == ALONE:
        return look(served, **load)
    with bench.ends.held(served, **NEIGHBOURS[which][0]) as held:
        held.go()
        settle(served.pid)
        return look(served, **load)


def neighbours(bench):
    """One connection and its neighbours."""
    with bench.targets() as targets:
        head("READ of 4 KiB, 32 in flight", "Server", *FIGURES, "Times the cost alone", "Aim")
        for name, served in targets.items():
            found = bench.seen_in_turns({which: partial(beside, bench, served, which, bench.ends.seen)
                                         for which in NEIGHBOURS})
            for which, seen in found.items():
                times, most = ratios(seen.cost, found[ALONE].cost), NEIGHBOURS[which][1]
                row(which, name, *figures(seen, beside(bench, served, which, bench.ends.calls)),
                    "" if which == ALONE else spread(times),
                    bench.aims.judged(f"READ of 4 KiB {which}", times, most, "times the cost alone")
                    if name == OURS else "")


def memory_beside_work(bench, served):
    """What memory a server has once it has answered another session for a while."""
    bench.ends.ask(served, count=BUSY)
    settle(served.pid)
    return resident(served.pid)


def added_memory(bench, name, apart):
    """What each session adds to the memory of a server, in KiB: as it is logged in, and as it has read 1 MiB."""
    with bench.targets() as targets:
        served = targets[name]
        bench.ends.ask(served, kind="write-on", length=65536, count=16)  # so that what is read was used before
        bench.ends.ask(served, length=1 << 20, count=8)  # and so were the buffers that all sessions of a target have
        before = memory_beside_work(bench, served)
        with bench.ends.held(served, connections=IDLE, length=1 << 20, count=1, apart=apart) as held:
            logged_in = memory_beside_work(bench, served)
            held.go()
            has_read = memory_beside_work(bench, served)
    return (logged_in - before) / IDLE / 1024, (has_read - logged_in) / IDLE / 1024


def memory(bench):
    """Memory of sessions that are idle."""
    head(f"What each of {IDLE} idle sessions adds", "Server", "KiB", "Aim")
    for name in [*bench.programs, *(["tgt"] if bench.has_tgt else [])]:
        looks = {order: partial(added_memory, bench, name, apart) for order, apart in ORDERS.items()}
        found = bench.in_turns(looks, TURNS)
        row("as it is logged in", name, spread([kib for rounds in found.values() for kib, _ in rounds]), "")
        for order, rounds in found.items():
            what, more = f"once it has read 1 MiB besides, {order}", [kib for _, kib in rounds]
            row(what, name, spread(more),
                bench.aims.judged(f"An idle session, {what}", more, IDLE_AIM, "KiB") if name == OURS else "")


def login_cost(served, texts, count):
    """The processor milliseconds of each of so many logins of so many texts."""
    before = processor_seconds(served.pid)
    for _ in range(count):
        logins.login(served.port, texts)
    settle(served.pid)
    return (processor_seconds(served.pid) - before) / count * 1e3


def session_cost(bench, served):
    """The processor milliseconds of a session that begins, whose unit is ready, and that ends."""
    before = processor_seconds(served.pid)
    bench.ends.ask(served, connections=SESSIONS, milliseconds=0)
    settle(served.pid)
    return (processor_seconds(served.pid) - before) / SESSIONS * 1e3


def logging_in(bench):
    """Logins of few and of many texts, and sessions that begin and end."""
    with bench.targets() as targets:
        head("", "Server", "Cost, ms", "Times one text", "Aim")
        for name in bench.programs:
            found = bench.in_turns({texts: partial(login_cost, targets[name], texts, bench.pace.of(count))
                                    for texts, (count, _) in LOGINS.items()})
            for texts, costs in found.items():
                what = f"A login of {texts} text{'s' if texts > 1 else ''} with {logins.KEYS} keys"
                times, most = ratios(costs, found[1]), LOGINS[texts][1]
                row(what, name, spread(costs), spread(times) if texts > 1 else "",
                    bench.aims.judged(what, times, most, "times one text") if name == OURS else "")
        found = bench.in_turns({name: partial(session_cost, bench, served) for name, served in targets.items()})
        for name, costs in found.items():
            row(f"One of {SESSIONS} sessions that begin and end", name, spread(costs), "", "")


def reads(url, length, window, _):
    """How many READs iscsi-perf did, and in how many seconds."""
    said = ran("iscsi-perf", "-t", str(PERF_SECONDS), "-b", str(length // BLOCK), "-m", str(window), url)
    return int(re.findall(r"iops average (\d+) ", said)[-1]) * PERF_SECONDS, PERF_SECONDS


def writes(url, length, window, count):
    """How many WRITEs qemu-img did, and in how many seconds."""
    said = ran("qemu-img", "bench", "-f", "raw", "-w", "-c", str(count), "-d", str(window), "-s", str(length), url)
    return count, float(re.findall(r"Run completed in ([0-9.]+) seconds", said)[-1])


def transferred(served, transfer, *words):
    """The rate and the cost of what an initiator did."""
    before = processor_seconds(served.pid)
    done, seconds = transfer(f"iscsi://127.0.0.1:{served.port}/{served.target}/{served.lun}", *words)
    return done / seconds, (processor_seconds(served.pid) - before) * 1e6 / max(1, done)


def initiators(bench):
    """READs and WRITEs of real initiators."""
    with bench.targets(with_files=True) as targets:
        head("One connection", "In flight", "Server", "Each second", "Cost, us", "Times the rate of tgt")
        for what, transfer in (("READ by iscsi-perf", reads), ("WRITE by qemu-img", writes)):
            for length, window, count in TRANSFERS:
                words = (transfer, length, window, bench.pace.of(count))
                looks = {name: partial(transferred, served, *words) for name, served in targets.items()}
                found = bench.in_turns(looks, TURNS)
                rates = {name: [rate for rate, _ in rounds] for name, rounds in found.items()}
                for name, rounds in found.items():
                    row(f"{what}, {length >> 10} KiB", str(window), name, spread(rates[name]),
                        spread([cost for _, cost in rounds]),
                        spread(ratios(rates[name], rates["tgt"])) if name != "tgt" and "tgt" in rates else "")


PARTS = {"requests": requests, "pieces": pieces, "connections": connections, "neighbours": neighbours, "fairness": fairness,
         "memory": memory, "flight": flight, "headers": headers, "written": written, "parts": parts, "unread": unread,
         "tape": tape, "spacing": spacing, "opening": opening, "reading": reading, "far": far, "logins": logging_in,
         "tgt": initiators}
