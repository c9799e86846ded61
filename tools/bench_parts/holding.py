"""The parts of tools/bench that measure what data makes a server hold: data that it asked for and that has not come, data
of sessions that have ended, answers that nobody reads, and those of many READs at once."""

import tempfile
import time
from contextlib import contextmanager
from functools import partial
from pathlib import Path

from bench_parts.counted import Counted
from bench_parts.ends import BLOCK, of_targetd, resident, settle, units
from bench_parts.one_session import MEBIBYTE, Session
from bench_parts.rows import OURS, head, number, ratios, row, spread

# What 64 connections READ with two in flight on each, and the aim in MiB.
FLIGHT, READ_LENGTHS, FLIGHT_AIM = {"connections": 64, "window": 2}, (262144, MEBIBYTE), 16
WRITES = {"kind": "write", "length": MEBIBYTE, "window": 31}
# Sessions that send the headers of WRITEs, and the aims in MiB and for the longest wait in milliseconds.
ASKED, HEADERS_AIM, WAIT_AIM = 32, 32, 20
ENDED, ENDED_AIM = 64, 8  # sessions that write and end, and the aim in MiB
KEPT = 2  # seconds, more than the one for which read buffers are kept while nothing happens
UNREAD_AIM, TURNS = 4, 3  # in KiB
# The bytes that Data-Outs have, and the aim: how many times as much as has come may be held, beside so many KiB.
LENGTHS, PARTS_AIM, BESIDE = (512, 4096, 16384, 65536, 262144), 2, 64


def names_of(bench):
    """What the servers are called that are measured here."""
    return [*bench.programs, *(["tgt"] if bench.has_tgt else [])]


def count_anew(pid):
    """Lets the system count the most memory of a process from now on (proc(5), clear_refs)."""
    Path(f"/proc/{pid}/clear_refs").write_text("5", encoding="ascii")


def most_resident(pid):
    """The most bytes of memory that a process has had since (proc(5), VmHWM)."""
    lines = Path(f"/proc/{pid}/status").read_text(encoding="ascii").splitlines()
    return next(int(line.split()[1]) * 1024 for line in lines if line.startswith("VmHWM:"))


def in_flight(bench, length):
    """How many MiB each server has at the most above those of idle sessions, while these READ: at all, and in the second
    half of the time, when each session has been sent much before."""
    found = {}
    with bench.targets(with_files=True) as targets:
        for name, served in targets.items():
            load = {"length": length, "milliseconds": bench.pace.milliseconds, **FLIGHT}
            bench.ends.ask(served, kind="write-on", length=65536, count=16)  # so that what is read was used before
            with bench.ends.held(served, **load) as held:
                settle(served.pid)
                before, most = resident(served.pid), []
                held.begin()
                for wait in (partial(time.sleep, bench.pace.milliseconds / 2000), held.line):
                    count_anew(served.pid)
                    wait()
                    most.append((most_resident(served.pid) - before) / MEBIBYTE)
                found[name] = (max(most), most[1])
    return found


def flight(bench):
    """READs on 64 connections, two in flight on each: the most memory meanwhile."""
    head("2 in flight on each of 64 connections", "Server", "MiB at the most above idle", "In the second half", "Aim")
    for length in READ_LENGTHS:
        rounds = bench.in_turns({length: partial(in_flight, bench, length)}, TURNS)[length]
        for name in rounds[0]:
            most, later = ([found[name][k] for found in rounds] for k in range(2))
            what = f"READ of {length >> 10} KiB"
            row(what, name, spread(most), spread(later),
                bench.aims.judged(f"Memory of {name}, {what}, 2 in flight on each of 64 connections", most, FLIGHT_AIM, "MiB")
                if name.startswith(OURS) else "")


def headers_of(bench, name):
    """How many MiB the headers of WRITEs add whose data is asked for and does not come, and for how many milliseconds
    the READ of another session waits at the most while they come."""
    asked = {"connections": ASKED, "bare": 1, "stalled": 1, **WRITES}
    with bench.targets() as targets, bench.ends.held(targets[name], **asked) as others, \
            bench.ends.held(targets[name], length=4096, milliseconds=bench.pace.milliseconds) as victim:
        pid = targets[name].pid
        settle(pid)
        before = resident(pid)
        victim.begin()
        time.sleep(bench.pace.milliseconds / 4000)  # a quarter of the time for which it asks
        others.begin()
        longest = float(victim.line().split()[4]) / 1e3
        settle(pid)
        return (resident(pid) - before) / MEBIBYTE, longest


def headers(bench):
    """Headers of WRITEs of 1 MiB, 31 on each of 32 sessions, whose data is asked for and does not come."""
    head(f"{WRITES['window'] * ASKED} headers of WRITEs of 1 MiB", "Server", "MiB", "Longest READ of 4 KiB meanwhile, ms",
         "Aim")
    looks = {name: partial(headers_of, bench, name) for name in names_of(bench)}
    for name, rounds in bench.in_turns(looks, TURNS).items():
        added, longest = ([values[k] for values in rounds] for k in range(2))
        aims = [bench.aims.judged("Headers of 992 WRITEs of 1 MiB", added, HEADERS_AIM, "MiB"),
                bench.aims.judged("A READ of 4 KiB while they come", longest, WAIT_AIM, "ms")] if name == OURS else []
        row("without their data", name, spread(added), spread(longest), "; ".join(aims))


def left_of(bench, name):
    """How many MiB are left of sessions that WRITE all at the same time, once they have ended."""
    with bench.targets() as targets:
        served = targets[name]
        bench.ends.ask(served, count=1, **WRITES)  # so that the blocks were used before
        settle(served.pid)
        before = resident(served.pid)
        bench.ends.ask(served, connections=ENDED, count=WRITES["window"], **WRITES)
        settle(served.pid)
        time.sleep(KEPT)
        return (resident(served.pid) - before) / MEBIBYTE


def written(bench):
    """Sessions that WRITE at the same time, 31 of 1 MiB in flight on each, and end."""
    head(f"{ENDED} sessions of {WRITES['window']} WRITEs of 1 MiB, once they have ended", "Server", "MiB", "Aim")
    looks = {name: partial(left_of, bench, name) for name in names_of(bench)}
    for name, left in bench.in_turns(looks, TURNS).items():
        row("above the start", name, spread(left),
            bench.aims.judged("What is left of 1,984 WRITEs of 1 MiB", left, ENDED_AIM, "MiB") if name == OURS else "")


@contextmanager
def counted_session(bench, program):
    """A session with a targetd of its own, the server, and what that has allocated."""
    with tempfile.TemporaryDirectory() as folder:
        counted, those = Counted(Path(folder) / "counted"), units(("disk", f"blocks = {MEBIBYTE // BLOCK}"))
        with of_targetd(program, those, **counted.settings(bench.ends.counting)) as served:
            session = Session(served.port)
            settle(served.pid)
            yield session, served, counted


def allocated(bench, program):
    """How many KiB a READ of 1 MiB takes at the most, beside a buffer for its data that was used before: once with
    its answer read at once, and once with it waiting."""
    found = []
    with counted_session(bench, program) as (session, served, counted):
        for is_read in (True, False, True, False):
            before = counted.begin()
            if is_read:
                session.ask()
                session.read_all()
            else:
                session.wait(served.pid)
            found.append((counted.read()[1] - before) / 1024)
            session.read_all()
            settle(served.pid)
    return found[2:]  # the first two were there so that all buffers were used before


def unread(bench):
    """What a READ takes of memory whose answer nobody reads."""
    head("A READ of 1 MiB, beside a buffer for its data", "Server", "KiB allocated", "More than one that is read", "Aim")
    for name, program in bench.programs.items():
        rounds = bench.in_turns({name: partial(allocated, bench, program)}, TURNS)[name]
        read, waiting = ([values[k] for values in rounds] for k in range(2))
        more = [one - other for one, other in zip(waiting, read)]
        row("whose answer is read", name, spread(read), "", "")
        row("whose answer waits", name, spread(waiting), spread(more),
            bench.aims.judged("A READ of 1 MiB whose answer waits, more than one that is read", more, UNREAD_AIM, "KiB")
            if name == OURS else "")


def held_of(bench, program, most):
    """How many KiB of a WRITE of 1 MiB have come if the last Data-Out is missing, and how many are allocated for it."""
    with counted_session(bench, program) as (session, served, counted):
        before = counted.begin()
        came = session.write(most)
        settle(served.pid)
        return came / 1024, (counted.read()[0] - before) / 1024


def parts(bench):
    """A WRITE of 1 MiB whose data comes in Data-Outs, of which the last is missing."""
    head("Data-Outs of", "Server", "KiB that came", "KiB allocated", "Times what came", "Aim")
    for name, program in bench.programs.items():
        for most in LENGTHS:
            rounds = bench.in_turns({most: partial(held_of, bench, program, most)}, TURNS)[most]
            came, held = ([values[k] for values in rounds] for k in range(2))
            times = ratios([kib - BESIDE for kib in held], came)
            row(f"{most:,} bytes", name, number(came[0]), spread(held), spread(ratios(held, came)),
                bench.aims.judged(f"A WRITE in Data-Outs of {most:,} bytes, less {BESIDE} KiB", times, PARTS_AIM,
                                  "times what came") if name == OURS else "")
