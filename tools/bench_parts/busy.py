"""The part of tools/bench that measures how long one connection waits beside others that are busy."""

import time
from functools import partial

from bench_parts.ends import BLOCK
from bench_parts.rows import head, ratios, row, spread

ALONE = "alone"
LARGE, SAME = {"window": 31, "length": 1 << 20}, {"kind": "write-same", "length": BLOCK}
# What neighbours a READ has, by what they are asked. A stalled one asks for more than a system takes.
NEIGHBOURS = {ALONE: None,
              "8 connections READ 1 MiB, 31 in flight on each": {"connections": 8, **LARGE},
              "62 connections READ 1 MiB, 31 in flight on each": {"connections": 62, **LARGE},
              "one WRITE SAME of 16 MiB after the other": SAME,
              "8 connections WRITE SAME 16 MiB, 31 in flight on each": {"connections": 8, "window": 31, **SAME},
              "62 connections are stalled": {"connections": 62, "window": 24, "length": 262144, "stalled": 1},
              "16 connections send byte by byte": {"connections": 16, "bytewise": 1},
              "a flood of new connections": {"flood": 1}}
VICTIM, AT_WORK = {"length": 4096}, 0.2  # what is asked beside them, and how many seconds they have worked by then
TURNS = 3


def beside(bench, name, load):
    """How long a connection waits that logged in before its neighbours began: half of its READs, and all but one in a
    hundred. Its server is a new one, which has nothing more to do of what others asked."""
    with bench.targets() as targets, \
            bench.ends.held(targets[name], milliseconds=bench.pace.milliseconds, **VICTIM) as victim:
        if load is None:
            return victim.go()[2:4]
        with bench.ends.held(targets[name], **load) as others:
            others.begin()
            time.sleep(AT_WORK)
            return victim.go()[2:4]


def waits(bench, load):
    """The medians of all rounds, and the late ones, of each server."""
    names = [*bench.programs, *(["tgt"] if bench.has_tgt else [])]
    found = bench.in_turns({name: partial(beside, bench, name, load) for name in names}, TURNS)
    return {name: list(zip(*rounds)) for name, rounds in found.items()}


def fairness(bench):
    """A READ of 4 KiB on a connection of its own, one in flight, while others are busy."""
    head("Beside it", "Server", "Median latency, us", "99 % latency, us", "Times alone", "Times tgt")
    alone = {}
    for which, load in NEIGHBOURS.items():
        found = waits(bench, load)
        alone = alone or found
        for name, (medians, late) in found.items():
            row(which, name, spread(medians), spread(late),
                "" if which == ALONE else spread(ratios(medians, alone[name][0])),
                spread(ratios(medians, found["tgt"][0])) if name != "tgt" and "tgt" in found else "")
