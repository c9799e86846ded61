"""The part of tools/bench that measures WRITEs over a long way."""

from functools import partial

from bench_parts.rows import OURS, head, ratios, row, spread

# The microseconds of each direction, the R2Ts that are offered, and the aim: times as long as with the first of them. With
# bursts of 262144 bytes, four R2Ts, that is the limit: five ways there and back with one at a time, and two with four.
FAR, OFFERS, FAR_AIM, BURSTS = 500, (1, 4), 0.4, (262144, 65536)
WRITE = {"kind": "write", "length": 1 << 20}


def in_force(bench, served, asks):
    """Which MaxOutstandingR2T is in force if this one is offered."""
    with bench.ends.held(served, asks=asks) as held:
        return held.asks


def far(bench):
    """WRITEs of 1 MiB, one in flight, over a way on which each direction takes half a millisecond."""
    head("MaxOutstandingR2T offered", "MaxBurstLength", "Server", "In force", "Each second", "Median latency, us",
         "Times the rate of 1", "Aim")
    with bench.targets() as targets:
        for name, served in targets.items():
            with bench.ends.far(served, FAR) as way:
                for burst in BURSTS:
                    far_in_bursts(bench, name, way, burst)


def far_in_bursts(bench, name, way, burst):
    """The same, of one server, with bursts of at most so many bytes."""
    looks = {asks: partial(bench.ends.seen, way, milliseconds=bench.pace.milliseconds, asks=asks, burst=burst, **WRITE)
             for asks in OFFERS}
    found = bench.seen_in_turns(looks)
    for asks, seen in found.items():
        force = in_force(bench, way, asks)
        times, most = ratios(seen.median, found[OFFERS[0]].median), None if asks == OFFERS[0] else FAR_AIM
        what = f"A far WRITE of 1 MiB in bursts of {burst >> 10} KiB, MaxOutstandingR2T {asks} offered, {force} in force"
        row(str(asks), str(burst), name, str(force), spread(seen.rate), spread(seen.median),
            "" if asks == OFFERS[0] else spread(ratios(seen.rate, found[OFFERS[0]].rate)),
            bench.aims.judged(what, times, most, "times as long as with 1") if name == OURS else "")
