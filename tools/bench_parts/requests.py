"""The part of tools/bench that measures requests of one kind at a time, beside plain C programs that copy their data."""

from contextlib import ExitStack, contextmanager
from typing import NamedTuple

from bench_parts.ends import SIZE
from bench_parts.rows import FIGURES, OURS, figures, head, ratios, row, spread


class Flight(NamedTuple):
    """How many commands are in flight."""
    window: int  # on each connection
    connections: int = 1

    def __str__(self):
        return str(self.window) if self.connections == 1 else f"{self.window} on each of {self.connections} connections"


class Aim(NamedTuple):
    """What is aimed at: microseconds and calls for each command, and how many times the cost of other servers it may be."""
    cost: float = None
    calls: float = None
    beside: dict = {}


ONE, EIGHT, MANY, ALL = Flight(1), Flight(8), Flight(32), Flight(2, 64)
LARGE = (ONE, EIGHT, MANY, ALL)
# What a load is called, its kind, its data in bytes, and how many are in flight.
LOADS = [("TEST UNIT READY", "read", 0, (ONE, MANY)),
         ("READ of 4 KiB", "read", 4096, (ONE, MANY)),
         ("READ of 64 KiB", "read", 65536, (EIGHT,)),
         ("READ of 256 KiB", "read", 262144, LARGE),
         ("READ of 1 MiB", "read", 1 << 20, LARGE),
         ("VERIFY of 256 KiB", "verify", 262144, (ONE,)),  # before any WRITE, since it compares with zeros
         ("WRITE of 4 KiB", "write", 4096, (ONE, MANY)),
         ("WRITE of 256 KiB", "write", 262144, LARGE)]
COPIED_ONCE = Aim(beside={"limit": 1.15})
COPIED_TWICE = Aim(beside={"staged": 1.3, "tgt": 0.99})
# Aims by the load and how many are in flight.
AIMS = {("READ of 4 KiB", ONE): Aim(calls=3),
        ("READ of 4 KiB", MANY): Aim(cost=1.4, calls=0.2),
        ("READ of 64 KiB", EIGHT): COPIED_ONCE,
        **{(f"READ of {length}", flight): COPIED_ONCE for length in ("256 KiB", "1 MiB") for flight in LARGE},
        ("WRITE of 4 KiB", MANY): Aim(beside={"limit": 2.0}),
        **{("WRITE of 256 KiB", flight): COPIED_TWICE for flight in LARGE}}
# Beside what a load stands, with one in flight, and the aim: times its cost.
BESIDE = {"VERIFY of 256 KiB": ("READ of 256 KiB", 1.3)}


@contextmanager
def plain_servers(bench):
    """The plain C programs for one connection and for many, each by its name."""
    with ExitStack() as stack:
        def served(kind, connections, *words):
            return stack.enter_context(bench.ends.plain(kind, str(connections), *words))

        yield {connections: {"limit": served("limit", connections, str(SIZE)),
                             "staged": served("staged", connections, str(SIZE)),
                             "plain C": served("plain", connections)}
               for connections in (ONE.connections, ALL.connections)}


def judged(bench, what, flight, seen, calls, beside):
    """Says what is aimed at of a load, and whether that is met. Nothing is aimed at beside a server that there is not."""
    aim, title = AIMS.get((what, flight), Aim()), f"{what}, {flight} in flight"
    aims = [(seen.cost, aim.cost, "us"), (calls, aim.calls, "calls")]
    aims += [(beside[name], most, f"times {name}") for name, most in aim.beside.items() if name in beside]
    return "; ".join(filter(None, (bench.aims.judged(title, values, most, unit) for values, most, unit in aims)))


def requests_of(bench, what, flight, servers, **load):
    """Prints what was seen of each server under a load, and gives what each command cost it."""
    load |= flight._asdict()
    found = bench.seen(servers, **load)
    for name, seen in found.items():
        calls = bench.calls(servers[name], **load)
        beside = {other: ratios(seen.cost, found[other].cost) for other in found if other != name}
        row(what, str(flight), name, *figures(seen, calls), spread(beside.get("limit", [])),
            spread(beside.get("staged", [])),
            judged(bench, what, flight, seen, calls, beside) if name == OURS else "")
    return {name: seen.cost for name, seen in found.items()}


def beside_others(bench, costs):
    """Prints what loads cost beside others, by what the commands of each cost each server with one in flight."""
    head("One in flight", "Server", "Cost", "Aim")
    for what, (other, most) in BESIDE.items():
        for name, cost in costs[what, ONE].items():
            if name not in costs[other, ONE]:
                continue
            times = ratios(cost, costs[other, ONE][name])
            row(what, name, f"{spread(times)} times {other}",
                bench.aims.judged(f"{what}, {ONE} in flight", times, most, f"times {other}") if name == OURS else "")


def requests(bench):
    """Every load, on one connection and on many."""
    with bench.targets(with_files=True) as targets, plain_servers(bench) as plain:
        head("Load", "In flight", "Server", *FIGURES, "Times the limit", "Times staged", "Aim")
        costs = {}
        for what, kind, length, flights in LOADS:
            for flight in flights:
                others = {name: served for name, served in plain[flight.connections].items()
                          if name != "staged" or kind == "write"}
                costs[what, flight] = requests_of(bench, what, flight, {**targets, **others}, kind=kind, length=length)
        beside_others(bench, costs)
