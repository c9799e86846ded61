"""The part of tools/bench that measures WRITEs by how much data each of their PDUs brings."""

from bench_parts.requests import ALL, EIGHT, plain_servers
from bench_parts.rows import FIGURES, figures, head, ratios, row, spread

LENGTHS = {"256 KiB": 262144, "1 MiB": 1 << 20}
PIECES = {"8 KiB": 8192, "64 KiB": 65536, "256 KiB": 262144}


def pieces(bench):
    """WRITEs of each length in PDUs of each length, on one connection and on many."""
    with bench.targets(with_files=True) as targets, plain_servers(bench) as plain:
        head("WRITE", "At most in a PDU", "In flight", "Server", *FIGURES, "Times staged")
        for what, length in LENGTHS.items():
            for most, piece in PIECES.items():
                for flight in (EIGHT, ALL):
                    load = {"kind": "write", "length": length, "piece": piece, **flight._asdict()}
                    servers = {**targets, "staged": plain[flight.connections]["staged"]}
                    found = bench.seen(servers, **load)
                    for name, seen in found.items():
                        times = [] if name == "staged" else ratios(seen.cost, found["staged"].cost)
                        row(what, most, str(flight), name, *figures(seen, bench.calls(servers[name], **load)), spread(times))
