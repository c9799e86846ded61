"""What was measured, in tables of Markdown: figures with their quartiles over the rounds, and aims."""

import os
import time
from pathlib import Path
from statistics import median, quantiles

OURS = "targetd"  # the server for which there are aims
# The columns of what is seen of a server (Seen of bench_parts/ends.py), and of its calls of the system.
FIGURES = ("Each second", "Cost, us", "Calls", "Median latency, us", "99 % latency, us")


def number(value):
    """A figure with about three digits."""
    return f"{value:,.0f}" if abs(value) >= 100 else f"{value:.1f}" if abs(value) >= 10 else f"{value:.2f}"


def spread(values):
    """The median of the rounds, and their first and third quartile. Nothing if there are none."""
    if len(values) < 2:
        return number(values[0]) if values else ""
    low, middle, high = map(number, quantiles(values, n=4, method="inclusive"))
    return f"{middle} ({low} to {high})"


def figures(seen, calls):
    """The cells of what was seen of a server in all rounds, and of its calls."""
    return (spread(seen.rate), spread(seen.cost), spread(calls) or "-", spread(seen.median), spread(seen.late))


def ratios(values, others):
    """The ratios to another figure, round by round, since both were measured in turns."""
    return [value / other if other else float("inf") for value, other in zip(values, others)]


def row(*cells):
    """Prints a line of a table."""
    print(f"| {' | '.join(cells)} |", flush=True)


def head(*cells):
    """Prints the first two lines of a table."""
    print()
    row(*cells)
    print("|---" * len(cells) + "|", flush=True)


class Aims:
    """What was aimed at, and what was found."""

    def __init__(self):
        self.found = []

    def judged(self, what, values, most, unit):
        """Says an aim and whether the median of the rounds is within it, and keeps that for the end. Nothing if
        there is no aim or nothing was measured."""
        if most is None or not values:
            return ""
        verdict = "met" if round(median(values), 2) <= most else "MISSED"
        self.found.append((what, f"{spread(values)} {unit}", f"{most} {unit}", verdict))
        return f"at most {most} {unit}: {verdict}"

    def close(self):
        """Prints every aim that was looked at."""
        if self.found:
            print("\nThe aims, by the median of the rounds:")
            head("", "Measured", "At most", "")
            for cells in self.found:
                row(*cells)


class Noise:
    """What all processors of the machine did since this began."""

    def __init__(self):
        self.began, self.times = time.monotonic(), self.read()

    @staticmethod
    def read():
        """For how long they were in each state (proc(5), /proc/stat)."""
        line = Path("/proc/stat").read_text(encoding="ascii").splitlines()[0]
        return [int(word) for word in line.split()[1:9]]

    def shares(self):
        """The share of their time that was idle, and the one that was stolen, in percent."""
        spent = [now - before for now, before in zip(self.read(), self.times)]
        idle, stolen = spent[3], spent[7]
        return 100 * idle / max(1, sum(spent)), 100 * stolen / max(1, sum(spent))

    def seconds(self):
        """For how long this is."""
        return time.monotonic() - self.began


def tell_noise():
    """Prints how quiet the machine is before anything is measured."""
    noise = Noise()
    time.sleep(1)
    idle, stolen = noise.shares()
    load = " ".join(f"{average:.2f}" for average in os.getloadavg())
    print(f"{os.cpu_count()} processors, Linux {os.uname().release}. Load average {load}. For one second before this"
          f" the processors were idle for {idle:.1f} % of their time, and {stolen:.1f} % of it was stolen.", flush=True)
