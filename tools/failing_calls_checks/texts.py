"""Logins of several texts on `targetd replay`, in which allocations fail.

Each of them ends with out of memory, or as if none had failed. A text without keys asks for no memory for the keys of the
texts before it, however many they are.
"""

import errno

from failing_calls_checks.serve import Failed
from failing_calls_checks.stores import CONFIG, LENGTH
from failing_calls_checks.sweep import Sweep, out_of_memory
from replay.transcript import Run, Step
from serving_checks.logins import NAMES, request

FEW, MANY = 20, 400  # keys of a text
MOST = 16_415  # keys that a text of 65,536 bytes can have
PAIRS = (15, 16, 17, 31, 32, 33)  # of a text, of which one comes again
STEP = 53  # between two allocations of a long text that fail
FAILING = {"call": "allocation", "error": errno.ENOMEM}
ASCII = [chr(code) for code in range(1, 128) if chr(code) != "="]


def keys(count):
    """A text of keys that need no answer."""
    return b"".join(b"X-%d=Reject\0" % number for number in range(count))


def shortest_keys():
    """The longest text, with as many keys as it can have."""
    names = ASCII + [one + other for one in ASCII for other in ASCII] + [chr(code) for code in range(128, 2048)]
    text = "".join(f"{name}=\0" for name in names).encode()
    return text[:text.rindex(b"\0", 0, 65_536) + 1]


def run_of(*texts):
    """The run of a login of these texts, each in one request."""
    lines = [b"open 0\n"] + [b"bytes 0 %s\n" % request(text).hex().encode() for text in texts]
    return Run(words=["replay", "--config", "config.toml"], steps=[Step(0, line) for line in lines],
               files={"config.toml": CONFIG, "disk": bytes(LENGTH), "tape": b""})


class Texts:
    """The runs of logins in which allocations fail."""

    def __init__(self, program, shim):
        self.program, self.shim = program, shim

    def sweep(self, *texts):
        """The runs of a login of these texts."""
        return Sweep(self.program, self.shim, run_of(*texts))

    def allocations(self, *texts):
        """The number of allocations of a login of these texts."""
        sweep, few, many = self.sweep(*texts), 0, 1 << 20
        while few < many:
            middle = (few + many) // 2
            if sweep.ended(number=middle + 1, **FAILING)[1]:
                few = middle + 1
            else:
                many = middle
        return few

    def each(self, *texts):
        """Lets each allocation fail in turn."""
        return self.sweep(*texts).each(out_of_memory, **FAILING)

    def some(self, *texts):
        """Lets some of very many allocations fail, one at a time."""
        sweep, count = self.sweep(*texts), self.allocations(*texts)
        for number in range(1, count + 1, STEP):
            if not out_of_memory(sweep, number, sweep.ended(number=number, **FAILING)[0]):
                raise Failed(f"allocation {number} ends the run otherwise")
        return f"{len(range(1, count + 1, STEP))} of {count} calls"

    def for_nothing(self):
        """Counts what a text without keys asks for, after few keys and after many."""
        few, many = (self.allocations(NAMES + keys(count), b"") - self.allocations(NAMES + keys(count))
                     for count in (FEW, MANY))
        if not few:
            raise Failed("no call failed at all")
        if few != many:
            raise Failed(f"{few} allocations after {FEW} keys, {many} after {MANY}")
        return f"{few} calls"


SWEEPS = [
    ("each allocation fails in logins whose text says a key again",
     lambda t: ", ".join(t.each(NAMES + keys(count - 3) + keys(1)) for count in PAIRS)),
    ("each allocation fails in a login whose second text has no keys",
     lambda t: t.each(NAMES + keys(FEW), b"", keys(1))),
    ("each allocation fails in a login whose second text has a key of the first",
     lambda t: t.each(NAMES + keys(FEW), keys(1))),
    (f"some allocations fail in a login whose second text has {MOST} keys",
     lambda t: t.some(NAMES, shortest_keys())),
    ("a text without keys asks for as little after many keys as after few", lambda t: t.for_nothing()),
]
