"""The runs of one input in which a call of the program fails, one call after the other."""

import os
import tempfile

from failing_calls_checks.serve import Failed
from replay.program import at_once

OUT_OF_MEMORY = (3, b"targetd: out of memory\n")


class Sweep:
    """The runs of one input in which a call of one kind fails."""

    def __init__(self, program, shim, run):
        self.program = program
        self.shim = shim
        self.run = run
        self.sent = b"".join(step.sent for step in run.steps)
        self.plain = at_once(program, run, None)

    def ended(self, **settings):
        """How a run ended, and how many calls failed in it."""
        chosen = {f"FAIL_{name.upper()}": str(value) for name, value in settings.items()}
        with tempfile.TemporaryFile() as report:
            inherited = {**os.environ, "LD_PRELOAD": str(self.shim), **chosen,
                         "FAIL_REPORT": str(report.fileno())}
            ended = at_once(self.program, self.run, None, env=inherited, pass_fds=[report.fileno()])
            return ended, os.fstat(report.fileno()).st_size // len("failed\n")

    def each(self, must, **settings):
        """Lets each call fail in turn, and gives how many there are."""
        number = 0
        while True:
            number += 1
            ended, failures = self.ended(number=number, **settings)
            if not failures:
                break
            if not must(self, number, ended):
                raise Failed(f"call {number}: status {ended.status}, {ended.stderr!r}, "
                             f"{len(ended.stdout)} bytes of output")
        if number == 1:
            raise Failed("no call failed at all")
        if ended != self.plain:
            raise Failed("the run without a failed call is not the plain run")
        return f"{number - 1} calls"

    def whole(self, pieces, **settings):
        """Runs with pieces of each size, which must change nothing."""
        for piece in pieces:
            ended, _ = self.ended(piece=piece, **settings)
            if ended != self.plain:
                raise Failed(f"pieces of {piece} bytes change what the program does")
        return f"{len(pieces)} sizes"


def is_front_of_lines(sweep, ended):
    """The output is whole lines that the plain run begins with."""
    out = ended.stdout
    return sweep.plain.stdout.startswith(out) and (not out or out.endswith(b"\n"))


def out_of_memory(sweep, _, ended):
    """It ends with out of memory, or the allocation was not needed."""
    ran_out = (ended.status, ended.stderr) == OUT_OF_MEMORY and is_front_of_lines(sweep, ended)
    return ran_out or ended == sweep.plain
