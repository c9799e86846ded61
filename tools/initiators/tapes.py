"""Tapes that targetd serves, for the initiator of tools/initiators/tape.c, which does what mt and tar do."""

import re
import subprocess
from pathlib import Path

from initiators.disks import MEBIBYTE, NAME, folder
from running.checks import must, run
from running.server import targetd

SOURCE = Path(__file__).resolve().parent / "tape.c"
LIMIT = 600  # seconds that all its checks may take
CAPACITY, EARLY = 4 * MEBIBYTE, 3 * MEBIBYTE
UNITS = """
[[target]]
name = "{name}:tape"
unit = [{{ lun = 0, kind = "tape", serial = "TAPE0", capacity = {capacity}, early = {early}{keeping} }}]
"""
CLOSING = re.compile(r"(\d+) passed, (\d+) failed")


def build(program):
    """Builds the initiator."""
    ran = subprocess.run(["gcc", "-O2", "-Wall", "-Wextra", "-o", program, SOURCE, "-liscsi"], capture_output=True,
                         text=True, check=False)
    must(ran.returncode == 0 and not ran.stderr, ran.stderr)


def units(keeping=""):
    """The units of a configuration with a tape that is kept so."""
    return UNITS.format(name=NAME, capacity=CAPACITY, early=EARLY, keeping=keeping)


def on_a_tape(tape, program, keeping, tally, kind, *words):
    """Makes the checks of the initiator on a tape that is kept so, each of which counts."""
    with targetd(program, units(keeping)) as server:
        url = f"iscsi://127.0.0.1:{server.port}/{NAME}:tape/0"
        status, said = run(tape, url, str(CAPACITY), str(EARLY), *words, limit=LIMIT)
        lines = said.splitlines()
        for line in lines[:-1]:
            result, _, name = line.partition(" ")
            tally.count(f"{kind} {name.partition(':')[0]}", lambda: must(result == "ok", line))
        closing = CLOSING.fullmatch(lines[-1]) if lines else None
        tally.count(f"{kind} comes_to_its_end", lambda: must(
            closing and int(closing[1]) + int(closing[2]) == len(lines) - 1 and status == (closing[2] != "0")
            and server.process.poll() is None, (status, lines[-1:])))


def count(program, tally):
    """Makes the checks of the initiator on a tape in memory and on one in a file, and looks whether the file
    still has what was written once its server has ended."""
    with folder() as path:
        tape, file = path / "tape", path / "content"
        tally.count("builds_the_initiator_for_tapes", lambda: build(tape))
        if not tape.exists():
            return
        on_a_tape(tape, program, "", tally, "tape in memory:")
        file.touch()
        keeping = f', file = "{file}"'
        on_a_tape(tape, program, keeping, tally, "tape in a file:")
        on_a_tape(tape, program, keeping, tally, "tape in a file, later:", "kept")
