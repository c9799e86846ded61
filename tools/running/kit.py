"""The Rattle kit, whose command proves and builds the crates."""

import os
import shutil
import sys
from pathlib import Path

PROOF = 3 << 30  # the bytes of memory that the proof of a crate takes at most


def needs_rt(tool):
    """Ends a tool, with one line, if the command of the kit is not on the path."""
    if not shutil.which("rt"):
        sys.exit(f"{tool}: there is no rt on the path: it is the command of the Rattle kit, which builds the crates (README, "
                 "'By the kit')")


def one_job_each():
    """The environment in which `rt ci` proves each crate by one process, and as many crates side by side as there are processors
    and memory for. Left to itself it has several processes share a crate while others wait for it, and each of them loads the
    same libraries. The proof of iscsi_outbox then costs 1.2 times the processors' time."""
    lines = Path("/proc/meminfo").read_text(encoding="ascii").splitlines()
    free = next(1024 * int(line.split()[1]) for line in lines if line.startswith("MemAvailable:"))
    jobs = max(1, min(len(os.sched_getaffinity(0)), free // PROOF))
    return {"RT_JOBS": str(jobs), **os.environ}
