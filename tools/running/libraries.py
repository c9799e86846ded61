"""Libraries of these tools that are loaded into a program (LD_PRELOAD)."""

import os
import subprocess
import tempfile
from pathlib import Path

TOOLS = Path(__file__).resolve().parents[1]
CALLS = "failing_calls_checks/calls.c"  # makes calls of the C library fail, or move few bytes


def built(source):
    """Builds a library of a source below tools/, and gives its path. Another run may build the same meanwhile."""
    path = TOOLS / f"out/{Path(source).stem}.so"
    path.parent.mkdir(exist_ok=True)
    with tempfile.TemporaryDirectory(dir=path.parent) as room:
        made = Path(room) / path.name
        subprocess.run(["gcc", "-O1", "-Wall", "-Wextra", "-Werror", "-shared", "-fPIC", "-o", made, TOOLS / source],
                       check=True)
        os.replace(made, path)
    return path
