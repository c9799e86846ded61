"""Disks that targetd serves on loopback, and images that are laid onto them and read back from them."""

import random
import subprocess
import tempfile
from contextlib import contextmanager
from pathlib import Path
from typing import NamedTuple

from running.checks import LIMIT, must, succeeds
from running.server import targetd

LARGE_LIMIT = 300  # seconds that an initiator may take on the large disk
BLOCK, MEBIBYTE = 512, 1 << 20
SIZE = 64 * MEBIBYTE
LARGE_SIZE = 1024 * MEBIBYTE
MEMORY_MOST = 512 * MEBIBYTE  # of a disk in memory
NAME = "iqn.2024-01.com.example"
UNITS = """
[[target]]
name = "{name}:memory"
unit = [{{ lun = 0, kind = "disk", serial = "MEMORY0", blocks = {blocks} }},
        {{ lun = 1, kind = "tape", serial = "TAPE1", capacity = 1000000, early = 900000 }}]
[[target]]
name = "{name}:file"
unit = [{{ lun = 0, kind = "disk", serial = "FILE0", file = "{file}" }}]
"""
DISKS = (("memory", "MEMORY0"), ("file", "FILE0"))
KINDS = ("memory", "file")


class Served(NamedTuple):
    """The disks, and the port at which they are served."""
    process: subprocess.Popen
    port: int
    file: Path

    def is_running(self):
        return self.process.poll() is None

    def url(self, disk, unit=0, port=None):
        return f"iscsi://127.0.0.1:{port or self.port}/{NAME}:{disk}/{unit}"


@contextmanager
def folder():
    """A folder for images, which is gone afterwards."""
    with tempfile.TemporaryDirectory(prefix="clients-") as path:
        yield Path(path)


def random_image(path, size, seed):
    """A file of random bytes, others for each seed."""
    chance = random.Random(seed)
    with path.open("wb") as file:
        for _ in range(size // MEBIBYTE):
            file.write(chance.randbytes(MEBIBYTE))
    return path


@contextmanager
def served(program, size=SIZE, memory=SIZE, seed=None):
    """A disk in memory, of zeros, and one in a file, of random bytes if a seed is given."""
    with folder() as path:
        file = path / "disk"
        if seed is None:
            with file.open("wb") as empty:
                empty.truncate(size)
        else:
            random_image(file, size, seed)
        units = UNITS.format(name=NAME, blocks=memory // BLOCK, file=file)
        with targetd(program, units) as server:
            yield Served(server.process, server.port, file)


def read_back(url, path, requests=16, limit=LIMIT):
    """What qemu-img makes of a whole disk, with so many requests in flight."""
    succeeds("qemu-img", "convert", "-f", "raw", "-O", "raw", "-W", "-m", str(requests), url, path, limit=limit)
    return path


def lay_onto(url, image, requests=16, cache="writeback", limit=LIMIT):
    """qemu-img writes an image onto a disk, with so many requests in flight, and flushes it."""
    succeeds("qemu-img", "convert", "-n", "-f", "raw", "-O", "raw", "-W", "-m", str(requests), "-t", cache,
             image, url, limit=limit)


def is_same(one, other):
    """Two files have the same bytes."""
    with one.open("rb") as left, other.open("rb") as right:
        while piece := left.read(MEBIBYTE):
            if piece != right.read(MEBIBYTE):
                return False
        return right.read(1) == b""


def holds(disks, disk, expected):
    """A disk has these bytes for an initiator, and so has the file that it is kept in."""
    with folder() as path:
        found = read_back(disks.url(disk), path / "copy").read_bytes()
    must(found == expected, (disk, "other bytes from", found != expected and first_difference(found, expected)))
    must(disk != "file" or disks.file.read_bytes() == expected, "the file has other bytes")


def first_difference(one, other):
    """Where two texts of bytes differ first."""
    for start in range(0, max(len(one), len(other)), MEBIBYTE):
        left, right = one[start:start + MEBIBYTE], other[start:start + MEBIBYTE]
        if left != right:
            return start + next((at for at, pair in enumerate(zip(left, right)) if pair[0] != pair[1]),
                                min(len(left), len(right)))
    return None
