"""The memory that a program has allocated."""

import os
import struct


class Counted:
    """The memory that a program has allocated, as tools/bench_parts/allocations.c keeps it in a file."""

    def __init__(self, path):
        self.path = path
        path.write_bytes(bytes(16))

    def settings(self, library):
        """How a program is started that is counted so."""
        return {"env": {**os.environ, "LD_PRELOAD": str(library), "BENCH_MEMORY": str(self.path)}}

    def read(self):
        """How many bytes it has, and the most that it had."""
        return struct.unpack("qq", self.path.read_bytes())

    def begin(self):
        """Counts the most from now on. How many bytes there are."""
        now = self.read()[0]
        if now == 0:
            raise OSError("what the program allocates is not counted, which has an allocator of its own")
        with self.path.open("r+b") as file:
            file.seek(8)
            file.write(struct.pack("q", now))
        return now
