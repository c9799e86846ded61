"""An initiator that is killed while it writes: each write is whole or absent, and each answered one is there."""

import signal
import subprocess
import threading

from initiators.disks import KINDS, SIZE, folder, read_back, served
from initiators.writers import COMMAND, RESPONSE, WRITES, before
from running.checks import LIMIT, Failed, must
from wire.relaying import ANSWERED, SENT, relaying

DATA_OUT = 0x05
# How long each write is, and how many there are. One of 256 KiB comes with its command; of one of 1 MiB
# the target asks for three quarters, by three R2Ts. At most 32 are in flight.
LOADS = [(256 << 10, 200), (1 << 20, 64)]
# How many writes are answered when the initiator is killed, in the next data that it sends.
ANSWERED_BEFORE = (0, 2, 5, 9, 20)


class Killer:
    """Kills a program in the first data that it sends after so many of its writes are answered."""

    def __init__(self, count):
        self.count = count
        self.process = None
        self.places, self.answered = {}, []
        self.gone = threading.Event()

    def see(self, event):
        """Looks at a PDU that a relay is about to pass on."""
        opcode, tag = (event.data[0] & 0x3F, event.data[16:20]) if event.data else (None, None)
        if event.side == ANSWERED and opcode == RESPONSE and tag in self.places and event.data[3] == 0:
            self.answered.append(self.places[tag])
        if event.side != SENT:
            return
        if not event.data:
            self.gone.set()
        is_write = opcode == COMMAND and event.data[32] in WRITES
        if is_write:
            at = slice(34, 38) if event.data[32] == 0x2A else slice(34, 42)
            self.places[tag] = int.from_bytes(event.data[at], "big") * 512
        if (is_write or opcode == DATA_OUT) and len(self.answered) >= self.count and self.process:
            self.process.kill()


def kill_while_it_writes(disks, disk, length, count, answered, rewrites=None):
    """An initiator writes a pattern of its own in each range, and is killed. Gives where writes were answered."""
    killer = Killer(answered)
    with relaying(("127.0.0.1", disks.port), killer.see, rewrites=rewrites) as relay:
        words = [word for number in range(count)
                 for word in ("-c", f"aio_write -P {number + 1} {number * length} {length}")]
        with subprocess.Popen(["qemu-io", "-f", "raw", *words, "-c", "aio_flush", disks.url(disk, 0, relay.port)],
                              stdin=subprocess.DEVNULL, stdout=subprocess.DEVNULL) as process:
            killer.process = process
            try:
                status = process.wait(LIMIT)
            except subprocess.TimeoutExpired:
                process.kill()
                raise Failed(f"after {len(killer.answered)} answers there were no more in {LIMIT} seconds") from None
        must(status == -signal.SIGKILL, ("it was not killed", status))
        must(killer.gone.wait(LIMIT), "not all that it sent was passed on")
    return killer.answered


def keeps_the_writes(program, length, count, answered, rewrites=None):
    """Each write is whole or absent on both disks, if the initiator is killed after so many were answered."""
    for disk in KINDS:
        with served(program, seed=9) as disks, folder() as path:
            old = before(disks, disk)
            there = kill_while_it_writes(disks, disk, length, count, answered, rewrites)
            must(disks.is_running(), "targetd has ended")
            found = read_back(disks.url(disk), path / "copy").read_bytes()
        are_whole(found, old, length, count, there, (disk, length, answered))


def keeps_the_writes_of_a_killed_initiator(program):
    for length, count in LOADS:
        keeps_the_writes(program, length, count, 1)


def keeps_the_writes_of_an_initiator_killed_anywhere(program):
    for length, count in LOADS:
        for answered in ANSWERED_BEFORE:
            keeps_the_writes(program, length, count, answered)


def are_whole(found, old, length, count, there, what):
    """Each range is as its write made it or as it was before; those answered are written, and not all are."""
    written = 0
    for number in range(count):
        at = number * length
        piece = found[at:at + length]
        is_new = piece == bytes([number + 1]) * length
        must(is_new or piece == old[at:at + length], (*what, f"a write at {at} is there in part"))
        must(is_new or at not in there, (*what, f"the write at {at} was answered and is not there"))
        written += is_new
    must(written < count, (*what, "it was killed after its last write"))
    must(found[count * length:] == old[count * length:] and len(found) == SIZE, (*what, "after the last write"))
