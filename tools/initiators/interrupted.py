"""An initiator whose connection stalls, or is cut, while it writes: it goes on, and all that it wrote is there."""

import subprocess
import threading
import time

from initiators.disks import KINDS, SIZE, folder, read_back, served
from initiators.writers import COMMAND, RESPONSE, WRITES, before
from running.checks import LIMIT, must
from wire.relaying import ANSWERED, SENT, Relay, relaying

# How long each write is, how many there are, and how many are answered when the connection is interrupted.
LENGTH, COUNT, ANSWERED_BEFORE = 1 << 20, 48, 6
STALL = 3  # seconds, fewer than QEMU waits between its pings
LOGIN = 0x03


class Watch:
    """Counts the logins and the writes that were answered, and interrupts when these are enough."""

    def __init__(self):
        self.logins, self.answered, self.writes = 0, 0, set()
        self.interrupt = None
        self.interrupted = threading.Event()

    def see(self, event):
        """Looks at a PDU that a relay is about to pass on."""
        opcode, tag = (event.data[0] & 0x3F, event.data[16:20]) if event.data else (None, None)
        if event.side == SENT:
            self.logins += opcode == LOGIN
            if opcode == COMMAND and event.data[32] in WRITES:
                self.writes.add(tag)
        elif event.side == ANSWERED and opcode == RESPONSE:
            self.answered += tag in self.writes
        if self.answered >= ANSWERED_BEFORE and not self.interrupted.is_set():
            self.interrupt()
            self.interrupted.set()


def write_interrupted(disks, disk, interrupt, rewrites=None):
    """An initiator writes a pattern of its own in each range, and is interrupted. Gives how often it logged in."""
    watch = Watch()
    words = [word for number in range(COUNT)
             for word in ("-c", f"aio_write -P {number + 1} {number * LENGTH} {LENGTH}")]
    with relaying(("127.0.0.1", disks.port), watch.see, rewrites=rewrites) as relay:
        watch.interrupt = lambda: interrupt(relay)
        with subprocess.Popen(["qemu-io", "-f", "raw", *words, "-c", "aio_flush", disks.url(disk, 0, relay.port)],
                              stdin=subprocess.DEVNULL, stdout=subprocess.PIPE, text=True) as process:
            must(watch.interrupted.wait(LIMIT), "its writes are not answered")
            time.sleep(STALL)
            relay.go_on()
            said, _ = process.communicate(timeout=LIMIT)
        must(process.returncode == 0 and "error" not in said, (process.returncode, said))
    return watch.logins


def keeps_all_writes(program, interrupt, is_lost, rewrites=None):
    """On both disks all is there that was written, and nothing else has changed. Where its connection is lost the
    initiator logs in again."""
    for disk in KINDS:
        with served(program, seed=11) as disks, folder() as path:
            old = before(disks, disk)
            logins = write_interrupted(disks, disk, interrupt, rewrites)
            must((logins > 1) == is_lost, f"it logged in {logins} times")
            must(disks.is_running(), "targetd has ended")
            image = read_back(disks.url(disk), path / "copy").read_bytes()
        new = b"".join(bytes([number + 1]) * LENGTH for number in range(COUNT))
        must(image == new + old[len(new):] and len(image) == SIZE, (disk, "not all that was written is there"))


def keeps_the_writes_of_a_stalled_connection(program):
    keeps_all_writes(program, Relay.stall, False)


def keeps_the_writes_of_a_connection_that_is_cut(program):
    keeps_all_writes(program, Relay.cut, True)
