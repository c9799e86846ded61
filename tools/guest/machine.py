"""A Linux guest of QEMU, by software emulation, whose shell is told one command after the other."""

import os
import selectors
import subprocess
import time
from contextlib import contextmanager

from running.checks import Failed, must

BOOT_LIMIT, LIMIT = 180, 60  # seconds
MEMORY = "1024"  # MiB
END = "@@ended@@"  # which its first program says too, when it has a shell


class Guest:
    """A guest that is there, and the two ends of its shell."""

    def __init__(self, process):
        self.process = process
        self.waiting = selectors.DefaultSelector()
        self.waiting.register(process.stdout, selectors.EVENT_READ)
        self.number = 0  # of the command, so that a late end is not taken for the next one's

    def ended(self, what, limit):
        """Reads until a command has ended. Its status, and what it said."""
        until, said = time.monotonic() + limit, b""
        while True:
            text, found, rest = said.decode(errors="replace").rpartition(f"{END} {self.number} ")
            if found and rest.endswith("\n"):
                return int(rest), text
            if not self.waiting.select(max(0, until - time.monotonic())):
                raise Failed(f"the guest took more than {limit} seconds to {what}: {said[-300:]!r}")
            piece = os.read(self.process.stdout.fileno(), 65536)
            must(piece, ("the guest has ended", said[-300:]))
            said += piece

    def run(self, command, limit=LIMIT):
        """The status of a command of the shell, and what it said."""
        self.number += 1
        self.process.stdin.write(f"{{ {command}\n}} </dev/null; echo {END} {self.number} $?\n".encode())
        self.process.stdin.flush()
        return self.ended(f"do {command!r}", limit)

    def says(self, command, limit=LIMIT):
        """What a command said that ended well."""
        status, said = self.run(command, limit)
        must(status == 0, (command, status, said[-400:]))
        return said

    def waits_for(self, command, limit=LIMIT):
        """Waits until a command ends well."""
        self.says(f"for try in $(seq {limit}); do {{ {command}; }} >/dev/null 2>&1 && break; sleep 1; done; {command}",
                  2 * limit)


@contextmanager
def booted(kernel, root, console, disks=()):
    """A guest with these files as disks. Its kernel writes to the file `console`."""
    words = ["qemu-system-x86_64", "-accel", "tcg", "-cpu", "max", "-smp", "2", "-m", MEMORY, "-display", "none",
             "-no-reboot", "-monitor", "none", "-kernel", kernel, "-initrd", root,
             "-append", "console=ttyS0 panic=-1 random.trust_cpu=on",
             "-netdev", "user,id=net", "-device", "virtio-net-pci,netdev=net,romfile=",
             "-serial", f"file:{console}", "-chardev", "stdio,id=shell,signal=off", "-serial", "chardev:shell"]
    for disk in disks:
        words += ["-drive", f"file={disk},if=virtio,format=raw"]
    with subprocess.Popen(words, stdin=subprocess.PIPE, stdout=subprocess.PIPE) as process:
        try:
            guest = Guest(process)
            guest.ended("boot", BOOT_LIMIT)
            yield guest
        finally:
            process.kill()
