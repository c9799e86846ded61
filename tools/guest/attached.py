"""What a Linux host must see of a disk that its own initiator has attached, and what stands between. The host is a guest of
QEMU; a relay stands between it and targetd, and stalls, cuts and loses what it is told to."""

import hashlib
import time
from contextlib import contextmanager
from pathlib import Path
from typing import NamedTuple

from guest.machine import Guest
from running.checks import must, run
from running.server import Server, targetd
from wire.relaying import ANSWERED, SENT, Relay, relaying

NAME = "iqn.2024-01.com.example"
SIZE, BLOCK = 24 << 20, 512
CAPACITY, EARLY = 16 << 20, 15 << 20
UNITS = """
[[target]]
name = "{name}:linux"
unit = [{{ lun = 0, kind = "disk", serial = "LINUX0", file = "{file}" }},
        {{ lun = 1, kind = "tape", serial = "LINUX1", capacity = {capacity}, early = {early} }}]
[[target]]
name = "{name}:other"
unit = [{{ lun = 0, kind = "disk", serial = "OTHER0", blocks = 2048 }}]
"""
HOST = "10.0.2.2"  # this machine's loopback, as QEMU's user networking has it
LONG = 180  # seconds
STEP = 128 << 10  # of what it writes when something happens meanwhile
COMMAND, FUNCTION, LOGIN, LOGOUT, NOP_OUT = 0x01, 0x02, 0x03, 0x06, 0x00
FUNCTION_ANSWER, R2T, NOP_IN, LOGOUT_ANSWER = 0x22, 0x31, 0x20, 0x26
WRITE_10, SYNCHRONIZE_CACHE = 0x2A, 0x35
ABORT_TASK, LUN_RESET, TARGET_WARM_RESET = 1, 5, 6
COMPLETE = 0  # the response to a function that was done


class Loser:
    """Loses so many R2Ts."""

    def __init__(self):
        self.left = 0

    def loses(self, event):
        is_lost = self.left > 0 and event.side == ANSWERED and event.data[0] == R2T
        self.left -= is_lost
        return is_lost


class Lab(NamedTuple):
    """A guest, and what it attaches."""
    guest: Guest
    server: Server
    relay: Relay
    loser: Loser
    file: Path

    def portal(self):
        return f"{HOST}:{self.relay.port}"

    def node(self, *words):
        """Runs iscsiadm for the node of the target."""
        return self.guest.says(f"iscsiadm -m node -T {NAME}:linux -p {self.portal()} {' '.join(words)}")

    def disk(self):
        """The disk's name in the guest."""
        return self.guest.says("basename $(ls -d /sys/block/sd* | tail -n 1)").strip()

    def mark(self):
        """How many PDUs and ends have passed."""
        return len(self.relay.events)

    def sent(self, mark, opcode):
        """The PDUs of this opcode that the guest sent since then."""
        return [event for event in self.relay.events[mark:]
                if event.side == SENT and event.data and event.data[0] & 0x3F == opcode]

    def answered(self, mark, opcode):
        return [event for event in self.relay.events[mark:]
                if event.side == ANSWERED and event.data and event.data[0] == opcode]

    def writes(self, mark):
        return [event for event in self.sent(mark, COMMAND) if event.data[32] == WRITE_10]

    def functions(self, mark):
        """Each Task Management function that was asked for since then, and what it was answered, if it was."""
        told = {event.data[16:20]: event.data[2] for event in self.answered(mark, FUNCTION_ANSWER)}
        return [(event.data[1] & 0x7F, told.get(event.data[16:20])) for event in self.sent(mark, FUNCTION)]


@contextmanager
def lab_of(guest, program, folder):
    """The targets for a guest, and the relay between."""
    file, loser = folder / "disk", Loser()
    with file.open("wb") as empty:
        empty.truncate(SIZE)
    units = UNITS.format(name=NAME, file=file, capacity=CAPACITY, early=EARLY)
    with targetd(program, units) as server, relaying(("127.0.0.1", server.port), loses=loser.loses) as relay:
        yield Lab(guest, server, relay, loser, file)


def is_same(lab):
    """The disk has the bytes of the guest's image, for the guest and in its file here."""
    lab.guest.says(f"sync; echo 3 > /proc/sys/vm/drop_caches; cmp /tmp/image /dev/{lab.disk()}", LONG)
    image = lab.guest.says("sha256sum /tmp/image").split()[0]
    must(hashlib.sha256(lab.file.read_bytes()).hexdigest() == image, "the file has other bytes")


def makes_an_image(lab, seed):
    """New bytes to write."""
    lab.guest.says(f"yes {seed} | head -c 65536 > /tmp/some; rm -f /tmp/image; "
                   f"for n in $(seq {SIZE // 65536 // 4}); do head -c 196608 /dev/urandom; cat /tmp/some; done"
                   " > /tmp/image", LONG)


def lays_it_onto_the_disk(lab, options="oflag=direct", step=1 << 20):
    return f"dd if=/tmp/image of=/dev/{lab.disk()} bs={step} {options}"


def waits_until(is_so, what, limit=60):
    end = time.monotonic() + limit
    while not is_so():
        must(time.monotonic() < end, what)
        time.sleep(0.02)


# ---- discovery, login, the disk


def finds_the_targets(lab):
    said = lab.guest.says(f"iscsiadm -m discovery -t sendtargets -p {lab.portal()}")
    for target in ("linux", "other"):
        must(f"127.0.0.1:{lab.server.port},1 {NAME}:{target}" in said, said)


def logs_in(lab):
    lab.node("-o new")  # at the address that the guest has for this machine
    lab.node("--login")
    lab.guest.waits_for("test -b /dev/sda -a -c /dev/nst0 -a -c /dev/sg1")
    size = lab.guest.says(f"cat /sys/block/{lab.disk()}/size").strip()
    must(size == str(SIZE // BLOCK), ("its size", size))
    said = lab.guest.says("cat /sys/class/scsi_device/*/device/model")
    must("VIRTUAL DISK" in said and "VIRTUAL TAPE" in said, said)


def writes_and_reads_a_whole_disk(lab):
    for number, options in enumerate(("oflag=direct", "conv=fsync")):
        makes_an_image(lab, number)
        lab.guest.says(lays_it_onto_the_disk(lab, options), LONG)
        is_same(lab)


def keeps_a_file_system(lab):
    guest, disk = lab.guest, f"/dev/{lab.disk()}"
    guest.says("mkdir -p /files && cp -r /sbin /etc /files")
    guest.says(f"mkfs.ext4 -q -F {disk} && mount -t ext4 {disk} /mnt && cp -r /files /mnt && umount /mnt", LONG)
    guest.says(f"e2fsck -f -n {disk} && mount -t ext4 {disk} /mnt && diff -r /files /mnt/files && umount /mnt", LONG)


def answers_pings(lab):
    mark = lab.mark()
    waits_until(lambda: lab.answered(mark, NOP_IN), "no NOP-In in 15 seconds", 15)
    must(len(lab.sent(mark, LOGIN)) == 0, "it logged in again")


# ---- reservations, the end


def persist(lab, *words):
    return lab.guest.says(f"sg_persist {' '.join(words)} /dev/{lab.disk()}")


def writes_from_here(lab):
    """Whether another initiator, on this machine, may write."""
    url = f"iscsi://127.0.0.1:{lab.server.port}/{NAME}:linux/0"
    status, said = run("qemu-io", "-f", "raw", "-c", "write -P 7 0 512", url)
    return status == 0 and "wrote 512/512" in said


def keeps_reservations(lab):
    must(writes_from_here(lab), "it could not write before")
    persist(lab, "--out --register --param-sark=0x1234")
    persist(lab, "--out --reserve --param-rk=0x1234 --prout-type=5")
    must("0x1234" in persist(lab, "--in --read-keys"), "its key")
    said = persist(lab, "--in --read-reservation")
    must("Write Exclusive, registrants only" in said, said)
    must(not writes_from_here(lab), "another wrote against the reservation")
    lab.guest.says(f"dd if=/dev/zero of=/dev/{lab.disk()} bs=4096 count=1 oflag=direct")
    persist(lab, "--out --release --param-rk=0x1234 --prout-type=5")
    must(writes_from_here(lab), "it could not write afterwards")
    persist(lab, "--out --register --param-rk=0x1234 --param-sark=0")
    must("NO registered reservation keys" in persist(lab, "--in --read-keys"), "it is registered still")


def logs_out(lab):
    mark = lab.mark()
    lab.node("--logout")
    must(lab.answered(mark, LOGOUT_ANSWER), "no Logout was answered")
    must([event for event in lab.sent(mark, COMMAND) if event.data[32] == SYNCHRONIZE_CACHE], "it did not flush")
    lab.guest.waits_for("test ! -e /dev/sda")
    status, _ = lab.guest.run("iscsiadm -m session")
    must(status != 0, "there is a session still")


CHECKS = [
    finds_the_targets,
    logs_in,
    answers_pings,
    writes_and_reads_a_whole_disk,
    keeps_a_file_system,
    keeps_reservations,
]
