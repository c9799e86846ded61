"""What initiators must see while several R2Ts of a WRITE are open. Those of libiscsi offer MaxOutstandingR2T 1 alone, so a
relay offers more in their name, and that they send no data that was not asked for."""

import signal
import subprocess
from collections import defaultdict
from pathlib import Path

from initiators import interrupted, killed
from initiators.disks import KINDS, SIZE, folder, is_same, lay_onto, random_image, served
from running.checks import LIMIT, must, succeeds
from wire import pdu
from wire.relaying import ANSWERED, SENT, Relay, relaying

MOST = 4  # R2Ts of a command that the target has open at a time, if as many were offered
FUNCTION, FUNCTION_ANSWER, LOGIN, DATA_OUT, R2T, RESPONSE = 0x02, 0x22, 0x03, 0x05, 0x31, 0x21
ABORT_TASK = 1
FUNCTIONS = {ABORT_TASK: "an_abort_task", 2: "an_abort_task_set", 5: "a_reset_of_a_unit", 6: "a_reset_of_a_target"}
SOURCE = Path(__file__).resolve().parent / "removal.c"


def offering(offer):
    """Rewrites a Login Request so that it offers this MaxOutstandingR2T, and no data that was not asked for."""
    pairs = {b"MaxOutstandingR2T=1": b"MaxOutstandingR2T=%d" % offer, b"InitialR2T=No": b"InitialR2T=Yes",
             b"ImmediateData=Yes": b"ImmediateData=No"}

    def rewritten(data):
        if not data or data[0] & 0x3F != LOGIN:
            return data
        (header, additional, text), = pdu.cut(data)[0]
        text = b"\0".join(pairs.get(pair, pair) for pair in text.split(b"\0"))
        return (pdu.put(header, pdu.COMMON["DataSegmentLength"], len(text)) + additional + text
                + bytes(pdu.padding(len(text))))
    return rewritten


class Watch:
    """Counts the R2Ts of each command that are open. It acts when as many are as can be, and goes on at a function."""

    def __init__(self, offer, act=lambda: None):
        self.enough, self.act = min(offer, MOST), act
        self.go_on = lambda: None
        self.open, self.most = defaultdict(set), 0
        self.at_function, self.at_answer = None, None

    def see(self, event):
        """Looks at a PDU that a relay is about to pass on."""
        if not event.data:
            return
        opcode, task, tag = event.data[0] & 0x3F, (event.connection, event.data[16:20]), event.data[20:24]
        if (event.side, opcode) == (ANSWERED, R2T):
            self.open[task].add(tag)
            if len(self.open[task]) > self.most:
                self.most = len(self.open[task])
                if self.most == self.enough:
                    self.act()
        elif (event.side, opcode) == (SENT, DATA_OUT) and event.data[1] & 0x80:
            self.open[task].discard(tag)
        elif (event.side, opcode) == (ANSWERED, RESPONSE):
            self.open.pop(task, None)
        elif (event.side, opcode) == (SENT, FUNCTION):
            self.at_function = max(map(len, self.open.values()), default=0)
            self.go_on()
        elif (event.side, opcode) == (ANSWERED, FUNCTION_ANSWER):
            self.at_answer = max(map(len, self.open.values()), default=0)


def takes_large_writes(offer):
    """QEMU lays images onto disks, by WRITEs of up to 1 MiB, with as many R2Ts open as there may be."""
    def check(program):
        with served(program) as disks, folder() as path:
            image = random_image(path / "image", SIZE, offer)
            for disk in KINDS:
                watch = Watch(offer)
                with relaying(("127.0.0.1", disks.port), watch.see, rewrites=offering(offer)) as relay:
                    lay_onto(disks.url(disk, 0, relay.port), image)
                must(watch.most == watch.enough, (disk, offer, f"{watch.most} R2Ts were open"))
                succeeds("qemu-img", "compare", "-f", "raw", "-F", "raw", image, disks.url(disk))
            must(is_same(disks.file, image), "the file has other bytes")
    check.__name__ = f"takes_large_writes_where_{offer}_r2ts_are_offered"
    return check


def is_removed(removal, program, offer, function):
    """A WRITE is removed while its R2Ts are open. Their data is thrown away, and all but an ABORT TASK wait for it."""
    with served(program) as disks:
        for disk in KINDS:
            watch = Watch(offer)
            with relaying(("127.0.0.1", disks.port), watch.see, rewrites=offering(offer)) as relay:
                with subprocess.Popen([removal, disks.url(disk, 0, relay.port), str(function)],
                                      stdin=subprocess.DEVNULL, stderr=subprocess.PIPE, text=True) as process:
                    def act(relay=relay, process=process):
                        relay.stall()  # the WRITE cannot end before the function is sent: the last R2T waits for that
                        process.send_signal(signal.SIGUSR1)

                    watch.act, watch.go_on = act, relay.go_on
                    _, said = process.communicate(timeout=LIMIT)
            must(process.returncode == 0, (disk, function, process.returncode, said))
            must(watch.at_function == watch.enough, (disk, f"{watch.at_function} R2Ts were open at the function"))
            must(function == ABORT_TASK or watch.at_answer == 0, (disk, f"{watch.at_answer} were open at its answer"))


def removes_a_write(offer, function):
    def check(program):
        with folder() as path:
            removal = path / "removal"
            succeeds("gcc", "-O2", "-Wall", "-Wextra", "-Werror", "-o", removal, SOURCE, "-liscsi")
            is_removed(removal, program, offer, function)
    check.__name__ = f"removes_a_write_by_{FUNCTIONS[function]}_where_{offer}_r2ts_are_offered"
    return check


def keeps_the_writes_of_a_killed_initiator_with_r2ts_open(program):
    for answered in (0, 5):
        killed.keeps_the_writes(program, 1 << 20, 64, answered, offering(MOST))


def keeps_the_writes_of_a_stalled_connection_with_r2ts_open(program):
    interrupted.keeps_all_writes(program, Relay.stall, False, offering(MOST))


def keeps_the_writes_of_a_connection_that_is_cut_with_r2ts_open(program):
    interrupted.keeps_all_writes(program, Relay.cut, True, offering(MOST))
