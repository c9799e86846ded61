"""tgt, the iSCSI target of Debian's package of this name, to measure beside."""

import socket
import subprocess
import time
from contextlib import contextmanager
from pathlib import Path

LIMIT = 10  # seconds that it may take to begin, and each of its commands
NAME = "iqn.2024-01.com.example:tgt"
SOCKETS = Path("/var/run/tgtd")
NEW, BOUND = (["--op", "new", "--mode", "target", "--tid", "1", "-T", NAME],
              ["--op", "bind", "--mode", "target", "--tid", "1", "-I", "ALL"])
# As much data in a PDU to it as other targets take.
SEGMENT = ["--op", "update", "--mode", "target", "--tid", "1", "--name", "MaxRecvDataSegmentLength", "--value", "262144"]
UNIT = ["--op", "new", "--mode", "logicalunit", "--tid", "1", "--lun", "1", "-b"]
TAPE = ["--device-type", "tape", "--bstype", "ssc"]


def free_port():
    with socket.create_server(("127.0.0.1", 0)) as listener:
        return listener.getsockname()[1]


def tell(control, words):
    """Gives a running tgtd a command. Gives why it was refused, or nothing."""
    ran = subprocess.run(["tgtadm", "-C", control, "--lld", "iscsi", *words], capture_output=True, text=True,
                         timeout=LIMIT, check=False)
    return ran.stderr.strip() if ran.returncode else ""


def begin(process, control, unit):
    """Waits until it answers, and gives it its unit."""
    end = time.monotonic() + LIMIT
    while why := tell(control, ["--op", "show", "--mode", "target"]):
        if process.poll() is not None or time.monotonic() > end:
            raise OSError(f"tgtd does not answer: {why}")
        time.sleep(0.1)
    for words in (NEW, SEGMENT, [*UNIT, *unit], BOUND):
        if why := tell(control, words):
            raise OSError(f"tgtadm {' '.join(map(str, words))}: {why}")


@contextmanager
def tgt(file, *kind):
    """tgtd with a unit in this file, LUN 1, a disk if no kind is given: its process and the unit's URL. It is ended
    afterwards."""
    port = free_port()
    control = str(port % 32768)  # the highest that tgtadm takes is 32767
    SOCKETS.mkdir(exist_ok=True)
    words = ["tgtd", "-f", "-C", control, "--iscsi", f"portal=127.0.0.1:{port}"]
    with subprocess.Popen(words, stdin=subprocess.DEVNULL, stdout=subprocess.DEVNULL,
                          stderr=subprocess.DEVNULL) as process:
        try:
            begin(process, control, [file, *kind])
            yield process, f"iscsi://127.0.0.1:{port}/{NAME}/1"
        finally:
            process.kill()
            for left in SOCKETS.glob(f"socket.{control}*"):
                left.unlink()


@contextmanager
def tape(file, mebibytes):
    """tgtd with a tape of so many MiB in this file, which is made anew."""
    words = ["--op", "new", "--device-type", "tape", "--barcode", "TAPE01", "--size", str(mebibytes), "--type", "data",
             "--file", file]
    subprocess.run(["tgtimg", *words], stdout=subprocess.DEVNULL, stderr=subprocess.PIPE, check=True, timeout=LIMIT)
    with tgt(file, *TAPE) as served:
        yield served
