"""What real initiators must see when they write onto disks that targetd serves. Each check has disks of its own."""

import os
import re
import subprocess
import threading
from concurrent.futures import ThreadPoolExecutor
from contextlib import contextmanager

from initiators.disks import (BLOCK, KINDS, LARGE_LIMIT, LARGE_SIZE, MEBIBYTE, MEMORY_MOST, SIZE, folder, holds,
                              is_same, lay_onto, random_image, read_back, served)
from running.checks import LIMIT, must, qemu_io, run, says, succeeds
from wire.relaying import ANSWERED, SENT, relaying

# Requests in flight, and what QEMU does for what it wrote to stay: flush at the end, or FUA with each write.
WAYS, OTHER_WAYS = [(16, "writeback"), (1, "writethrough")], [(1, "writeback"), (16, "writethrough")]
# Bytes that are written, and where: alone, over the edges of blocks, bursts (262144 bytes) and the longest
# WRITE (1 MiB), and up to the end. No two share a byte, but some share a block.
PLACES = [(0, 1), (511, 2), (7 * BLOCK + 3, 4096), ((1 << 18) - 1, 2), (3 * (1 << 18) - 700, (1 << 18) + 1400),
          (2 * MEBIBYTE - 1, 2 * MEBIBYTE + 3), (5 * MEBIBYTE, MEBIBYTE), (SIZE - 3 * MEBIBYTE - 1, MEBIBYTE + 1),
          (SIZE - 1026, 512), (SIZE - 514, 513), (SIZE - 1, 1)]
# Bytes that are made zeros: more than the longest WRITE SAME (16 MiB), one block, and parts of blocks.
ZEROS = [(MEBIBYTE, 20 * MEBIBYTE), (30 * MEBIBYTE + BLOCK, BLOCK), (40 * MEBIBYTE + 3, 70000), (SIZE - 4096, 4096)]
COMMAND, RESPONSE = 0x01, 0x21
WRITES, FLUSHES, SAMES = {0x2A, 0x8A}, {0x35, 0x91}, {0x41, 0x93}
FUA = 0x08
MANY = 8  # initiators that write at once


def lays_and_reads_back(disks, disk, image, requests=16, cache="writeback", limit=LIMIT):
    """An image is written onto a disk, which then has its bytes."""
    lay_onto(disks.url(disk), image, requests, cache, limit)
    with folder() as path:
        must(is_same(read_back(disks.url(disk), path / "copy", requests, limit), image), (disk, requests, cache))
    must(disk != "file" or is_same(disks.file, image), ("the file", requests, cache))


def takes_whole_disks(program, ways):
    """Images are written onto disks in each of these ways, one over the other."""
    with served(program) as disks, folder() as path:
        for seed, (requests, cache) in enumerate(ways):
            image = random_image(path / "image", SIZE, seed)
            for disk in KINDS:
                lays_and_reads_back(disks, disk, image, requests, cache)


def takes_whole_disks_byte_for_byte(program):
    takes_whole_disks(program, WAYS)


def takes_whole_disks_byte_for_byte_in_other_ways(program):
    takes_whole_disks(program, OTHER_WAYS)


def takes_large_disks_byte_for_byte(program):
    with served(program, LARGE_SIZE, MEMORY_MOST) as disks, folder() as path:
        for disk, size in (("file", LARGE_SIZE), ("memory", MEMORY_MOST)):
            lays_and_reads_back(disks, disk, random_image(path / "image", size, 8), limit=LARGE_LIMIT)


def before(disks, disk):
    """The bytes of a disk on which nothing was written yet."""
    return bytearray(disks.file.read_bytes() if disk == "file" else SIZE)


def takes_the_bytes(program, command, *ends):
    """qemu-io writes with this command at each of the places, and no byte beside them changes."""
    with served(program, seed=3) as disks:
        for disk in KINDS:
            expected, patterns = before(disks, disk), list(enumerate(PLACES, 1))
            qemu_io(disks.url(disk), *(f"{command} -P {pattern} {at} {count}" for pattern, (at, count) in patterns),
                    *ends, options=())
            qemu_io(disks.url(disk), *(f"read -P {pattern} {at} {count}" for pattern, (at, count) in patterns))
            for pattern, (at, count) in patterns:
                expected[at:at + count] = bytes([pattern]) * count
            holds(disks, disk, expected)


def takes_the_bytes_of_qemu_at_odd_places(program):
    takes_the_bytes(program, "write")


def takes_the_bytes_of_qemu_at_odd_places_all_in_flight(program):
    takes_the_bytes(program, "aio_write", "aio_flush")


def takes_any_number_in_flight(program):
    with served(program) as disks:
        for pattern, (depth, length) in enumerate([(1, 4096), (32, 4096), (128, 4096), (32, 256 << 10)], 1):
            count = 8 * MEBIBYTE // length
            said = succeeds("qemu-img", "bench", "-f", "raw", "-w", "-c", str(count), "-d", str(depth), "-s",
                            str(length), "--pattern", str(pattern), disks.url("file"))
            must("Run completed" in said, said)
            qemu_io(disks.url("file"), f"read -P {pattern} 0 {count * length}")


def takes_what_many_initiators_write_at_once(program):
    with served(program, seed=4) as disks, ThreadPoolExecutor(MANY) as pool:
        part, step = SIZE // MANY, 96 << 10
        for disk in KINDS:
            expected = before(disks, disk)

            def write(number):
                start, places = number * part, range(number * part, (number + 1) * part - step, step)
                for at in places:
                    expected[at:at + step] = bytes([1 + at // step % 255]) * step
                qemu_io(disks.url(disk), *(f"aio_write -P {1 + at // step % 255} {at} {step}" for at in places),
                        "aio_flush", f"read -P {1 + start // step % 255} {start} {step}", options=("-t", "writeback"))
            list(pool.map(write, range(MANY)))
            holds(disks, disk, expected)


def keeps_an_image_of_qcow2(program):
    """QEMU's own format on the disk itself: a snapshot is kept, and what is written after it."""
    with served(program) as disks, folder() as path:
        image = random_image(path / "image", SIZE // 2, 12)
        expected = bytearray(image.read_bytes())
        places = [(pattern, at, count) for pattern, (at, count) in enumerate(PLACES, 1) if at + count < SIZE // 2]
        for pattern, at, count in places:
            expected[at:at + count] = bytes([pattern]) * count
        for disk in KINDS:
            url, form = disks.url(disk), ("-f", "qcow2")
            succeeds("qemu-img", "create", "-q", *form, url, str(SIZE // 2))
            succeeds("qemu-img", "convert", "-n", "-f", "raw", "-O", "qcow2", image, url)
            succeeds("qemu-img", "snapshot", "-c", "before", url)
            qemu_io(url, *(f"aio_write -P {pattern} {at} {count}" for pattern, at, count in places), "aio_flush",
                    options=form)
            says(["No errors were found on the image."], "qemu-img", "check", *form, url)
            for words, content in (((), expected), (("-l", "snapshot.name=before"), image.read_bytes())):
                succeeds("qemu-img", "convert", *words, *form, "-O", "raw", url, path / "copy")
                must((path / "copy").read_bytes() == content, (disk, words))


def commands(relay):
    """The CDB of each command that passed, and the status that answered it."""
    cdbs, ended = {}, []
    for event in relay.events:
        opcode, tag = (event.data[0] & 0x3F, (event.connection, event.data[16:20])) if event.data else (None, None)
        if event.side == SENT and opcode == COMMAND:
            cdbs[tag] = event.data[32:48]
        elif event.side == ANSWERED and opcode == RESPONSE and tag in cdbs:
            ended.append((cdbs.pop(tag), event.data[3]))
    return ended


def makes_zeros_as_qemu_asks(program):
    with served(program, seed=6) as disks:
        for disk in KINDS:
            expected = bytearray(b"\x5a" * SIZE)
            qemu_io(disks.url(disk), f"write -P 0x5a 0 {SIZE}", options=())
            with relaying(("127.0.0.1", disks.port)) as relay:
                qemu_io(disks.url(disk, 0, relay.port), *(f"write -z {at} {count}" for at, count in ZEROS), options=())
            for at, count in ZEROS:
                expected[at:at + count] = bytes(count)
            holds(disks, disk, expected)
            same = [status for cdb, status in commands(relay) if cdb[0] in SAMES]
            must(len(same) >= len(ZEROS) and not any(same), ("WRITE SAME", same))


def flushes_when_qemu_asks(program):
    with served(program) as disks:
        for disk in KINDS:
            for cache, codes in (("writeback", FLUSHES), ("writethrough", WRITES)):
                with relaying(("127.0.0.1", disks.port)) as relay:
                    qemu_io(disks.url(disk, 0, relay.port), "write -P 9 4096 8192", "flush", options=("-t", cache))
                kept = [(cdb.hex(), status) for cdb, status in commands(relay)
                        if cdb[0] in codes and (cdb[0] in FLUSHES or cdb[1] & FUA)]
                must(kept and not any(status for _, status in kept), (disk, cache, kept))


@contextmanager
def session_of_qemu(url):
    """A qemu-io that stays connected: it is told one command after the other, and what it says of each is given."""
    with subprocess.Popen(["qemu-io", "-f", "raw", url], stdin=subprocess.PIPE, stdout=subprocess.PIPE,
                          stderr=subprocess.STDOUT) as process:
        late = threading.Timer(LIMIT, process.kill)
        late.start()

        def tell(command):
            process.stdin.write(command.encode() + b"\n")
            process.stdin.flush()
            said = b""
            while not re.search(rb"(bytes at offset|failed:|can't open).*\n", said):
                piece = os.read(process.stdout.fileno(), 4096)
                must(piece, ("qemu-io ended", said))
                said += piece
            return said.decode(errors="replace")
        try:
            yield tell
        finally:
            late.cancel()
            process.kill()


def writes_nothing_while_write_protected(program):
    with served(program, seed=7) as disks:
        for disk in KINDS:
            url, expected = disks.url(disk), before(disks, disk)
            says(["SWP:0"], "iscsi-swp", url)
            with session_of_qemu(url) as tell:
                must("wrote 512/512" in tell("write -P 7 0 512"), "before")
                says(["Turning SWP ON"], "iscsi-swp", "-s", "on", url)
                says(["SWP:1"], "iscsi-swp", url)
                must("write failed" in tell("write -P 8 0 1024"), "it was written while write protected")
                status, said = run("qemu-io", "-f", "raw", "-c", "write -P 9 0 512", url)
                must(status != 0 and "LUN is write protected" in said, (status, said))
                expected[:512] = b"\7" * 512
                holds(disks, disk, expected)
                says(["Turning SWP OFF"], "iscsi-swp", "-s", "off", url)
                must("wrote 1024/1024" in tell("write -P 10 0 1024"), "afterwards")
            expected[:1024] = b"\n" * 1024
            holds(disks, disk, expected)
