"""File systems on disks that targetd serves: made here and laid onto them by QEMU, or made on them in place.

For the latter a disk is a file of this machine, by QEMU's NBD server and FUSE. All are read back and checked.
"""

import os
import random
import subprocess
import time
from contextlib import contextmanager

from initiators.disks import KINDS, MEBIBYTE, SIZE, folder, is_same, lay_onto, read_back, served
from running.checks import LIMIT, Failed, Skipped, must, succeeds

LENGTHS = [0, 1, 511, 4096, 70000, MEBIBYTE + 3, 9 * MEBIBYTE]  # of the files


def files(path):
    """Files of random bytes in a folder of their own."""
    chance = random.Random(11)
    where = path / "files"
    where.mkdir()
    for length in LENGTHS:
        (where / f"file{length}").write_bytes(chance.randbytes(length))
    return sorted(where.iterdir())


def make_ext4(image, sources):
    succeeds("mke2fs", "-q", "-F", "-t", "ext4", "-d", sources[0].parent, image)


def check_ext4(image, sources, copies):
    succeeds("e2fsck", "-f", "-n", image)
    for source in sources:
        succeeds("debugfs", "-R", f"dump /{source.name} {copies / source.name}", image)


def make_fat(image, sources):
    succeeds("mkfs.fat", image)
    succeeds("mcopy", "-i", image, *sources, "::")


def check_fat(image, sources, copies):
    succeeds("fsck.fat", "-n", image)
    succeeds("mcopy", "-i", image, *(f"::{source.name}" for source in sources), copies)


def make_ntfs(image, sources):
    succeeds("mkntfs", "-q", "-F", "-Q", image)
    for source in sources:
        succeeds("ntfscp", image, source, source.name)


def check_ntfs(image, sources, copies):
    said = succeeds("ntfsfix", "--no-action", image)
    must("processed successfully" in said, said)
    for source in sources:
        succeeds("sh", "-c", 'ntfscat "$0" "$1" > "$2"', image, source.name, copies / source.name)


def has_the_files(copy, check, sources, copies):
    """A file system that was read back is sound, and has the files."""
    copies.mkdir()
    check(copy, sources, copies)
    must(all(is_same(source, copies / source.name) for source in sources), (copies.name, "other files"))


def keeps(make, check, name):
    """A check that a file system of this kind comes back from both disks, with all its files."""
    def keep(program):
        with served(program) as disks, folder() as path:
            image, sources = path / "image", files(path)
            with image.open("wb") as empty:
                empty.truncate(SIZE)
            make(image, sources)
            for disk in KINDS:
                lay_onto(disks.url(disk), image)
                copy = read_back(disks.url(disk), path / f"{disk}.image")
                must(is_same(copy, image), (disk, "other bytes"))
                has_the_files(copy, check, sources, path / disk)
    keep.__name__ = f"keeps_a_file_system_of_{name}"
    return keep


def wait_until(is_ready, process):
    """Waits for a program to be ready; one that has ended, or has no leave to mount, never is."""
    end = time.monotonic() + LIMIT
    while not is_ready():
        if process.poll() is not None:
            said = process.stdout.read()
            raise (Skipped if "fusermount" in said else Failed)(f"nbdfuse: {said.strip()[-200:]}")
        must(time.monotonic() < end, "nbdfuse is not ready")
        time.sleep(0.05)


@contextmanager
def as_file(url, path):
    """The disk as a file, until it is no longer needed and all that was written is flushed."""
    if not os.access("/dev/fuse", os.R_OK | os.W_OK):
        raise Skipped("there is no /dev/fuse here")
    mount, ready = path / "mount", path / "ready"
    mount.mkdir()
    words = ["nbdfuse", "--pidfile", ready, mount, "[", "qemu-nbd", "--format", "raw", url, "]"]
    with subprocess.Popen(words, stdin=subprocess.DEVNULL, stdout=subprocess.PIPE, stderr=subprocess.STDOUT,
                          text=True) as process:
        try:
            wait_until(ready.exists, process)
            yield mount / "nbd"
        finally:
            subprocess.run(["fusermount3", "-u", mount], capture_output=True, check=False)
            try:
                process.wait(LIMIT)
            except subprocess.TimeoutExpired:
                process.kill()


def keeps_in_place(make, check, name):
    """A check that a file system of this kind can be made on both disks, and comes back with all its files."""
    def keep(program):
        with served(program) as disks, folder() as path:
            sources = files(path)
            for disk in KINDS:
                with folder() as own, as_file(disks.url(disk), own) as image:
                    make(image, sources)
                has_the_files(read_back(disks.url(disk), path / f"{disk}.image"), check, sources, path / disk)
    keep.__name__ = f"keeps_a_file_system_of_{name}_that_is_made_in_place"
    return keep


EXT4, FAT, NTFS = (make_ext4, check_ext4, "ext4"), (make_fat, check_fat, "FAT"), (make_ntfs, check_ntfs, "NTFS")
