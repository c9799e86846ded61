"""What a Linux host must see of a tape that its own initiator has attached, by st, mt and tar."""

from guest.attached import EARLY, LONG
from running.checks import must


def mt(lab, *words):
    return lab.guest.says(f"mt-st -f /dev/nst0 {' '.join(words)}")


def is_refused(lab, command, expected):
    status, said = lab.guest.run(command)
    must(status != 0 and expected in said, (command, status, said))


def keeps_archives_of_tar(lab):
    guest = lab.guest
    guest.says("mkdir -p /more && cp -r /etc /more")
    guest.says("/bin/tar -cf /dev/nst0 /files && /bin/tar -cf /dev/nst0 /more", LONG)
    mt(lab, "rewind")
    for name in ("files", "more"):
        guest.says(f"/bin/tar -df /dev/nst0 -C / && mt-st -f /dev/nst0 fsf 1 && echo {name}", LONG)
    must("File number=2, block number=0" in mt(lab, "status"), "it is not after the second file")
    mt(lab, "eod")
    guest.says("/bin/tar -cf /dev/nst0 /more", LONG)
    mt(lab, "bsf 2")
    mt(lab, "fsf 1")
    guest.says("/bin/tar -df /dev/nst0 -C /", LONG)
    guest.says("mt-st -f /dev/nst0 asf 1 && /bin/tar -df /dev/nst0 -C / && mt-st -f /dev/nst0 rewind")


def reads_records_of_another_length(lab):
    mt(lab, "rewind")
    said = lab.guest.says("dd if=/dev/nst0 of=/tmp/record bs=64k count=1 && wc -c < /tmp/record")
    must(said.strip().endswith("10240"), said)
    is_refused(lab, "dd if=/dev/nst0 of=/dev/null bs=512 count=1", "Cannot allocate memory")
    mt(lab, "fsr 1")
    mt(lab, "bsr 3")
    lab.guest.says("dd if=/dev/nst0 of=/tmp/again bs=10240 count=1 && cmp /tmp/record /tmp/again")


def unloads_and_loads(lab):
    mt(lab, "offline")
    must("DR_OPEN" in mt(lab, "status"), "it is loaded still")  # any other open waits for it for two minutes
    mt(lab, "load")
    must("ONLINE" in mt(lab, "status"), "it is not loaded")
    lab.guest.says("/bin/tar -df /dev/nst0 -C / && mt-st -f /dev/nst0 rewind", LONG)


def tells_and_seeks_with_scsi2logical(lab):
    mt(lab, "rewind")
    is_refused(lab, "mt-st -f /dev/nst0 tell", "Input/output error")
    is_refused(lab, "mt-st -f /dev/nst0 seek 1", "Input/output error")
    mt(lab, "stsetoptions scsi2logical")
    mt(lab, "seek 3")
    must("At block 3." in mt(lab, "tell"), "it is not at block 3")
    mt(lab, "rewind")


# ---- the tape in fixed blocks


def sets_blocks(lab, length):
    """Rewinds, and sets the block length, 0 for variable blocks."""
    mt(lab, "rewind")
    mt(lab, f"setblk {length}")
    said = mt(lab, "status")
    must(f"block size {length} bytes" in said, said)


def keeps_archives_in_fixed_blocks(lab):
    """Twenty blocks by each WRITE and READ; in variable blocks each is a record."""
    guest = lab.guest
    sets_blocks(lab, 512)
    guest.says("/bin/tar -b 20 -cf /dev/nst0 /files && /bin/tar -b 20 -cf /dev/nst0 /more", LONG)
    for length, blocks in ((512, 20), (512, 128), (512, 1), (0, 1)):
        sets_blocks(lab, length)
        for file in range(2):  # not by fsf: a READ that meets the filemark leaves st behind it
            guest.says(f"mt-st -f /dev/nst0 asf {file} && /bin/tar -b {blocks} -df /dev/nst0 -C /", LONG)
    sets_blocks(lab, 0)
    said = guest.says("dd if=/dev/nst0 of=/tmp/record bs=64k count=1 && wc -c < /tmp/record")
    must(said.strip().endswith("512"), said)


def reads_records_of_an_archive_as_fixed_blocks(lab):
    """The other way round: an archive that was written in variable blocks, one of 512 bytes by each WRITE."""
    sets_blocks(lab, 0)
    lab.guest.says("/bin/tar -b 1 -cf /dev/nst0 /files", LONG)
    for blocks in (1, 20, 128):
        sets_blocks(lab, 512)
        lab.guest.says(f"/bin/tar -b {blocks} -df /dev/nst0 -C /", LONG)
    sets_blocks(lab, 0)


def reads_fixed_blocks_up_to_a_filemark(lab):
    """Fourteen blocks, a filemark and nine more, by READs of four."""
    guest = lab.guest
    sets_blocks(lab, 512)
    guest.says("head -c 7168 /dev/urandom > /tmp/one; head -c 4608 /dev/urandom > /tmp/two")
    guest.says("dd if=/tmp/one of=/dev/nst0 bs=3584 && dd if=/tmp/two of=/dev/nst0 bs=4608 && mt-st -f /dev/nst0 rewind")
    guest.says("dd if=/dev/nst0 of=/tmp/read bs=2048 && cmp /tmp/one /tmp/read")
    must("File number=1, block number=0" in mt(lab, "status"), "it is not after the filemark")
    guest.says("dd if=/dev/nst0 of=/tmp/read bs=2048 && cmp /tmp/two /tmp/read")
    guest.says("dd if=/dev/nst0 of=/tmp/read bs=2048; test ! -s /tmp/read")
    mt(lab, "bsf 1")
    mt(lab, "bsr 3")
    guest.says("dd if=/dev/nst0 of=/tmp/read bs=10240 count=1; tail -c 1536 /tmp/two | cmp - /tmp/read")


def refuses_records_of_another_length_in_fixed_blocks(lab):
    sets_blocks(lab, 0)
    lab.guest.says("dd if=/tmp/one of=/dev/nst0 bs=700 count=3")
    sets_blocks(lab, 512)
    is_refused(lab, "dd if=/dev/nst0 of=/dev/null bs=1024 count=1", "Input/output error")
    is_refused(lab, "dd if=/tmp/one of=/dev/nst0 bs=700 count=1", "Invalid argument")  # which st says by itself
    is_refused(lab, "mt-st -f /dev/nst0 setblk 1048577", "Invalid argument")
    sets_blocks(lab, 0)


def fills_a_tape_with_fixed_blocks(lab):
    sets_blocks(lab, 512)
    status, said = lab.guest.run("dd if=/dev/zero of=/dev/nst0 bs=64k", LONG)
    must(status != 0 and "No space left on device" in said, (status, said))
    mt(lab, "rewind")
    said = lab.guest.says("dd if=/dev/nst0 of=/dev/null bs=64k 2>&1", LONG)
    must(int(said.split("+")[0]) >= EARLY // (512 + 8) // 128, said)
    sets_blocks(lab, 0)


def fills_a_tape(lab):
    """What st makes of the early warning: a program that writes is told that there is no space left."""
    mt(lab, "rewind")
    status, said = lab.guest.run("dd if=/dev/zero of=/dev/nst0 bs=64k", LONG)
    must(status != 0 and "No space left on device" in said, (status, said))
    mt(lab, "rewind")
    said = lab.guest.says("dd if=/dev/nst0 of=/dev/null bs=64k 2>&1", LONG)
    must(int(said.split("+")[0]) >= EARLY // (65536 + 8), said)
    mt(lab, "rewind")
    mt(lab, "erase")
    must(lab.guest.says("dd if=/dev/nst0 bs=64k count=1 2>/tmp/said | wc -c").strip() == "0", "it is not empty")


CHECKS = [
    keeps_archives_of_tar,
    reads_records_of_another_length,
    unloads_and_loads,
    tells_and_seeks_with_scsi2logical,
    keeps_archives_in_fixed_blocks,
    reads_records_of_an_archive_as_fixed_blocks,
    reads_fixed_blocks_up_to_a_filemark,
    refuses_records_of_another_length_in_fixed_blocks,
    fills_a_tape_with_fixed_blocks,
    fills_a_tape,
]
