"""What real initiators must see of disks that targetd serves: a check is a function whose name says it."""

import re
from concurrent.futures import ThreadPoolExecutor

from initiators.disks import BLOCK, DISKS, LARGE_LIMIT, LARGE_SIZE, MEBIBYTE, NAME, SIZE, folder, is_same, read_back
from running.checks import must, qemu_io, run, says
from wire.relaying import ANSWERED, SENT, relaying

# Bytes that are read, and where: alone, over the edges of blocks, bursts (262144 bytes) and the longest
# READ (1 MiB), and up to the end.
PLACES = [(0, 1), (511, 2), (7 * BLOCK + 3, 4096), ((1 << 18) - 1, 2), (3 * (1 << 18) - 700, (1 << 18) + 1400),
          (MEBIBYTE - 1, MEBIBYTE + 3), (SIZE - 1, 1), (SIZE - BLOCK - 1, BLOCK + 1),
          (SIZE - MEBIBYTE - 1, MEBIBYTE + 1)]


def tells_what_disks_and_a_tape_are(disks):
    for disk, _ in DISKS:
        says(["Peripheral Device Type:DIRECT_ACCESS", "Vendor:ISCSIPRJ", "Product:VIRTUAL DISK", "Revision:0001",
              "CmdQue:1"], "iscsi-inq", disks.url(disk))
    says(["Peripheral Device Type:SEQUENTIAL_ACCESS", "Product:VIRTUAL TAPE", "Removable:1"],
         "iscsi-inq", disks.url("memory", 1))


def page(disks, disk, code):
    """What is run to see a page; the tool takes its code in decimal digits only."""
    return ("iscsi-inq", "-e", "1", "-c", str(code), disks.url(disk))


def tells_each_page_of_a_disk(disks):
    for disk, serial in DISKS:
        says(["Page:0x00 SUPPORTED_VPD_PAGES", "Page:0x80 UNIT_SERIAL_NUMBER", "Page:0x83 DEVICE_IDENTIFICATION",
              "Page:0xb0 BLOCK_LIMITS", "Page:0xb1 BLOCK_DEVICE_CHARACTERISTICS"], *page(disks, disk, 0x00))
        says([f"Unit Serial Number:[{serial}]"], *page(disks, disk, 0x80))
        says(["Designator Type:(1) T10_VENDORT_ID", f"Designator:[ISCSIPRJ{serial}]"], *page(disks, disk, 0x83))
        says(["wsnz:1", "maximum compare and write length:128", "maximum transfer length:2048",
              "maximum write same length:32768"], *page(disks, disk, 0xB0))
        says(["Medium Rotation Rate:0RPM"], *page(disks, disk, 0xB1))


def refuses_a_page_that_is_not_there(disks):
    status, said = run(*page(disks, "memory", 0xC7))
    must(status != 0 and "ILLEGAL_REQUEST(5) ASCQ:INVALID_FIELD_IN_CDB(0x2400)" in said, (status, said))


def refuses_a_target_of_another_name(disks):
    status, said = run("iscsi-inq", disks.url("other"))
    must(status != 0 and "Target not found" in said, (status, said))


def lists_the_targets(disks):
    portal = f"127.0.0.1:{disks.port}"
    targets = [f"Target:{NAME}:{disk} Portal:{portal},1" for disk, _ in DISKS]
    says(targets, "iscsi-ls", f"iscsi://{portal}")
    says([*targets, "Lun:0    Type:DIRECT_ACCESS (Size:63M)", "Lun:1    Type:SEQUENTIAL_ACCESS"],
         "iscsi-ls", "-s", f"iscsi://{portal}")


def tells_the_capacity(disks):
    for disk, _ in DISKS:
        says([f"RETURNED LOGICAL BLOCK ADDRESS:{SIZE // BLOCK - 1}", "LOGICAL BLOCK LENGTH IN BYTES:512",
              f"Total size:{SIZE}"], "iscsi-readcapacity16", disks.url(disk))


def reads_with_any_number_in_flight(disks):
    for words in (["-m", "1", "-b", "8"], ["-m", "32", "-b", "8", "-r"], ["-m", "128", "-b", "8"],
                  ["-m", "16", "-b", "2048"]):
        status, said = run("iscsi-perf", "-t", "1", *words, disks.url("file"))
        average = re.findall(r"iops average (\d+) ", said)
        must(status == 0 and "finished." in said and average and int(average[-1]) > 0, (words, status, said))


def shows_its_size_to_qemu(disks):
    for disk, _ in DISKS:
        says(["file format: raw", f"virtual size: 64 MiB ({SIZE} bytes)"], "qemu-img", "info", disks.url(disk))


def gives_whole_disks_byte_for_byte(disks):
    with folder() as path:
        for requests in (1, 16):
            copy = read_back(disks.url("file"), path / str(requests), requests)
            must(is_same(copy, disks.file), f"{requests} requests")
        zeros = read_back(disks.url("memory"), path / "zeros")
        must(zeros.stat().st_size == SIZE and not any(zeros.read_bytes()), "the disk in memory")


def gives_many_initiators_the_same_bytes_at_once(disks):
    with folder() as path, ThreadPoolExecutor(8) as pool:
        copies = pool.map(lambda requests: read_back(disks.url("file"), path / str(requests), requests), range(1, 9))
        must(all([is_same(copy, disks.file) for copy in copies]), "other bytes")


def gives_a_large_disk_byte_for_byte(disks):
    says([f"Total size:{LARGE_SIZE}"], "iscsi-readcapacity16", disks.url("file"))
    with folder() as path:
        must(is_same(read_back(disks.url("file"), path / "copy", limit=LARGE_LIMIT), disks.file), "other bytes")


def dumped(said):
    """The bytes that qemu-io printed, by their places."""
    found = {}
    for line in re.finditer(r"^([0-9a-f]{8,}):  ((?:[0-9a-f]{2} )+)", said, re.MULTILINE):
        found[int(line[1], 16)] = bytes.fromhex(line[2])
    return found


def gives_the_same_bytes(disks, command, *ends):
    """qemu-io, which reads with this command, prints the bytes of the file at each of the places."""
    content = disks.file.read_bytes()
    said = qemu_io(disks.url("file"), *(f"{command} -v {at} {count}" for at, count in PLACES), *ends)
    for at, count in PLACES:
        must(f"read {count}/{count} bytes at offset {at}\n" in said, (at, count))
    found = dumped(said)
    wrong = [at for at, data in found.items() if data != content[at:at + len(data)]]
    must(not wrong, f"other bytes at {wrong[:5]}")
    must(all(at + step in found for at, count in PLACES for step in range(0, count, 16)), "lines are missing")


def gives_qemu_the_bytes_at_odd_places(disks):
    gives_the_same_bytes(disks, "read")


def gives_qemu_the_bytes_at_odd_places_all_in_flight(disks):
    gives_the_same_bytes(disks, "aio_read", "aio_flush")


def gives_qemu_nothing_after_the_end(disks):
    for at, count in ((SIZE, 512), (SIZE - 512, 1024), (SIZE + (1 << 40), 1)):
        status, said = run("qemu-io", "-r", "-f", "raw", "-c", f"read {at} {count}", disks.url("file"))
        must("read failed: Input/output error" in said, (at, status, said))


def answer_to(relay, request):
    """The name of what came first on a connection after the first request of this name."""
    at = next((at for at, event in enumerate(relay.events) if event.side == SENT and event.name() == request), None)
    must(at is not None, f"no {request} was sent")
    connection = relay.events[at].connection
    return next(event.name() for event in relay.events[at:]
                if event.side == ANSWERED and event.connection == connection)


def must_answer(relay, request, answer):
    """The request is answered so, and the initiator had no need to connect again."""
    first = answer_to(relay, request)
    must(first == answer, f"{request} is answered {first}")
    must(all(event.connection == 0 for event in relay.events), "it connected again")


def answers_the_logout_of_libiscsi(disks):
    with relaying(("127.0.0.1", disks.port)) as relay:
        says([str(SIZE)], "iscsi-readcapacity16", "-s", disks.url("file", 0, relay.port))
        must_answer(relay, "Logout-Request", "Logout-Response")


def answers_the_pings_of_qemu(disks):
    content = disks.file.read_bytes()[:1024]
    with relaying(("127.0.0.1", disks.port)) as relay:
        # QEMU sends a NOP-Out after 5 seconds.
        said = qemu_io(disks.url("file", 0, relay.port), "read -v 0 16", "sleep 6000", "read -v 512 16")
        must(dumped(said) == {0: content[:16], 512: content[512:528]}, said)
        must_answer(relay, "NOP-Out", "NOP-In")
