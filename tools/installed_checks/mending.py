"""targetd-mend-tape: what it says of a tape's file, the records that it gives, and where it cuts it."""

import fcntl
import io
import os
import random
import re
import resource
import signal
import struct
import subprocess
import sys
import tarfile

from installed_checks.installation import LIMIT, MEND, TOP, installed, ran
from running import server
from serving_checks.tape_files import CAPACITY, UNITS, item

RECORD = b"a record of 24 bytes\0\0\0\0"
WHOLE = item(b"ab") + item() + item(RECORD) + item() * 2
SAID = "2 records and 3 filemarks in {} bytes"
# What stands at the end of a tape in place of an item, and what is told of it.
TORN = [
    *((bytes(4)[:count], f"{count} byte{'s' * (count > 1)} of a length") for count in range(1, 4)),
    *((item()[:count], f"the length 0 and {count - 4} byte{'s' * (count != 5)} of its second length")
      for count in range(4, 8)),
    *((item(RECORD)[:count], f"the length 24, and {count - 4} byte{'s' * (count != 5)} of its data")
      for count in range(4, 28)),
    *((item(RECORD)[:count], f"the length 24, its data, and {count - 28} byte{'s' * (count != 29)} of its second length")
      for count in range(28, 32)),
    (bytes(7) + b"\x01", "the length 0 and the second length 1"),
    (item(RECORD)[:-1] + b"\x19" + item(b"cd"), "the length 24, its data, and the second length 25"),
    (b"\x00\x10\x00\x01" + bytes(20), "the length 1048577, and a record has at most 1048576 bytes"),
]


def cut_of(path):
    """The file in which the bytes are kept that were cut off a tape."""
    return path.with_name(f"{path.name}.cut")


def cut_at(path, end, count):
    """What is printed of a cut by which a number of bytes went."""
    return f"{path}: cut at byte {end}; the {count} byte{' after it is' if count == 1 else 's after it are'} in {cut_of(path)}"


def told(top, *words):
    """The status of targetd-mend-tape, the lines of what it prints, and its fault."""
    status, said, fault = ran(top / MEND, *words)
    return status, said.splitlines(), fault


def counts_the_items_of_a_whole_tape_and_leaves_it():
    with installed() as top:
        for content, said in ((b"", "0 records and 0 filemarks in 0 bytes"), (WHOLE, SAID.format(len(WHOLE))),
                              (item(bytes(1 << 20)) * 2, "2 records and 0 filemarks in 2097168 bytes")):
            path = top / "tape"
            path.write_bytes(content)
            for words in ([path], ["--cut", path], ["--cut-at", str(len(content)), path]):
                assert told(top, *words) == (0, [f"{path}: {said}"], ""), words
                assert path.read_bytes() == content and not cut_of(path).exists()


def tells_what_stands_at_a_torn_end_and_cuts_it_when_asked():
    with installed() as top:
        path = top / "tape"
        for front, said, words in ((WHOLE, SAID.format(len(WHOLE)), ["--cut"]),
                                   (b"", "0 records and 0 filemarks in 0 bytes", ["--cut-at", "0"])):
            for end, fault in TORN:
                path.write_bytes(front + end)
                lines = [f"{path}: {said}",
                         f"{path}: no whole item begins at byte {len(front)} of {len(front + end)}: {fault}"]
                assert told(top, path) == (1, lines, ""), fault
                assert path.read_bytes() == front + end and not cut_of(path).exists()
                assert told(top, *words, path) == (0, [*lines, cut_at(path, len(front), len(end))], ""), fault
                assert path.read_bytes() == front and cut_of(path).read_bytes() == end
                cut_of(path).unlink()


def cuts_what_is_longer_than_a_torn_end_only_where_it_is_told_to():
    longest = item(bytes(1 << 20))[:-1]
    noise = random.Random(9).randbytes(4 << 20)
    with installed() as top:
        path = top / "tape"
        for front, end, why in (
                (item(b"ab"), longest, None),
                (item(b"ab"), longest[:-1] + b"\1\1", "1048584 bytes stand after byte 10, and a torn end has at most 1048583"),
                (bytes(1024), noise, "4194304 bytes stand after byte 1024, and a torn end has at most 1048583"),
                (b"", noise, "4194304 bytes stand after byte 0, and a torn end has at most 1048583"),
                (b"", noise[:4000], "no item stands at its front, and all its 4000 bytes would go")):
            path.write_bytes(front + end)
            status, said, fault = told(top, "--cut", path)
            hint = f": it may be no tape ('--cut-at {len(front)}' cuts it all the same)"
            assert (status, fault) == ((1, f"{path}: not cut: {why}{hint}\n") if why else (0, "")), fault
            if why:
                assert path.read_bytes() == front + end and not cut_of(path).exists()
                status, said, fault = told(top, "--cut-at", str(len(front)), path)
            assert (status, said[-1], fault) == (0, cut_at(path, len(front), len(end)), ""), fault
            assert path.read_bytes() == front and cut_of(path).read_bytes() == end
            cut_of(path).unlink()


def cuts_at_a_byte_at_which_an_item_ends_and_at_no_other():
    ends = {0, 10, 18, 50, 58, 66}  # of WHOLE
    with installed() as top:
        path = top / "tape"
        for content in (WHOLE, WHOLE + b"\0"):
            for offset in sorted({max(0, end + near) for end in ends for near in (-1, 0, 1, 2)} | {10 ** 18}):
                path.write_bytes(content)
                status, said, fault = told(top, "--cut-at", str(offset), path)
                gone = len(content) - offset
                if offset not in ends:
                    why = (f"byte {offset} is beyond its end: it has {len(content)} bytes" if gone < 0 else
                           f"no item ends at byte {offset}: the last one before it ends at byte "
                           f"{max(end for end in ends if end < offset)}")
                    assert (status, fault) == (1, f"{path}: not cut: {why}\n"), fault
                    assert path.read_bytes() == content and not cut_of(path).exists()
                    continue
                assert (status, fault) == (0, ""), fault
                assert path.read_bytes() == content[:offset]
                assert not gone or (said[-1], cut_of(path).read_bytes()) == (cut_at(path, offset, gone), content[offset:])
                cut_of(path).unlink(missing_ok=True)


def cuts_nothing_that_it_cannot_keep():
    content = WHOLE + item(bytes(5000))[:-1]
    fault = "{0}: not cut: what would go cannot be kept in tape.cut: {1}\n"
    with installed() as top:
        path = top / "tape"
        path.write_bytes(content)
        cut_of(path).write_bytes(b"of before")
        assert told(top, "--cut", path)[::2] == (3, fault.format(path, "it is there already, and is not written over"))
        assert (path.read_bytes(), cut_of(path).read_bytes()) == (content, b"of before")
        cut_of(path).unlink()
        # No file may be longer, as none could on a disk that is full.
        status, _, said = ran(top / MEND, "--cut", path, preexec_fn=lambda: resource.setrlimit(
            resource.RLIMIT_FSIZE, (1000, 1000)))
        assert (status, said) == (3, fault.format(path, "File too large")), said
        assert path.read_bytes() == content and not cut_of(path).exists()
        assert told(top, "--cut", path)[0] == 0 and cut_of(path).read_bytes() == content[len(WHOLE):]


def keeps_what_it_cuts_for_the_owner_of_the_tape_alone():
    with installed() as top:
        path = top / "tape"
        path.write_bytes(WHOLE + b"\0")
        path.chmod(0o644)
        if os.geteuid() == 0:
            os.chown(path, 65534, 65534)
        assert told(top, "--cut", path)[0] == 0
        tape, kept = path.stat(), cut_of(path).stat()
        assert (kept.st_mode & 0o7777, kept.st_uid, kept.st_gid) == (0o600, tape.st_uid, tape.st_gid), kept


def cuts_a_tape_so_that_targetd_serves_it():
    with installed() as top:
        path = top / "tape"
        path.write_bytes(WHOLE + item(RECORD)[:-1])
        units = UNITS.format(file=path, capacity=CAPACITY)
        assert told(top, "--cut", path)[0] == 0
        with server.targetd(top / "sbin/targetd", units) as running:
            assert told(top, "--cut", path) == (3, [], f"{path}: it is locked by process {running.process.pid} (targetd)\n")
            running.process.send_signal(signal.SIGTERM)
            running.process.wait(LIMIT)
        assert told(top, path)[:2] == (0, [f"{path}: {SAID.format(len(WHOLE))}"])


def looks_at_no_file_that_is_locked_or_cannot_be_opened():
    with installed() as top:
        path = top / "tape"
        path.write_bytes(WHOLE + b"\0")
        with path.open("rb") as locked:
            fcntl.flock(locked, fcntl.LOCK_EX)
            for words in ([path], ["--cut", path]):
                status, said, fault = told(top, *words)
                assert (status, said) == (3, []) and f"locked by process {os.getpid()} (" in fault, fault
        assert path.read_bytes() == WHOLE + b"\0"
        for other in (top, top / "none", "/dev/null"):
            assert told(top, other)[:2] == (3, []), other
        for words in ([], [path, path], ["--cut"], ["--mend", path], ["--cut-at", path], ["--cut-at", "x", path],
                      ["--cut-at", "-1", path], ["--cut", "--cut", path], ["--cut", "--cut-at", "0", path]):
            assert told(top, *words)[:2] == (2, []), words
        assert told(top, "--help")[0] == 0


def given(top, *words, stdout=subprocess.PIPE):
    """The status of targetd-mend-tape, the bytes that it gives, and its fault."""
    ended = subprocess.run([top / MEND, *map(str, words)], stdout=stdout, stderr=subprocess.PIPE, timeout=LIMIT, check=False)
    return ended.returncode, ended.stdout, ended.stderr.decode("utf-8")


def lists_and_gives_each_item_also_of_a_torn_tape():
    every = [b"ab", b"", RECORD, b"", b""]  # of WHOLE
    with installed() as top:
        path = top / "tape"
        for end, status in ((b"", 0), (item(RECORD)[:-1], 1)):
            path.write_bytes(WHOLE + end)
            found = told(top, "--list", path)
            assert found[0] == status and found[2] == "" and found[1][5:] == told(top, path)[1], found
            place = 4
            for number, data in enumerate(every):
                kind = "record" if data else "filemark"
                assert found[1][number] == f"{number} {kind} {len(data)} {place}", found
                assert WHOLE[place:place + len(data)] == data
                assert given(top, "--extract", number, path) == (0, data, ""), number
                place += len(data) + 8
            for number in (5, 10 ** 18):
                assert given(top, "--extract", number, path) == (
                    1, b"", f"{path}: there is no item {number} that is whole\n"), number
        path.write_bytes(b"")
        assert told(top, "--list", path) == (0, [f"{path}: 0 records and 0 filemarks in 0 bytes"], "")
        assert given(top, "--extract", 0, path)[:2] == (1, b"")


def gives_bytes_as_they_are_and_tells_where_they_cannot_be_written():
    noise = random.Random(5).randbytes(1 << 20)
    with installed() as top:
        path = top / "tape"
        path.write_bytes(item() * 100_000 + item(noise) + item(b"\xff"))
        assert given(top, "--extract", 100_000, path) == (0, noise, "")
        assert given(top, "--extract", 100_001, path) == (0, b"\xff", "")
        with open("/dev/full", "wb") as full:
            line = "targetd-mend-tape: standard output cannot be written: No space left on device\n"
            for words in (["--extract", 100_000], ["--list"]):
                assert given(top, *words, path, stdout=full)[::2] == (3, line), words
        reading, writing = os.pipe()
        os.close(reading)
        for words in (["--extract", 100_000], ["--list"]):
            assert given(top, *words, path, stdout=writing)[::2] == (0, ""), words
        os.close(writing)
        with path.open("rb") as locked:
            fcntl.flock(locked, fcntl.LOCK_EX)
            for words in (["--extract", 0], ["--list"]):
                assert given(top, *words, path)[:2] == (3, b""), words
        for words in (["--list"], ["--extract", path], ["--extract", "-1", path], ["--list", "--extract", "0", path],
                      ["--list", "--cut", path], ["--extract", "0"]):
            assert told(top, *words)[:2] == (2, []), words


def gives_an_archive_by_the_program_of_the_page():
    page = (TOP / "docs/TAPE_FORMAT.md").read_text(encoding="utf-8")
    program = next(block for block in re.findall(r"^```\n(.*?)^```$", page, re.MULTILINE | re.DOTALL) if "import sys" in block)
    rows = next(block for block in re.findall(r"^```\n(.*?)^```$", page, re.MULTILINE | re.DOTALL) if "item 0" in block)
    assert bytes.fromhex("".join(re.findall(r"\b[0-9a-f]{2}\b", rows))) == item(b"ab") + item() + item(b"xyz")
    held = io.BytesIO()
    with tarfile.open(fileobj=held, mode="w") as archive:
        archive.add(TOP / "README.md", "README.md")
    archive = held.getvalue()
    with installed() as top:
        path = top / "tape"
        records = [archive[at:at + 10240] for at in range(0, len(archive), 10240)]
        path.write_bytes(item(b"first") + item() + b"".join(map(item, records)) + item() * 2)
        for number, data in enumerate((b"first", archive, b"", b"")):
            ended = subprocess.run([sys.executable, "-c", program, path, str(number)], capture_output=True, timeout=LIMIT,
                                   check=True)
            assert ended.stdout == data, number


def reads_16_million_filemarks_in_a_few_seconds():
    with installed() as top:
        path = top / "tape"
        with path.open("wb") as file:
            file.truncate(8 << 24)
            file.seek(0, os.SEEK_END)
            file.write(item(RECORD))
        assert told(top, path) == (0, [f"{path}: 1 record and 16777216 filemarks in 134217760 bytes"], "")


def reads_20_gb_of_records_in_a_few_seconds():
    record, count = 1 << 20, 20 * 1024
    length = struct.pack(">I", record)
    with installed() as top:
        path = top / "tape"
        with path.open("wb", buffering=0) as file:
            file.write(length)
            for number in range(1, count + 1):  # the data of the records is holes of the file
                os.pwrite(file.fileno(), length * 2, number * (record + 8) - 4)
        size = count * (record + 8)
        assert told(top, path) == (1, [
            f"{path}: {count} records and 0 filemarks in {size} bytes",
            f"{path}: no whole item begins at byte {size} of {size + 4}: the length {record}, and 0 bytes of its data"], "")


CHECKS = [
    counts_the_items_of_a_whole_tape_and_leaves_it,
    tells_what_stands_at_a_torn_end_and_cuts_it_when_asked,
    cuts_what_is_longer_than_a_torn_end_only_where_it_is_told_to,
    cuts_at_a_byte_at_which_an_item_ends_and_at_no_other,
    cuts_nothing_that_it_cannot_keep,
    keeps_what_it_cuts_for_the_owner_of_the_tape_alone,
    cuts_a_tape_so_that_targetd_serves_it,
    looks_at_no_file_that_is_locked_or_cannot_be_opened,
    lists_and_gives_each_item_also_of_a_torn_tape,
    gives_bytes_as_they_are_and_tells_where_they_cannot_be_written,
    gives_an_archive_by_the_program_of_the_page,
    reads_16_million_filemarks_in_a_few_seconds,
    reads_20_gb_of_records_in_a_few_seconds,
]
