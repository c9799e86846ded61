"""targetd-explain-config: each fault at its line and key, and by the number that the program gives."""

import fcntl
import os
import random
import re
import socket
from contextlib import contextmanager
from pathlib import Path

from installed_checks.installation import EXPLAIN, SOUND, Skipped, installed, needs, ran
from operation import configuration, trying
from replay import program, transcript
from running import server
from serving_checks.tape_files import item

# The lines of a second unit beside the sound first one, whether that is a fault, and what is told.
TOLD = [
    ('lun = 1\nkind = "disk"\nserial = "B"\nblocks = 9\n', 0, ["C: targetd takes it"]),
    ('lun = 1\nkind = "disk"\nserial = "B"\nblock = 10\n', 1,
     ['C:9: fault 3: unit 2 of target 1: "file" or "blocks" is missing',
      'C:13: note: unit 2 of target 1: nothing reads "block": is "blocks" meant?',
      "targetd says: configuration fault 3"]),
    ('lun = 1\nkind = "disk"\nserial = "B"\nblocks = 10\nblock = 10\n', 0,
     ['C:14: note: unit 2 of target 1: nothing reads "block": is "blocks" meant?', "C: targetd takes it"]),
    ('lun = 1\nkind = "disk"\nserial = "A"\nblocks = 10\n', 0,
     ['C:12: note: unit 2 of target 1: the serial "A" comes twice, and hosts may take the two units for one, '
      "as at line 7",
      "C: targetd takes it"]),
    ('lun = 1\nkind = "disk"\nserial = "EXAMPLE1"\nblocks = 10\n', 0,
     ['C:12: note: unit 2 of target 1: the serial "EXAMPLE1" is that of the example, and hosts may take two units that '
      "have it for one: give each its own",
      "C: targetd takes it"]),
    ('lun = 0\nkind = "tape"\nserial = "A"\ncapacity = 5\nearly = 6\n', 1,
     ["C:10: fault 5: unit 2 of target 1: LUN 0 comes twice in its target, as at line 5",
      'C:12: note: unit 2 of target 1: the serial "A" comes twice, and hosts may take the two units for one, '
      "as at line 7",
      'C:14: fault 3: unit 2 of target 1: "early" is 6, and not from 0 to 5',
      "targetd says: configuration fault 3"]),
    ('lun = 1\nkind = "disk"\nserial = "B"\nfile = "/none/d"\n', 1,
     ['C:13: device fault: unit 2 of target 1: the file "/none/d" cannot be opened for reading and writing: '
      "No such file or directory"]),
    ('lun = 1\nkind = "disk"\nserial = "B"\nfile = "/"\n', 1,
     ['C:13: device fault: unit 2 of target 1: the file "/" cannot be opened for reading and writing: Is a directory']),
    ('lun = 1\nkind = "tape"\nserial = "B"\ncapacity = 5\nearly = 5\nfile = "/none/t"\n', 1,
     ['C:15: device fault: unit 2 of target 1: the file "/none/t" cannot be opened for reading and writing: '
      "No such file or directory"]),
    ('lun = "1"\nkind = "disk"\nserial = "B"\nblocks = 10\n[[target]]\nname = "iqn.2024-01.com.example:u"\n[[target.unit]]\nlun = "0"\nkind = "disk"\n'
     'serial = "C"\nblocks = 10\n[[target]]\nname = "iqn.2024-01.com.Example:my disk"\n[[target.unit]]\nlun = 1\n'
     'kind = "disk"\nserial = "D"\nblocks = 10\n', 1,
     ['C:10: fault 3: unit 2 of target 1: "lun" is to be an integer, and is a text',
      'C:17: fault 3: unit 1 of target 2: "lun" is to be an integer, and is a text',
      'C:21: fault 6: target 3: no unit of it has "lun" 0',
      'C:22: note: target 3: the name "iqn.2024-01.com.Example:my disk" has capitals and blanks, and initiators may ask for '
      "it in lower case and without blanks alone",
      "targetd says: configuration fault 3"]),
    ('lun = 1\nkind = "disk"\nserial = "B"\nblocks = 10\nnone = 1e400\n', 2,
     ["C:14: fault 2: 1e400 is too large for a number", "targetd says: configuration fault 2"]),
    ('lun = 1\nkind = disk\n', 2, ["C:11: fault 2: disk is no value: a text stands between quotes",
                                   "targetd says: configuration fault 2"]),
]


def explains_each_fault_at_its_line_and_key():
    with installed() as top:
        for lines, fault, told in TOLD:
            config = top / "my.toml"
            config.write_text(f"{SOUND}[[target.unit]]\n{lines}", encoding="utf-8")
            ended = ran(top / EXPLAIN, config)
            wanted = "".join(f"{line}\n".replace("C:", f"{config}:", 1) if line.startswith("C:") else f"{line}\n"
                             for line in told)
            assert ended == (1 if fault else 0, wanted, ""), ended
        assert ran(top / EXPLAIN)[0] == 2 and ran(top / EXPLAIN, "--help")[0] == 0


def notes_a_name_that_some_initiators_do_not_take():
    with installed() as top:
        config = top / "my.toml"
        for name, is_noted in (("iqn.2024-01.com.example:t", False), ("iqn.1993-08.org.debian", False), ("t", True),
                               ("eui.02004567a425678d", False), ("eui.02004567a425678", True), ("iqn.2024-13.com.example:t", True),
                               ("naa.62004567ba64678d0123456789abcdef", False), ("iqn.2024-01.com.example:a,b", True)):
            config.write_text(SOUND.replace("iqn.2024-01.com.example:t", name), encoding="utf-8")
            status, told, _ = ran(top / EXPLAIN, config)
            assert (status, " is of none of the forms " in told) == (0, is_noted), (name, told)


def notes_units_in_memory_that_no_machine_holds():
    with installed() as top:
        config = top / "my.toml"
        tapes = "".join(f'[[target.unit]]\nlun = {lun}\nkind = "tape"\nserial = "{lun}"\n'
                        f'capacity = {configuration.MOST_CAPACITY}\nearly = 0\n' for lun in range(1, configuration.MOST_UNITS))
        config.write_text(f"{SOUND}{tapes}", encoding="utf-8")
        status, told, _ = ran(top / EXPLAIN, config)
        held = 4096 + (configuration.MOST_UNITS - 1) * configuration.MOST_CAPACITY
        assert status == 0 and f"note: units in memory take {held} bytes at the start" in told, told


@contextmanager
def block_device(folder):
    """A block device of a file in a folder."""
    (folder / "below").write_bytes(bytes(1 << 20))
    status, said, fault = ran("losetup", "--find", "--show", folder / "below")
    if status:
        raise Skipped(f"loop device ({fault.strip()})")
    try:
        yield Path(said.strip())
    finally:
        ran("losetup", "--detach", said.strip())


def notes_a_block_device_that_is_in_use_or_is_a_tape():
    needs("losetup")
    with installed() as top, block_device(top) as device:
        config = top / "my.toml"
        units = SOUND.replace("blocks = 8", f'file = "{device}"')
        config.write_text(units, encoding="utf-8")
        assert ran(top / EXPLAIN, config) == (0, f"{config}: targetd takes it\n", "")
        used = os.open(device, os.O_RDONLY | os.O_EXCL)  # as a mount does
        status, told, _ = ran(top / EXPLAIN, config)
        os.close(used)
        assert status == 0 and " that this machine has in use, " in told and " note: " in told, told
        config.write_text(units.replace('"disk"', '"tape"\ncapacity = 9999999\nearly = 0'), encoding="utf-8")
        status, told, _ = ran(top / EXPLAIN, config)
        assert status == 0 and " note: " in told and "its first write fails\n" in told, told


def explains_where_a_log_cannot_be_written():
    with installed() as top:
        config, disk = top / "my.toml", top / "disk"
        disk.write_bytes(bytes(512))
        units = SOUND.replace("blocks = 8", f'file = "{disk}"')
        for log, told in (
                (f'"{top}/log"', f"{config}: targetd takes it"), ('"-"', f"{config}: targetd takes it"),
                ('""', f'{config}:1: stream fault: the configuration: "log" is empty, and no path'),
                (f'"{top}/none/"',
                 f'{config}:1: stream fault: the log "{top}/none/" cannot be written to: its folder is not there'),
                (f'"{top}"', f'{config}:1: stream fault: the log "{top}" cannot be written to: it is a folder'),
                (f'"{top}/none/log"',
                 f'{config}:1: stream fault: the log "{top}/none/log" cannot be written to: its folder is not there'),
                (f'"{disk}"', f'{config}:1: stream fault: the log "{disk}" is the file of a unit'),
                ("7", f'{config}:1: note: the configuration: "log" is no text, so there is no log\n'
                      f"{config}: targetd takes it")):
            config.write_text(f"log = {log}\n{units}", encoding="utf-8")
            ended = ran(top / EXPLAIN, config)
            assert ended == (int("stream" in told), told + "\n", ""), ended
        assert not (top / "log").exists()


def told_of_file(top, content, lines='kind = "disk"\n'):
    """What targetd-explain-config prints of a second unit whose file has this content."""
    path, config = top / "unit", top / "my.toml"
    path.write_bytes(content)
    config.write_text(f'{SOUND}[[target.unit]]\nlun = 1\nserial = "B"\nfile = "{path}"\n{lines}', encoding="utf-8")
    status, told, _ = ran(top / EXPLAIN, config)
    return status, told.replace(f'{config}:12: device fault: unit 2 of target 1: the file "{path}" ', "F ")


def tells_why_a_file_is_no_disk_or_tape():
    tape = 'kind = "tape"\ncapacity = 100\nearly = 0\n'
    with installed() as top:
        for content, lines, told in (
                *((content, 'kind = "disk"\n',
                   f"F has {size}, and not a positive multiple of 512. What stands after the last whole block, {more} "
                   f"({what}), may belong to something else than a disk: look at it (tail -c {more.split()[0]}), and cut only "
                   "what is known to be no data\n") for content, size, more, what in (
                       (bytes(1000), "1000 bytes", "488 bytes", "zeros"),
                       (bytes(1024) + b"x", "1025 bytes", "1 byte", "not all zeros"),
                       (b"\0", "1 byte", "1 byte", "zeros"))),
                (b"", 'kind = "disk"\n', "F is empty, and a disk has as many bytes as its file\n"),
                (item(b"ab") + item()[:7], tape,
                 "F has no whole record or filemark at byte 10 of 17, but the length 0 and 3 bytes of its second "
                 "length: targetd-mend-tape can cut it there\n"),
                (item()[:7], tape, "F has no whole record or filemark at byte 0 of 7, but the length 0 and 3 bytes of its "
                 "second length: it may be no tape\n"),
                (item(bytes(93)), tape, "F has 101 bytes, and more than the capacity of 100\n")):
            assert told_of_file(top, content, lines) == (1, told), told
        (top / "other").symlink_to(top / "unit")
        third = f'[[target.unit]]\nlun = 2\nkind = "disk"\nserial = "C"\nfile = "{top / "other"}"\n'
        status, told = told_of_file(top, bytes(512), f'kind = "disk"\n{third}')
        assert status == 1 and f'"{top / "other"}" is that of another unit, as "{top / "unit"}"\n' in told, told


def tells_who_has_a_file_locked():
    with installed() as top:
        assert told_of_file(top, bytes(512))[0] == 0
        with open(top / "unit", "rb") as locked:
            fcntl.flock(locked, fcntl.LOCK_EX)
            status, told = told_of_file(top, bytes(512))
            assert status == 1 and told.startswith(f"F is locked by process {os.getpid()} ("), told
        mine, other = top / "my.toml", top / "other.toml"
        for config in (mine, other):
            config.write_text(SOUND.replace("blocks = 8", f'file = "{top}/unit"'), encoding="utf-8")
        for words in (["--config", mine], [f"--config={mine.name}"]):
            with server.listening(top / "sbin/targetd", "serve", *words, cwd=top) as running:
                lock = f'unit 1 of target 1: the file "{top}/unit" is locked by process {running.process.pid} (targetd)'
                assert ran(top / EXPLAIN, other) == (1, f"{other}:8: device fault: {lock}\n", "")
                assert ran(top / EXPLAIN, mine) == (
                    0, f"{mine}:8: note: {lock}, which serves this configuration\n{mine}: targetd takes it\n", "")


def told_of_address(top, listen, **settings):
    """The status of targetd-explain-config for an address, and what it says of it."""
    config = top / "my.toml"
    config.write_text(SOUND.replace("127.0.0.1:0", listen), encoding="utf-8")
    status, told, fault = ran(top / EXPLAIN, config, **settings)
    assert fault == "", fault
    return status, told.replace(f'{config}:1: socket fault: "listen" is "{listen}", ', "F ")


def tells_why_an_address_cannot_be_listened_on():
    with installed() as top:
        with socket.create_server(("127.0.0.1", 0)) as other:
            port = other.getsockname()[1]
            for host in ("127.0.0.1", "0.0.0.0"):
                status, told = told_of_address(top, f"{host}:{port}")
                listens = re.compile(rf"^F where process {os.getpid()} \(.*\) listens already$", re.MULTILINE)
                assert status == 1 and listens.search(told), told
            assert told_of_address(top, f"127.0.0.2:{port}")[0] == 0
        assert told_of_address(top, f"127.0.0.1:{port}") == (0, f"{top}/my.toml: targetd takes it\n")
        try:
            socket.create_server(("192.0.2.1", 0)).close()  # nobody's, but a system may be told to let it be (ip(7))
        except OSError:
            status, told = told_of_address(top, "192.0.2.1:3260")
            assert status == 1 and told.startswith("F which is no address of this host. Name one"), told
        if os.geteuid() == 0 and trying.free_ports() > 860:
            top.chmod(0o755)
            assert told_of_address(top, "127.0.0.1:860", user=65534) == (
                1, f"F and a port below {trying.free_ports()} wants a right that this user does not have "
                "(CAP_NET_BIND_SERVICE)\n")


def notes_an_address_on_which_this_configuration_is_served():
    with installed() as top:
        mine, other = top / "my.toml", top / "other.toml"
        for config in (mine, other):
            config.write_text(SOUND.replace("127.0.0.1:0", f"127.0.0.1:{server.free_port()}"), encoding="utf-8")
        other.write_text(mine.read_text(encoding="utf-8"), encoding="utf-8")
        with server.listening(top / "sbin/targetd", "serve", "--config", mine) as running:
            words = f'"listen" is "127.0.0.1:{running.port}", where process {running.process.pid} (targetd) listens already'
            assert ran(top / EXPLAIN, other) == (1, f"{other}:1: socket fault: {words}\n", "")
            assert ran(top / EXPLAIN, mine) == (
                0, f"{mine}:1: note: {words}, which serves this configuration\n{mine}: targetd takes it\n", "")


def takes_the_files_that_the_program_takes_and_changes_none():
    kinds = ('kind = "disk"', 'kind = "tape"\ncapacity = 100\nearly = 0')
    with installed() as top:
        config, plain = top / "my.toml", top / "plain"
        plain.write_bytes(bytes(512))
        os.mkfifo(top / "fifo")
        before = plain.stat()
        for path in ("plain", "fifo", "none", ".", "plain/", "", "/dev/zero", "/dev/full"):
            for kind in kinds:
                units = SOUND.replace('kind = "disk"', kind).replace("blocks = 8", f'file = "{path}"')
                config.write_text(units, encoding="utf-8")
                status, told, fault = ran(top / EXPLAIN, config, cwd=top)
                served, _, says = ran(top / "sbin/targetd", "serve", "--config", config, "--turns", "0", cwd=top)
                assert (status, fault) == (int(served != 0), "") and ("device fault" in told) == ("device fault" in says), told
                assert status == 0 or path in ("", "/dev/zero", "/dev/full") or f'"{path}", tried in {top},' in told, told
        after = plain.stat()
        assert (after.st_size, after.st_mtime_ns, after.st_ctime_ns) == (before.st_size, before.st_mtime_ns, before.st_ctime_ns)
        assert not (top / "none").exists()


def names_the_addresses_of_this_host_in_place_of_all():
    with installed() as top:
        for listen in (f"0.0.0.0:{server.free_port()}", f"[::]:{server.free_port()}"):
            config, port = top / "my.toml", listen.rpartition(":")[2]
            config.write_text(SOUND.replace("127.0.0.1:0", listen), encoding="utf-8")
            status, told, _ = ran(top / EXPLAIN, config)
            front = f'{config}:1: note: "listen" is "{listen}", which discovery tells: no other host can log in by it. '
            assert status == 0 and told.startswith(f"{front}Name an address of this host"), told
            named = re.findall(rf"[ \[]([0-9a-f.:]+)\]?:{port}(?= or |\n)", told.removeprefix(front))
            assert len(named) == told.count(" or ") + told.count("host: "), told
            for address in named:  # only an address of this host can be listened on
                family = socket.AF_INET6 if ":" in address else socket.AF_INET
                socket.create_server((address, 0), family=family).close()
            assert not any(address.startswith("127.") or address == "::1" for address in named), told


# A configuration with every kind of value, and what is put into it, or in place of a part of it.
VARIED = ('listen = "127.0.0.1:0"\nlog = "-"\n[[target]]\nname = "a"\n[[target.unit]]\nlun = 0\nkind = "disk"\nserial = "A"\n'
          "blocks = 8\n[[target.unit]]\nlun = 1\nkind = \"tape\"\nserial = 'B'\ncapacity = 1_000\nearly = 0x10\n# comment\n"
          '[[target]]\nname = """b"""\nunit = [ { lun = 0, kind = "disk", serial = "C\\u0041", blocks = 0b11 } ]\n[other]\n'
          'a.b."c d" = [1, 2.5, 1e3, inf, -nan, true, 1979-05-27, 07:32:00, 1979-05-27 07:32:00.999-07:00]\n'
          "x = { y = 1, z = [ [], {} ] }\nm = '''\nraw'''\n")
PARTS = ("[", "[[", "]", "]]", "{", "}", "=", ",", '"', "'", '"""', "'''", "\n", "\r\n", "\r", "#", "\\", "\\u00e9", "\\x41", "0x", "0o7",
         "1__0", "_1", "+5", "-0", "+0x1", "00", "1.", ".5", "1e5", "1e400", "inf", "true", "True", "1979-02-30", "24:00:00", "07:32",
         ".", "a.b", "\t", "\0", "\x7f", "\u00e9", "\ufeff", "lun", "unit", "9223372036854775807", "9223372036854775808", " ", "blocks = 9",
         "lun = 0", "[target]", "[[target.unit]]", "[a]", "[a.b]", '"" = 1', "a = 1", "")


def gives_the_number_that_the_program_gives_for_varied_lines():
    pick = random.Random(7)
    with installed() as top:
        config = top / "my.toml"
        for _ in range(400):
            begin = pick.randrange(len(VARIED))
            varied = VARIED[:begin] + pick.choice(PARTS) + VARIED[begin + pick.choice((0, 0, 1, 5, 20)):]
            config.write_bytes(varied.encode())
            status, _, said = ran(top / "sbin/targetd", "serve", "--config", config, "--turns", "0", cwd=top)
            found = re.search(r"^targetd: configuration fault (\d)$", said, re.MULTILINE)
            told = configuration.told_of(str(config), top)
            assert configuration.number_of(told) == (int(found[1]) if found else None), (varied, said, told)
            assert any(one.fault for one in told) == (status != 0), (varied, said, told)


def configuration_of(run):
    """The path that a run of a case gives to --config, or nothing."""
    words = [word.decode(errors="surrogateescape") if isinstance(word, bytes) else str(word) for word in run.words]
    for at, word in enumerate(words):
        if word == "--config":
            return words[at + 1]
        if word.startswith("--config="):
            return word.removeprefix("--config=")
    return None


def explains_every_configuration_of_the_cases_by_its_number():
    count = 0
    for path in transcript.cases():
        for run in transcript.read(path):
            if run.stderr == b"targetd: usage\n":
                continue
            named = configuration_of(run)
            if named is None:
                continue
            found = re.fullmatch(rb"targetd: configuration fault (\d)\n", run.stderr)
            with program.folder_with(run.files) as folder:
                told = configuration.told_of(named, folder)
            assert configuration.number_of(told) == (int(found[1]) if found else None), f"{path.name} {run.row}: {told}"
            count += 1
    assert count > 1000


CHECKS = [
    explains_each_fault_at_its_line_and_key,
    notes_a_name_that_some_initiators_do_not_take,
    notes_units_in_memory_that_no_machine_holds,
    notes_a_block_device_that_is_in_use_or_is_a_tape,
    explains_where_a_log_cannot_be_written,
    tells_why_a_file_is_no_disk_or_tape,
    tells_who_has_a_file_locked,
    tells_why_an_address_cannot_be_listened_on,
    notes_an_address_on_which_this_configuration_is_served,
    takes_the_files_that_the_program_takes_and_changes_none,
    names_the_addresses_of_this_host_in_place_of_all,
    gives_the_number_that_the_program_gives_for_varied_lines,
    explains_every_configuration_of_the_cases_by_its_number,
]
