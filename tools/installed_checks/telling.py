"""targetd-status: what it tells of each process that serves, from outside."""

import gzip
import json
import os
import socket
import time
from contextlib import contextmanager

from installed_checks.installation import LIMIT, SOUND, STATUS, installed, ran
from running.server import free_port, listening
from serving_checks import tape_files
from serving_checks.tape_files import item
from wire import notation, pdu

TARGETS = ('[[target]]\nname = "one"\nunit = [{{ lun = 0, kind = "disk", serial = "A", file = "{folder}/disk" }},\n'
           '{{ lun = 3, kind = "tape", serial = "B", capacity = 100, early = 50, file = "tape" }}]\n')
SECOND = '[[target]]\nname = "two"\nunit = [{ lun = 0, kind = "disk", serial = "C", blocks = 8 }]\n'
SLACK = 1  # seconds by which the start of a process is known


def told_of(top, process, **settings):
    """What targetd-status says of a process, of its document, and its exit status."""
    status, said, fault = ran(top / STATUS, "--json", **settings)
    assert fault == "", fault
    return status, next((one for one in json.loads(said)["processes"] if one["process"] == process), None)


def lines_of(top, process):
    """The lines that targetd-status prints of a process."""
    parts = ran(top / STATUS)[1].split("\nprocess ")
    return next(part for part in parts if part.removeprefix("process ").startswith(f"{process}, ")).splitlines()


def tells_units_and_files_of_a_process_that_serves():
    with installed() as top:
        config, port = top / "my.toml", free_port()
        (top / "disk").write_bytes(bytes(4096))
        (top / "tape").write_bytes(item(b"record"))
        config.write_text(f'listen = "127.0.0.1:{port}"\n{TARGETS.format(folder=top)}{SECOND}', encoding="ascii")
        began = time.time()
        with listening(top / "sbin/targetd", "serve", "--config=my.toml", cwd=top) as server:
            listens, (_, told) = time.time(), told_of(top, server.process.pid)
            units = [unit for target in told["targets"] for unit in target["units"]]
            assert [target["name"] for target in told["targets"]] == ["one", "two"], told
            assert [(unit["file"], unit["size"]) for unit in units] == [
                (f"{top}/disk", 4096), (f"{top}/tape", 14), (None, None)], units
            assert (told["configuration"], told["connections"], told["notes"]) == (str(config), [], []), told
            assert told["listening"] == [{"address": f"127.0.0.1:{port}", "waiting": 0}], told
            assert began - SLACK < told["started"] < listens + SLACK, (began, told, listens)
            assert 0 < told["memory"] <= told["most_memory"], told
            lines = lines_of(top, server.process.pid)[1:]
            assert lines == [
                f"  listening on 127.0.0.1:{port}", "  target one", f"    unit 0: disk A, {top}/disk (4.0 KiB)",
                f"    unit 3: tape B, {top}/tape (14 bytes)", "  target two", "    unit 0: disk C, in memory", "  log: none",
                "  0 of 64 connections, each to one of 2 targets"], lines


def notes_what_may_be_otherwise_since_the_start():
    with installed() as top:
        config, disk = top / "my.toml", top / "disk"
        disk.write_bytes(bytes(4096))
        config.write_text(SOUND.replace("blocks = 8", f'file = "{disk}"'), encoding="ascii")
        with listening(top / "sbin/targetd", "serve", "--config", config) as server:
            assert told_of(top, server.process.pid)[1]["notes"] == []
            disk.unlink()
            disk.write_bytes(bytes(512))
            status, told = told_of(top, server.process.pid)
            assert (status, told["notes"]) == (3, [f"{disk} is not the file that it has open"]), told
            os.utime(config, (time.time() + SLACK, time.time() + SLACK))
            changed = "the configuration was changed since the start, and is not read again"
            assert changed in told_of(top, server.process.pid)[1]["notes"]
            for values in ("name = 7\nunit = [{ lun = [1], kind = {}, serial = 1979-05-27 }]", "name = []\nunit = 7",
                           "unit = [7]"):
                config.write_text(f"log = 7\n[[target]]\n{values}\n", encoding="ascii")
                status, told = told_of(top, server.process.pid)
                assert status == 3 and told["notes"], told
                lines_of(top, server.process.pid)
            config.unlink()
            status, told = told_of(top, server.process.pid)
            assert (status, told["targets"]) == (3, []) and "cannot be read" in told["notes"][0], told


def notes_a_configuration_that_an_older_file_replaced():
    with installed() as top:
        config, older = top / "my.toml", top / "older.toml"
        for path in (older, config):
            path.write_text(SOUND, encoding="ascii")
        with listening(top / "sbin/targetd", "serve", "--config", config) as server:
            assert told_of(top, server.process.pid)[1]["notes"] == []
            time.sleep(SLACK)
            older.rename(config)
            assert told_of(top, server.process.pid)[1]["notes"] == [
                "the configuration was changed since the start, and is not read again"]


@contextmanager
def logging(top, units=SECOND, log="log", **settings):
    """A process with a log, and the port on which it listens."""
    config, port = top / "my.toml", free_port()
    config.write_text(f'log = "{log}"\nlisten = "127.0.0.1:{port}"\n{units}', encoding="ascii")
    with listening(top / "sbin/targetd", "serve", "--config=my.toml", cwd=top, **settings) as server:
        yield server.process.pid, port


@contextmanager
def logged_in(port, name):
    """The address of an initiator of this name that has logged in."""
    with socket.create_connection(("127.0.0.1", port), LIMIT) as client:
        text = b"InitiatorName=" + name + b"\0TargetName=two\0"
        client.sendall(notation.data(f"[Login-Request I T CSG=1 NSG=3 ITT=1 DataSegmentLength={len(text)}]", {})
                       + text + bytes(pdu.padding(len(text))))
        client.recv(48, socket.MSG_WAITALL)
        yield f"127.0.0.1:{client.getsockname()[1]}"


def who_of(told):
    """The initiators that have logged in, by the addresses of their hosts."""
    return {one["remote"]: one["initiator"] for one in told["connections"]}


def tells_by_the_log_who_has_logged_in():
    with installed() as top:
        began = int(time.time())
        with logging(top) as (process, port), logged_in(port, b"h") as here:
            status, told = told_of(top, process)
            (one,) = told["connections"]
            assert (one["remote"], one["initiator"], one["target"]) == (here, "h", "two"), one
            assert began <= one["logged_in"] <= time.time(), one
            assert (status, told["log"], told["notes"]) == (0, f"{top}/log", []), told
            lines = lines_of(top, process)
            assert f"    {here}, h to two since " in "\n".join(lines) and f"  log: {top}/log" in lines, lines


def tells_who_has_logged_in_before_the_log_was_moved():
    with installed() as top:
        log = top / "log"
        log.with_name("log.7").write_text("2001-01-01T00:00:00Z connection 0 from 127.0.0.1:1\n", encoding="ascii")
        os.utime(log.with_name("log.7"), (0, 0))
        with logging(top) as (process, port), logged_in(port, b"one") as one:
            log.rename(log.with_name("log.1"))
            with logged_in(port, b"other") as other:
                assert who_of(told_of(top, process)[1]) == {one: "one", other: "other"}
                log.with_name("log.2.gz").write_bytes(gzip.compress(log.with_name("log.1").read_bytes()))
                os.utime(log.with_name("log.2.gz"), ns=(log.with_name("log.1").stat().st_mtime_ns,) * 2)
                log.rename(log.with_name("log.1"))
                with logged_in(port, b"third") as third:
                    status, told = told_of(top, process)
                    assert (status, who_of(told)) == (0, {one: "one", other: "other", third: "third"}), told
                    log.with_name("log.2.gz").unlink()
                    status, told = told_of(top, process)
                    assert (status, who_of(told)) == (3, {one: None, other: "other", third: "third"}), told
                    assert told["notes"] == ["the log does not go back to the start: who has logged in and which units are "
                                             "not ready is not known of the time before it"], told


# A tape in a device to which each write fails; it tells a length of 0, so it is an empty tape.
FAILING = tape_files.UNITS.format(file="/dev/full", capacity=1000)
FAILURE = "03/0C00, a write failed"


@contextmanager
def failed(top, port):
    """The unit of a process has failed."""
    with socket.create_connection(("127.0.0.1", port), LIMIT) as client:
        assert tape_files.Tape(client).write(b"lost") == tape_files.UNWRITTEN
        yield


def failures_of(told):
    """What the units of a process failed by."""
    return [unit["failure"] for target in told["targets"] for unit in target["units"]]


def tells_a_unit_that_is_not_ready_after_the_log_was_moved_away():
    with installed() as top, logging(top, FAILING) as (process, port), failed(top, port):
        (top / "log").rename(top / "log.1")
        status, told = told_of(top, process)
        assert (status, failures_of(told), told["log"], told["notes"]) == (4, [FAILURE], f"{top}/log", []), told


def tells_a_unit_that_is_not_ready_beside_a_process_with_the_same_log():
    with installed() as top, logging(top, FAILING) as (process, port), failed(top, port):
        other = top / "other"
        other.mkdir()
        (other / "sbin").symlink_to(top / "sbin")
        with logging(other, log="../log") as (second, _):
            status, told = told_of(top, process)
            shared = f"the log {top}/log is also that of another process: give each its own"
            assert (status, failures_of(told), told["notes"]) == (4, [FAILURE], [shared]), told
            assert failures_of(told_of(top, second)[1]) == [None]


def notes_a_log_that_a_full_file_system_cut_off():
    with installed() as top, logging(top) as (process, _):
        with open(top / "log", "a", encoding="ascii") as log:
            log.write("2026-12-01T03:37:05Z target iqn.2024-01.c")
        status, told = told_of(top, process)
        assert (status, told["notes"]) == (3, ["the log ends within a line: who has logged in and which units are not ready "
                                               "may be more than is shown"]), told


def tells_a_unit_that_is_not_ready():
    with installed() as top:
        began = int(time.time())
        with logging(top, FAILING) as (process, port), socket.create_connection(("127.0.0.1", port), LIMIT) as client:
            tape = tape_files.Tape(client)
            status, told = told_of(top, process)
            (unit,) = told["targets"][0]["units"]
            assert (status, unit["not_ready_since"], unit["failure"]) == (0, None, None), told
            assert tape.write(b"lost") == tape_files.UNWRITTEN
            for _ in range(2):
                status, told = told_of(top, process)
                (unit,) = told["targets"][0]["units"]
                assert (status, unit["failure"]) == (4, FAILURE), told
                assert began <= unit["not_ready_since"] <= time.time(), told
                assert tape.told(tape_files.READY) == tape_files.FAILED
            assert any(line.startswith("    unit 0: tape T0, /dev/full (0 bytes), not ready since ") and
                       line.endswith(": 03/0C00, a write failed") for line in lines_of(top, process))


def with_journal(top, script):
    """The settings by which a command meets a journalctl of this script, or none."""
    folder = top / "journal"
    folder.mkdir(exist_ok=True)
    (folder / "journalctl").write_text(f"#!/bin/sh\n{script}\n", encoding="ascii")
    (folder / "journalctl").chmod(0o755 if script else 0o644)
    python = folder / "python3"
    if not python.exists():
        python.symlink_to(os.path.realpath("/proc/self/exe"))
    return {"env": {"PATH": str(folder) if not script else f"{folder}:{os.environ['PATH']}"}}


def tells_by_the_journal_who_has_logged_in():
    with installed() as top, open(top / "said", "w", encoding="ascii") as said:
        with logging(top, log="-", stderr=said) as (process, port), logged_in(port, b"h") as here:
            unknown = "who has logged in and which units are not ready is not known"
            status, told = told_of(top, process, **with_journal(
                top, f'case "$*" in *" _PID={process}") cat {top}/said ;; esac'))
            assert (status, told["log"], told["notes"], who_of(told)) == (0, "the journal", [], {here: "h"}), told
            for script, why in (("exit 1", "the journal has none of it that this user may read"),
                                ("", "there is no journalctl")):
                status, told = told_of(top, process, **with_journal(top, script))
                assert (status, told["log"], who_of(told)) == (3, None, {here: None}), told
                assert told["notes"] == [f"its log goes to standard error, and {why}: {unknown}"], told


def takes_its_words_and_no_others():
    with installed() as top:
        status, said, fault = ran(top / STATUS)  # others may serve on this machine
        assert (status, said, fault) == (1, "no targetd serves\n", "") or said.startswith("process "), said
        for words in (["--jsn"], ["--json", "--json"], ["1"]):
            assert ran(top / STATUS, *words)[:2] == (2, ""), words
        assert ran(top / STATUS, "--help")[0] == 0


CHECKS = [
    tells_units_and_files_of_a_process_that_serves,
    notes_what_may_be_otherwise_since_the_start,
    notes_a_configuration_that_an_older_file_replaced,
    tells_by_the_log_who_has_logged_in,
    tells_who_has_logged_in_before_the_log_was_moved,
    tells_a_unit_that_is_not_ready,
    tells_a_unit_that_is_not_ready_after_the_log_was_moved_away,
    tells_a_unit_that_is_not_ready_beside_a_process_with_the_same_log,
    notes_a_log_that_a_full_file_system_cut_off,
    tells_by_the_journal_who_has_logged_in,
    takes_its_words_and_no_others,
]
