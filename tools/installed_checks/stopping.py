"""targetd-stop: a process that it ends has stopped before, and what it does not end goes on."""

import os
import re
import signal
import subprocess
import time
from pathlib import Path

from installed_checks.installation import LIMIT, SOUND, STOP, Skipped, installed, needs, ran
from operation import orderly_stop
from running import server

UNITS = SOUND.partition("\n")[2]
SLEEP = 5  # seconds of a call that nothing but a signal that kills interrupts
# A process in vfork(2) does not stop until its child has ended, as one in a long sync does not.
SLOW = f"int main(void) {{ if (vfork() == 0) {{ sleep({SLEEP}); _exit(0); }} pause(); }}"


def ends_a_process_that_has_stopped():
    with installed() as top:
        for is_stopped in (False, True):
            with server.targetd(top / "sbin/targetd", UNITS) as running:
                if is_stopped:
                    running.process.send_signal(signal.SIGSTOP)
                number = running.process.pid
                assert ran(top / STOP, number) == (0, "", "")
                assert ran(top / STOP, number) == (3, "", f"targetd-stop: process {number} has ended already\n")
                assert running.process.wait(LIMIT) == -signal.SIGTERM
                assert ran(top / STOP, number) == (3, "", f"targetd-stop: there is no process {number}\n")


def ends_a_process_by_two_at_once():
    with installed() as top:
        for _ in range(5):
            with server.targetd(top / "sbin/targetd", UNITS) as running:
                both = [subprocess.Popen([top / STOP, str(running.process.pid)], stderr=subprocess.PIPE, text=True)
                        for _ in range(2)]
                said = [one.communicate(timeout=LIMIT)[1] for one in both]
                assert running.process.wait(LIMIT) == -signal.SIGTERM
                assert 0 in [one.returncode for one in both] and all(one.returncode in (0, 3) for one in both), said


def slow_program(folder):
    """A program of targetd's words, which is in a long call as it begins."""
    needs("gcc")
    path = folder / "targetd-slow"
    subprocess.run(["gcc", "-w", "-include", "unistd.h", "-x", "c", "-o", path, "-"], input=SLOW, text=True, check=True)
    return path


def is_to_stop(process):
    """A process has SIGSTOP before it, which takes effect after its call."""
    masks = re.findall(r"^(?:Sig|Shd)Pnd:\t(\w+)$", Path(f"/proc/{process}/status").read_text(encoding="ascii"), re.MULTILINE)
    return any(int(mask, 16) >> (signal.SIGSTOP - 1) & 1 for mask in masks)


def says_that_a_process_did_not_stop_in_time_and_ends_it():
    with installed() as top:
        words = [slow_program(top), "serve", "--config", "none"]
        for patience, ended in (("0", (1, "did not stop within 0 seconds, as in a long sync, so SIGTERM was sent without "
                                          "the stop")), (str(LIMIT), (0, None))):
            with subprocess.Popen(words) as process:
                assert orderly_stop.reaches(process.pid, ("D",), LIMIT), orderly_stop.state_of(process.pid)
                status, told, fault = ran(top / STOP, "--wait", patience, process.pid, limit=2 * LIMIT)
                line = f"targetd-stop: process {process.pid} {ended[1]}\n" if ended[1] else ""
                assert (status, told, fault) == (ended[0], "", line), fault
                assert process.wait(LIMIT) == -signal.SIGTERM


def lets_a_process_go_on_where_it_is_ended_itself():
    with installed() as top:
        with subprocess.Popen([slow_program(top), "serve", "--config", "none"]) as process:
            assert orderly_stop.reaches(process.pid, ("D",), LIMIT), orderly_stop.state_of(process.pid)
            with subprocess.Popen([top / STOP, str(process.pid)]) as stopping:
                while not is_to_stop(process.pid):
                    assert stopping.poll() is None
                    time.sleep(0.01)
                stopping.send_signal(signal.SIGTERM)
                assert stopping.wait(LIMIT) == 1
            assert orderly_stop.reaches(process.pid, ("S",), LIMIT), orderly_stop.state_of(process.pid)
            process.kill()


def ends_nothing_but_a_targetd_that_serves():
    with installed() as top:
        for words, why in (([os.getpid()], f"process {os.getpid()} is no targetd that serves"),
                           ([999_999_999], "there is no process 999999999")):
            assert ran(top / STOP, *words) == (3, "", f"targetd-stop: {why}\n")
        assert ran(top / STOP, "") == (0, "", "")
        help_with = " ('targetd-stop --help' shows how it is called)\n"
        for words, why in (([], "the number of one process is wanted"), (["1", "2"], "the number of one process is wanted"),
                           *(([word], f"'{word}' is no number of a process")
                             for word in ("0", "-1", "x", "1 ", "+1", "0x1", "1" * 10)),
                           (["--wait", "x", "1"], "'x' is no number of seconds")):
            assert ran(top / STOP, *words) == (2, "", f"targetd-stop: {why}{help_with}"), words
        status, told, fault = ran(top / STOP, "--help")
        assert (status, fault) == (0, "") and "\n    targetd-stop [--wait SECONDS] PID\n" in told


def ends_the_first_process_of_a_container():
    needs("unshare")
    if ran("unshare", "--pid", "--fork", "true")[0]:
        raise Skipped("namespace that this user may make")
    if not Path("/proc/self/task").joinpath(str(os.getpid()), "children").exists():
        raise Skipped("list of the children of a process in /proc")
    with installed() as top:
        config = top / "my.toml"
        config.write_text(SOUND, encoding="ascii")
        words = ["unshare", "--pid", "--fork", "--kill-child", top / "sbin/targetd", "serve", "--config", config]
        with server.listening(*words) as running:
            outer = running.process.pid
            first = int(Path(f"/proc/{outer}/task/{outer}/children").read_text(encoding="ascii"))
            assert orderly_stop.is_first(first) and not orderly_stop.is_first(os.getpid())
            os.kill(first, signal.SIGTERM)
            assert ran(top / STOP, first) == (0, "", "") and running.process.wait(LIMIT) is not None


def ends_no_process_of_another_user():
    if os.geteuid() != 0:
        raise Skipped("root")
    with installed() as top, server.targetd(top / "sbin/targetd", UNITS) as running:
        top.chmod(0o755)
        number = running.process.pid
        assert ran(top / STOP, number, user=65534) == (3, "", f"targetd-stop: this user may not end process {number}\n")
        assert running.process.poll() is None and orderly_stop.state_of(number) != "T"


CHECKS = [
    ends_a_process_that_has_stopped,
    ends_a_process_by_two_at_once,
    says_that_a_process_did_not_stop_in_time_and_ends_it,
    lets_a_process_go_on_where_it_is_ended_itself,
    ends_nothing_but_a_targetd_that_serves,
    ends_the_first_process_of_a_container,
    ends_no_process_of_another_user,
]
