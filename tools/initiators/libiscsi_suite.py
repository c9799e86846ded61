"""libiscsi's own suite, test by test, and the list of what each of its tests gave (tools/initiators/libiscsi_tests.txt)."""

import re
import subprocess
from pathlib import Path
from typing import NamedTuple

from initiators.disks import KINDS, MEBIBYTE, served
from running.checks import Failed, Skipped, must, run

LIST = Path(__file__).resolve().parent / "libiscsi_tests.txt"
SIZE = 16 * MEBIBYTE
TEST_LIMIT = 20  # seconds that a test may take; one whose connection is closed again and again does not end
PASSED, FAILED, SKIPPED, UNSEEN = "passed", "failed", "skipped", "unseen"
# Those that wait some seconds.
SLOW = {"iSCSI.iSCSIcmdsn.iSCSICmdSnTooHigh", "iSCSI.iSCSIcmdsn.iSCSICmdSnTooLow", "SCSI.Reserve6.ITNexusLoss",
        "SCSI.Reserve6.LUNReset"}
# What each test says before it begins and when it ends, if the target has no such operation; some look
# whether these two know of an operation besides, which is no more than a part of them. Of other tests these
# are the subject.
AROUND = ["PERSISTENT RESERVE IN is not implemented.", "REPORT_SUPPORTED_OPCODES is not implemented.",
          "PERSISTENT RESERVE IN is not implemented."]
SUBJECT = ("SCSI.Prin", "SCSI.Prout", "SCSI.ReportSupportedOpcodes")


class Result(NamedTuple):
    """What a test gave, and why, if it did not pass."""
    state: str
    why: str


def listed():
    """The stored list: a line of it is a test, what it gave and why."""
    lines = [line.split(maxsplit=2) for line in LIST.read_text(encoding="utf-8").splitlines()
             if line and not line.startswith("#")]
    return {line[0]: Result(line[1], line[2] if len(line) > 2 else "") for line in lines}


def all_tests():
    """The tests that the suite has, but for those on devices of Linux; each stands in several lists of it."""
    said = subprocess.run(["iscsi-test-cu", "--list"], capture_output=True, text=True, check=False)
    return re.findall(r"^(?:SCSI|iSCSI)\.\w+\.[\w-]+$", said.stdout + said.stderr, re.MULTILINE)


def on_one_disk(test, url):
    """What a test gives on this disk."""
    try:
        status, said = run("iscsi-test-cu", "--fail", "--normal", "--dataloss", "--test", test, url, limit=TEST_LIMIT)
    except Failed:
        return Result(FAILED, f"it had not ended after {TEST_LIMIT} seconds")
    ran = re.search(r"tests +(\d+) +(\d+) +(\d+) +(\d+)", said)
    if status or not ran or ran[2] != ran[3] or ran[3] == "0":
        told = re.findall(r"\[(?:FAILED|WARNING)\] (.*)|^ +\d+\. (.*)", said, re.MULTILINE)
        return Result(FAILED, next((line or place for line, place in told), f"status {status}"))
    skips = skips_of(test, re.findall(r"\[SKIPPED\] (.*)", said))
    return Result(SKIPPED, skips[0]) if skips else Result(PASSED, "")


def skips_of(test, lines):
    """What a test itself skips, of all the lines in which the suite says that something is skipped."""
    if not test.startswith(SUBJECT):
        return [line for line in lines if line not in AROUND]
    for line in AROUND:
        if line in lines:
            lines.remove(line)
    return lines


def given(program, test, kinds=KINDS):
    """What a test gives on disks of its own: the first result other than a pass."""
    with served(program, SIZE, SIZE) as disks:
        results = (on_one_disk(test, disks.url(disk)) for disk in kinds)
        found = next((result for result in results if result.state != PASSED), Result(PASSED, ""))
        must(disks.is_running(), "targetd has ended")
    return found


def gives(test, expected):
    """A check that a test gives what the list says of it, or passes."""
    def check(program):
        found = given(program, test)
        if found.state == PASSED:
            if expected.state != PASSED:
                print(f"passes now: {test}, which tools/initiators/libiscsi_tests.txt has as {expected.state}", flush=True)
            return
        must(expected.state in (found.state, UNSEEN), (f"the list says {expected.state}", *found))
        raise Skipped(f"libiscsi's suite: {found.state}: {expected.why or found.why}")
    check.__name__ = test
    return check


def is_whole(_):
    """The list names the tests of the suite that is installed."""
    names, tests = set(listed()), set(all_tests())
    must(names == tests, ("tools/initiators/libiscsi_tests.txt names other tests than iscsi-test-cu", sorted(names ^ tests)[:8]))


def checks(is_short):
    """A check for each test of the list; a short one for those that pass and do not wait."""
    chosen = [(test, expected) for test, expected in listed().items()
              if not is_short or expected.state == PASSED and test not in SLOW]
    return [gives(test, expected) for test, expected in chosen]
