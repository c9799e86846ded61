"""How the installed tools are called: each names itself, and ends by one line if it cannot print or lacks something."""

import os
import shutil
import subprocess
import sys

from installed_checks.installation import COMMANDS, LIMIT, SOUND, TOP, Skipped, installed, ran
from serving_checks.tape_files import item


def names_itself_as_it_was_called():
    with installed() as top:
        for command in COMMANDS:
            tool = top / f"bin/targetd-{command}"
            other = top / "bin/other"
            other.unlink(missing_ok=True)
            other.symlink_to(tool)
            for path, name in ((tool, tool.name), (other, "other")):
                status, told, fault = ran(path, "--help")
                assert (status, fault) == (0, "") and f"\n    {name} " in told and "installed as" not in told, told
                status, told, fault = ran(path, "--nonsense")
                assert (status, told) == (2, ""), told
                assert fault.startswith(f"{name}: ") and fault.endswith(f" ('{name} --help' shows how it is called)\n"), fault


def calls_of(top):
    """Calls of each tool that print something, and the exit status of each."""
    (top / "my.toml").write_text(SOUND, encoding="utf-8")
    (top / "tape").write_bytes(item(b"ab") + b"\0")
    return [(["explain-config", top / "my.toml"], (0,)), (["explain-config", "--help"], (0,)), (["import", "--help"], (0,)),
            (["stop", "--help"], (0,)), (["mend-tape", top / "tape"], (1,)), (["mend-tape", "--help"], (0,)),
            (["status"], (0, 1, 3, 4)), (["status", "--json"], (0, 1, 3, 4))]


def printed_on(stream, top, words):
    """How a tool ends whose standard output is a stream: its status, and what it says on standard error."""
    words = [top / f"bin/targetd-{words[0]}", *words[1:]]
    ended = subprocess.run(words, stdout=stream, stderr=subprocess.PIPE, text=True, timeout=LIMIT, check=False)
    return ended.returncode, ended.stderr


def ends_by_one_line_where_standard_output_is_full():
    with installed() as top, open("/dev/full", "w", encoding="ascii") as full:
        for words, _ in calls_of(top):
            status, fault = printed_on(full, top, words)
            line = f"targetd-{words[0]}: standard output cannot be written: No space left on device\n"
            assert (status, fault) == (3, line), (words, fault)
        assert printed_on(full, top, ["mend-tape", "--cut", top / "tape"])[0] == 3
        assert (top / "tape").read_bytes() == item(b"ab") + b"\0" and not (top / "tape.cut").exists()


def is_silent_where_who_reads_it_has_ended():
    with installed() as top:
        for words, statuses in calls_of(top):
            reading, writing = os.pipe()
            os.close(reading)
            status, fault = printed_on(writing, top, words)
            os.close(writing)
            assert status in statuses and fault == "", (words, status, fault)


def says_in_one_line_that_there_is_no_kit():
    make = shutil.which("make")
    if not make:
        raise Skipped("make")
    with installed() as top:
        path = top / "path"
        path.mkdir()
        (path / "python3").symlink_to(sys.executable)
        for target, tool in (("demo", "tools/demo"), ("build", "tools/build")):
            status, _, fault = ran(make, target, cwd=TOP, env={"PATH": str(path)})
            first, last = fault.splitlines()
            assert status == 2 and last.startswith("make: ***") and last.endswith("Error 1"), fault
            assert first.startswith(f"{tool}: there is no rt on the path: "), fault


CHECKS = [
    names_itself_as_it_was_called,
    ends_by_one_line_where_standard_output_is_full,
    is_silent_where_who_reads_it_has_ended,
    says_in_one_line_that_there_is_no_kit,
]
