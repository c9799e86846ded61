"""Checks of what programs see of targetd: how one fails, is skipped and is counted."""

import subprocess

from running.patience import LIMIT


class Failed(Exception):
    """An initiator did not see what it must."""


class Skipped(Exception):
    """The target answers as it does until something is built, or it is left out, and nothing else was wrong."""


class Tally:
    """How many checks passed, failed and were skipped, and why."""

    def __init__(self):
        self.passed = self.failed = 0
        self.skipped = {}

    def count(self, name, check):
        """Makes a check, and tells what is not as it must be."""
        try:
            check()
            self.passed += 1
        except Skipped as why:
            self.skip(name, str(why))
        except (Failed, AssertionError, OSError) as error:
            self.failed += 1
            print(f"FAIL {name}: {error}", flush=True)

    def skip(self, name, why):
        self.skipped.setdefault(why, []).append(name)

    def close(self):
        """Prints what was skipped, by the reasons, and the sum. Gives the exit status."""
        for why, names in sorted(self.skipped.items()):
            print(f"skipped: {why}: {', '.join(names)}")
        count = sum(map(len, self.skipped.values()))
        print(f"{self.passed} passed, {self.failed} failed{f', {count} skipped' if count else ''}")
        return 1 if self.failed else 0


def must(condition, seen):
    """Fails with what was seen."""
    if not condition:
        raise Failed(repr(seen)[:600])


def run(*words, limit=LIMIT):
    """Runs an initiator. Gives its exit status and all that it said."""
    try:
        ran = subprocess.run(words, stdin=subprocess.DEVNULL, stdout=subprocess.PIPE, timeout=limit,
                             stderr=subprocess.STDOUT, text=True, errors="replace", check=False)
    except subprocess.TimeoutExpired as late:
        said = (late.stdout or b"").decode(errors="replace")
        raise Failed(f"{words[0]} took more than {limit} seconds: {said[-200:]!r}") from None
    return ran.returncode, ran.stdout


def succeeds(*words, limit=LIMIT):
    """A program ends well. Gives all that it said."""
    status, said = run(*words, limit=limit)
    must(status == 0, (words, status, said[-400:]))
    return said


def says(expected, *words):
    """An initiator ends well, and these lines are among those that it prints."""
    said = succeeds(*words)
    lines = [line.strip() for line in said.replace("\r", "\n").splitlines()]
    must(all(line in lines for line in expected), (words, said))


def qemu_io(url, *commands, options=("-r",)):
    """What qemu-io prints for these commands, all of which succeed."""
    words = [word for command in commands for word in ("-c", command)]
    form = () if "-f" in options else ("-f", "raw")
    status, said = run("qemu-io", *form, *options, *words, url)
    must(status == 0 and "failed" not in said, (commands[:4], status, said[-600:]))
    return said
