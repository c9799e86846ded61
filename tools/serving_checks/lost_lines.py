"""A log whose file takes no more, as on a full disk: a line that was cut is ended before the next, those that were lost are
counted once there is room, and targetd-status says how many it does not know."""

import resource
import time
from contextlib import contextmanager

from serving_checks.all_places import status_of
from serving_checks.log_lines import LOGOUT, lines_of, logging, named
from serving_checks.loopback import LIMIT, answer_of, connect, is_answered, is_closed, read
from wire import notation

# Words that run a program in which a write beyond the bound of its files fails, and does not end it.
IN_BOUNDS = ["sh", "-c", "trap '' XFSZ; exec \"$@\"", "sh"]
TIME = len("2026-01-01T00:00:00Z ")
CAME, ENDED = "connection 1 from 127.0.0.1:", "session of connection 1 ended: logout"
LOST = "3 lines could not be written"
# Of the line of a connection: none, one, the time and more, all that comes before the newline, if a port has five digits.
FRONTS = (0, 1, 30, TIME + len(CAME) + 5)


def bounded(process, size):
    """A file that a program writes to may have so many bytes and no more (setrlimit(2))."""
    resource.prlimit(process.pid, resource.RLIMIT_FSIZE, (size, resource.RLIM_INFINITY))


def comes_and_goes(address):
    """A client logs in and out, of which the log has three lines. Its address."""
    with connect(address) as client:
        assert is_answered(client, 2, 1)
        client.sendall(notation.data(LOGOUT, {}))
        assert len(read(client, 48)) == 48 and is_closed(client)
        return named(client)


class Losing:
    """A program, the address that it listens on, its log, and a client that stays."""

    def __init__(self, process, address, path, steady):
        self.process, self.address, self.path, self.steady = process, address, path, steady
        self.number = 125
        assert is_answered(steady, 1, 0)

    def text(self):
        """The text of the log, once its last line is tried: that was before the turn in which this is answered."""
        self.steady.sendall(notation.data(f"[TEST-UNIT-READY F ITT={self.number} CmdSN={self.number}]", {}))
        self.number += 1
        assert answer_of(self.steady) == (b"", 0, b"")
        return self.path.read_text(encoding="ascii") if self.path.exists() else ""

    def lose(self, taken):
        """The log loses the lines of another client, but so many bytes of the first. Its text then, and the client."""
        bounded(self.process, len(self.text()) + taken)
        name = comes_and_goes(self.address)
        text = self.text()
        bounded(self.process, resource.RLIM_INFINITY)
        return text, name


@contextmanager
def losing():
    """A program whose log can be made to lose lines."""
    with logging(by=IN_BOUNDS) as (process, address, path), connect(address) as steady:
        yield Losing(process, address, path, steady)


def has_lost(lines, name):
    """These say how many lines were lost, and then all of a client that came and went."""
    return (lines[:2] == [LOST, f"connection 1 from {name}"] and len(lines) == 4 and lines[3] == ENDED
            and lines[2].startswith("connection 1 logged in: "))


def ends_a_line_that_was_cut_and_counts_those_that_were_lost():
    with losing() as one:
        for taken in FRONTS:
            before = one.text()
            cut, lost = one.lose(taken)
            front = cut[len(before):]
            assert cut.startswith(before) and len(front) == taken, (taken, cut)
            assert f"connection 1 from {lost}".startswith(front[TIME:]), front
            name = comes_and_goes(one.address)
            text = one.text()
            assert text.startswith(cut + "\n" if taken else cut), text
            assert has_lost(lines_of(text[len(cut) + (taken > 0):]), name), text
        told = status_of(one.process)
        missing = f"the log lacks {3 * len(FRONTS)} lines: who has logged in and which units are not ready may be more than is shown"
        assert (told["log"], told["notes"]) == (str(one.path), [missing]), told
        assert [(each["remote"], each["initiator"]) for each in told["connections"]] == [(named(one.steady), "a01")], told


def begins_another_file_by_what_was_lost_in_the_one_before():
    with losing() as one:
        for remove in (lambda: one.path.rename(one.path.with_name("log.1")), one.path.unlink):
            one.lose(30)
            remove()
            name = comes_and_goes(one.address)
            text = one.text()
            assert has_lost(lines_of(text), name), text


CHECKS = [
    ends_a_line_that_was_cut_and_counts_those_that_were_lost,
    begins_another_file_by_what_was_lost_in_the_one_before,
]
