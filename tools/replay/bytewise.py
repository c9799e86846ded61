"""A case whose bytes come one at a time: every connection is answered the same, though in other lines. Of a long piece these
are the first and the last bytes, and what stands between them comes in short pieces.

A line for bytes of a connection that was closed is refused. So of a piece in which a violation stands, only what comes up to
it is sent."""

import re
from collections import defaultdict
from itertools import chain, pairwise

from replay.program import Ended, lines_at_once

PIECE = re.compile(rb"(bytes (\d+) )((?:[0-9a-f]{2}){2,})(\n?)")
REFUSED = re.compile(rb"targetd: line (\d+) refused\n")
ANSWER = re.compile(rb"(\d+) (.+)\n")
LONG, EDGE, SHORT = 8192, 512, 1009  # bytes of a long piece, of its first and last part, of a short piece


def places(count):
    """Where a piece of so many bytes is cut."""
    if count <= LONG:
        return [*range(count), count]
    return [*range(EDGE), *range(EDGE, count - EDGE, SHORT), *range(count - EDGE, count), count]


def lines(step):
    """The lines for one step: one for each byte, if it is a piece of several."""
    piece = PIECE.fullmatch(step.sent)
    if not piece:
        return [step.sent]
    head, _, digits, end = piece.groups()
    cut = [head + digits[2 * at:2 * to] + b"\n" for at, to in pairwise(places(len(digits) // 2))]
    cut[-1] = cut[-1].removesuffix(b"\n") + end
    return cut


def answers(printed):
    """What each connection is sent, in order, and where it is closed. Any other line stands for itself."""
    told = defaultdict(bytes)
    for line in printed.splitlines(keepends=True):
        answer = ANSWER.fullmatch(line)
        told[answer[1] if answer else b""] += answer[2] if answer else line
    return told


def refused(ended):
    """The number of the line that was refused, or 0."""
    fault = REFUSED.fullmatch(ended.stderr)
    return int(fault[1]) if fault else 0


def moved(run, cut):
    """How the run must end, by the numbers of the lines that are sent."""
    fault = REFUSED.fullmatch(run.stderr)
    if not fault:
        return run.stderr
    return b"targetd: line %d refused\n" % (sum(len(part) for part in cut[:int(fault[1]) - 1]) + 1)


def closes(step):
    """Whether the connection whose bytes these are is to be closed by them."""
    piece = PIECE.fullmatch(step.sent)
    return bool(piece) and piece[2] + b" closed\n" in step.printed.splitlines(keepends=True)


def shortened(run, cut, number):
    """Drops what is left of the piece in whose midst this line stands, if its connection is to be closed. Whether it did."""
    for step, part in zip(run.steps, cut):
        if 1 < number <= len(part) and closes(step):
            del part[number - 1:]
            return True
        number -= len(part)
    return False


def answered_otherwise(program, run, wanted):
    """What differs if the bytes come one at a time, or nothing."""
    cut = [lines(step) for step in run.steps]
    if all(len(part) == 1 for part in cut):
        return None
    ended = lines_at_once(program, run, chain(*cut))
    while shortened(run, cut, refused(ended)):
        ended = lines_at_once(program, run, chain(*cut))
    if ended == Ended(ended.stdout, moved(run, cut), run.status) and answers(ended.stdout) == answers(wanted):
        return None
    given = answers(ended.stdout)
    other = next((c for c, sent in answers(wanted).items() if given[c] != sent), None)
    return f"byte by byte: status {ended.status}, standard error {ended.stderr!r}" + (
        f", and connection {other.decode()} is answered otherwise" if other else "")
