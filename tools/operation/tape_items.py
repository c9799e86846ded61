"""The items of a tape in a file (docs/TAPE_FORMAT.md): each has its length in 4 bytes, its data, and its length again. A
filemark has length 0."""

import os
import re
from typing import NamedTuple

MOST_RECORD = 1_048_576
LENGTH, LENGTHS = 4, 8
MOST_TORN = MOST_RECORD + LENGTHS - 1  # bytes that a write leaves of which not all was stored
PIECE, JUMP = 65_536, 512  # bytes that are read at once where the last ones end, and beyond them
ZEROS = re.compile(rb"\0*")


class Items(NamedTuple):
    """What a file holds. `end`: after the last whole item. `fault`: what stands there in place of one, or nothing."""
    records: int
    filemarks: int
    end: int
    size: int
    fault: str


class Run(NamedTuple):
    """A record, or filemarks that follow one another: where it begins, the length of each item, and how many they are."""
    place: int
    length: int
    count: int

    def end(self):
        """Where it ends."""
        return self.place + self.count * (self.length + LENGTHS)


class Pieces:
    """A file, read in large pieces."""

    def __init__(self, file):
        self.file, self.start, self.held = file, 0, b""

    def at(self, place, count):
        """The bytes that are held, and where in them this place stands, with so many bytes after it."""
        if not self.start <= place <= self.start + len(self.held) - count:
            size = PIECE if place <= self.start + len(self.held) else JUMP
            self.start, self.held = place, os.pread(self.file.fileno(), size, place)
        return self.held, place - self.start

    def number(self, place):
        """The number in four bytes."""
        held, at = self.at(place, LENGTH)
        return int.from_bytes(held[at:at + LENGTH], "big")

    def filemarks(self, place):
        """How many filemarks follow one another from a place on, as far as the file is held."""
        held, at = self.at(place, LENGTHS)
        return (ZEROS.match(held, at).end() - at) // LENGTHS


def counted(count, noun):
    """So many of something, in words."""
    return f"{count} {noun}{'' if count == 1 else 's'}"


def fault_at(pieces, place, size, length):
    """Why the item of this length that begins at a place is not whole, or nothing."""
    here = size - place - LENGTH
    if here < 0:
        return f"{counted(size - place, 'byte')} of a length"
    if length > MOST_RECORD:
        return f"the length {length}, and a record has at most {MOST_RECORD} bytes"
    if here < length:
        return f"the length {length}, and {counted(here, 'byte')} of its data"
    before = f"the length {length}, its data," if length else "the length 0"
    if here < length + LENGTH:
        return f"{before} and {counted(here - length, 'byte')} of its second length"
    again = pieces.number(place + LENGTH + length)
    return f"{before} and the second length {again}" if again != length else ""


def runs_of(pieces, size):
    """Each record and each run of filemarks from the front of a file on, up to where no whole item begins."""
    end = 0
    while end < size:
        length = pieces.number(end)
        if fault_at(pieces, end, size, length):
            return
        run = Run(end, length, 1 if length else max(1, min(pieces.filemarks(end), (size - end) // LENGTHS)))
        yield run
        end = run.end()


def items_of(file, size=None, see=lambda run: None):
    """The items of a file that is open for reading, or of this many bytes at its front. Each run of them is seen in turn."""
    pieces, size = Pieces(file), file.seek(0, os.SEEK_END) if size is None else size
    records = filemarks = end = 0
    for run in runs_of(pieces, size):
        see(run)
        records, filemarks = records + bool(run.length), filemarks + (0 if run.length else run.count)
        end = run.end()
    return Items(records, filemarks, end, size, fault_at(pieces, end, size, pieces.number(end)) if end < size else "")


def data_of(file, number):
    """The data of item N, counted from 0 over records and filemarks, which is empty of a filemark; or nothing."""
    first = 0
    for run in runs_of(Pieces(file), file.seek(0, os.SEEK_END)):
        if first <= number < first + run.count:
            return os.pread(file.fileno(), run.length, run.place + LENGTH)
        first += run.count
    return None
