"""A tape in a file whose program ends in the middle of writing records: each record that was answered is there, and the
next start has the tape. What stands after the position is cut first, and a record goes into the file by one call, so the
file is torn only if the system ends that call in its middle: Linux does between two pages, for a signal that kills.
How often a signal alone does so depends on the machine, so it is counted and not refused; what is torn is cut here as
targetd-mend-tape cuts it. By the orderly stop of targetd-stop, which waits until the program is inside no call, no file
is torn."""

import os
import random
import signal
import time
from concurrent.futures import ThreadPoolExecutor
from typing import Callable, NamedTuple

from operation import orderly_stop, tape_items
from serving_checks.loopback import LIMIT, connect, data_asked_for, ended, serving, started
from serving_checks.tape_files import GOOD, Tape, item, tape_file
from wire import notation

LENGTHS = (512, 65_536, 1_048_576)
IMMEDIATE = 65_536  # bytes of data that go with a command (FirstBurstLength)
CAPACITY = 1 << 30
ENDS, MANY_ENDS = 10, 200  # of each kind
STOPS, MANY_STOPS = 3, 100
LONGEST = 0.03  # seconds until the end
GROWTH = 1  # seconds in which the file must have grown
BEFORE, AFTER = [item(b"before")] * 5, [item(b"after")] * 5


class Way(NamedTuple):
    """A way to end a program: its name, the signal that ends it, and what is called with its number."""
    name: str
    number: int
    end: Callable


def stop(process):
    """Ends a program by the orderly stop."""
    assert orderly_stop.end(process, LIMIT), "it did not stop"


SIGNALS = [Way(number.name, number, lambda process, number=number: os.kill(process, number))
           for number in (signal.SIGTERM, signal.SIGKILL)]
STOP = Way("the orderly stop", signal.SIGTERM, stop)


def record(number, length):
    """A record that says which one it is, all along."""
    return (number.to_bytes(4, "big") * (length // 4 + 1))[:length]


def is_written(tape, content):
    """A record was written and answered GOOD."""
    if len(content) <= IMMEDIATE:
        return tape.write(content) == GOOD
    tape.number += 1
    tape.client.sendall(notation.data(f"[SCSI-Command F W ITT={tape.number} CmdSN={tape.number} "
                                      f"ExpectedDataTransferLength={len(content)} CDB=0a00{len(content):06x}00]", {}))
    return list(data_asked_for(tape.client, content))[-1] == 0


def grows(path):
    """Waits until a file becomes longer, as in the middle of a write."""
    until, size = time.monotonic() + GROWTH, path.stat().st_size
    while (now := path.stat().st_size) <= size and time.monotonic() < until:
        size = min(size, now)


def end_later(way, process, path, delay, is_aimed):
    """Ends the program in this way after a number of seconds; an end that is aimed comes as soon as the file grows then."""
    time.sleep(delay)
    if is_aimed:
        grows(path)
    way.end(process)


def answered_until(tape, length, *ending):
    """How many records were answered before the program ended, by a call that is made meanwhile."""
    answered = 0
    with ThreadPoolExecutor(1) as pool:
        made = pool.submit(*ending)
        try:
            while is_written(tape, record(answered, length)):
                answered += 1
        except (OSError, AssertionError, IndexError):  # the connection has ended, perhaps in the middle of an answer
            pass
        made.result()
    return answered


def one_end(chance, way, length, is_at_end):
    """Whether the file was torn by one end in the middle of writing; what was answered is there all the same."""
    content = b"".join(BEFORE + ([] if is_at_end else AFTER))
    with tape_file(content, CAPACITY) as (path, units):
        with serving(units=units) as (process, address), connect(address) as client:
            tape = Tape(client)
            assert tape.locate(len(BEFORE)) == GOOD
            moment = chance.uniform(0, LONGEST), chance.random() < 0.5
            answered = answered_until(tape, length, end_later, way, process.pid, path, *moment)
            assert process.wait(LIMIT) == -way.number
        written = b"".join(BEFORE + [item(record(n, length)) for n in range(answered)])
        with path.open("r+b") as file:
            found = tape_items.items_of(file)
            whole = file.seek(0) or file.read(len(written))
            if answered or is_at_end or found.records != len(BEFORE + AFTER):
                assert whole == written, f"of {answered} records that were answered some are not there"
            if found.fault:
                file.truncate(found.end)
        with started("127.0.0.1:0", "--turns", "0", units=units) as again:
            status, _, err = ended(again)
            assert (status, err) == (0, ""), (found, status, err)
    return bool(found.fault)


def ends(way, count, chance):
    """Ends the program so often for each length and place, and prints how many tore the file. Gives how many did."""
    all_torn = 0
    for length in LENGTHS:
        for is_at_end in (True, False):
            torn = sum(one_end(chance, way, length, is_at_end) for _ in range(count))
            print(f"   {torn} of {count} ends by {way.name} tore the file while records of {length} bytes were written "
                  f"{'at the end' if is_at_end else 'in the middle'}", flush=True)
            all_torn += torn
    return all_torn


def has_each_record_that_was_answered_whenever_it_ends():
    for way in SIGNALS:
        ends(way, ENDS, random.Random(48))


def has_each_record_that_was_answered_in_many_ends():
    for way in SIGNALS:
        ends(way, MANY_ENDS, random.Random(49))


def has_no_torn_tape_after_an_orderly_stop():
    assert ends(STOP, STOPS, random.Random(50)) == 0


def has_no_torn_tape_after_many_orderly_stops():
    assert ends(STOP, MANY_STOPS, random.Random(51)) == 0


CHECKS = [has_each_record_that_was_answered_whenever_it_ends, has_no_torn_tape_after_an_orderly_stop]
MANY_CHECKS = [has_each_record_that_was_answered_in_many_ends, has_no_torn_tape_after_many_orderly_stops]
