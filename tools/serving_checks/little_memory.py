"""Logins that go on for ever: a login remembers each key of each of its texts, and no rule bounds how many texts there are.
Where the system bounds the memory of the program so that its allocations fail (RLIMIT_AS), the strangers are closed, and a
session beside them loses nothing that it was answered."""

import select
import struct
import subprocess
import threading
import time
from concurrent.futures import ThreadPoolExecutor
from contextlib import contextmanager
from functools import cache, lru_cache

from operation.processes import memory_of
from serving_checks.log_lines import lines_of, logging, login
from serving_checks.loopback import LIMIT, PROGRAM, UNITS, answer_of, connect, is_answered, read
from serving_checks.surroundings import Skipped
from wire import notation, pdu

MEBIBYTE = 1 << 20
ROOM = 200 * MEBIBYTE  # bytes of addresses that the program gets
MOST_TEXT = 65536  # bytes of a text
PIECE = 8192  # bytes of one in pieces
SECONDS, LONG = 4, 60  # for which strangers log in
CLOSINGS = 3  # of strangers, that a check waits for at least
STRANGERS, WORKERS = 8, 4
BLOCKS, BYTES = 128, 65536  # of a WRITE
PLACES = 4  # on the disk, at which a session writes
OUT_OF_MEMORY = "ended without a login: out of memory"
FOR_EVER = (OUT_OF_MEMORY, "ended without a login: its peer closed the connection", "ended without a login: its peer is gone")


def limited(room):
    """Words that give the program after them so many bytes of addresses and no more."""
    return ["sh", "-c", f'ulimit -v {room // 1024}; exec "$@"', "sh"]


def needs_room():
    """A check is skipped if the program takes more addresses before it begins."""
    ran = subprocess.run([*limited(ROOM), PROGRAM, "--help"], capture_output=True, timeout=LIMIT, check=False)
    if ran.returncode != 2:
        raise Skipped("the program takes more addresses than it is given, as one with checks at run time does")


@cache
def header(length, flags):
    """The header of a Login Request of a text with so many bytes."""
    return notation.data(f"[Login-Request I {flags} CSG=1 ITT=1 CmdSN=123 ISID=0x800000000009 DataSegmentLength={length}]", {})


def request(text, flags=""):
    """A Login Request that asks for no other stage."""
    return header(len(text), flags) + text + bytes(pdu.padding(len(text)))


def key(number):
    """A pair that no login has had before, whose value asks for no answer."""
    return b"X-%08x=Reject\0" % number


def whole(number):
    """As many pairs as a text may have."""
    count = MOST_TEXT // len(key(0))
    return b"".join(key(number * count + n) for n in range(count))


def one_key(number):
    """Texts of one key each."""
    return b"".join(request(key(1000 * number + n)) for n in range(1000))


def large_text(number):
    """A text as long as one may be."""
    return request(whole(number))


def text_in_pieces(number):
    """The same in pieces."""
    text = whole(number)
    starts = range(0, len(text), PIECE)
    return b"".join(request(text[at:at + PIECE], "C" if at + PIECE < len(text) else "") for at in starts)


KINDS = large_text, one_key, text_in_pieces
prepared = lru_cache(maxsize=3000)(lambda kind, number: kind(number))


def most_resident(process):
    """The most bytes of memory that the program has had."""
    return memory_of(process.pid)[1]


class Stranger(threading.Thread):
    """Logs in for ever, and begins anew if it is closed."""

    def __init__(self, address, kind):
        super().__init__()
        self.address, self.kind = address, kind
        self.is_over = threading.Event()
        self.closings = 0

    def logs_in(self, client):
        """Sends texts until the connection is closed, and reads what they are answered."""
        client.sendall(request(b"InitiatorName=stranger\0TargetName=t1\0"))
        client.setblocking(False)
        number, unsent = 0, memoryview(b"")
        while not self.is_over.is_set():
            readable, writable, _ = select.select([client], [client], [], 0.1)
            if readable and not client.recv(MEBIBYTE):
                return True
            if writable:
                if not unsent:
                    unsent = memoryview(prepared(self.kind, number))
                    number += 1
                unsent = unsent[client.send(unsent):]
        return False

    def run(self):
        while not self.is_over.is_set():
            try:
                with connect(self.address) as client:
                    self.closings += self.logs_in(client)
            except ConnectionError:
                self.closings += 1


@contextmanager
def strangers(address, count, kinds):
    """So many strangers, of these kinds in turn, for as long as they are needed."""
    those = [Stranger(address, kinds[n % len(kinds)]) for n in range(count)]
    for one in those:
        one.start()
    try:
        yield those
    finally:
        for one in those:
            one.is_over.set()
        for one in those:
            one.join()


def closings(those):
    """How often these were closed."""
    return sum(one.closings for one in those)


class Closed(Exception):
    """A session was closed."""


@contextmanager
def unless_closed():
    """What is done here is done, or the session is closed."""
    try:
        yield
    except (ConnectionError, AssertionError) as error:  # no whole header comes
        raise Closed from error


COMMAND = "[SCSI-Command F W ITT={0} CmdSN={0} ExpectedDataTransferLength={1} DataSegmentLength={2} CDB=2a00{3:08x}00{4:04x}]"
DATA = "[Data-Out {} ITT={} TTT={} DataSN={} BufferOffset={} DataSegmentLength={}]"


class Session:
    """An initiator that writes at places of its own and reads them back, and logs in again if it is closed. If `wait`
    is given, it waits so in the middle of each WRITE."""

    def __init__(self, address, number=0, wait=None):
        self.address, self.name, self.first = address, b"session%d" % number, number * PLACES * BLOCKS
        self.client, self.wait, self.number, self.writes, self.closings = None, wait, 0, 0, 0
        self.answered = {}  # what each place holds, if its last WRITE was answered
        self.begins()

    def begins(self):
        """Logs in, and takes what attentions there are."""
        self.client, self.number = connect(self.address), 123
        with unless_closed():
            self.client.sendall(login(self.name))
            answer = read(self.client, pdu.HEADER)
            length = int.from_bytes(answer[5:8], "big")
            assert len(read(self.client, length + pdu.padding(length))) >= length > 0
        if answer[36:38] != bytes(2):
            raise OSError(f"a login is refused: {answer.hex()}")
        while self.told("[TEST-UNIT-READY F ITT={0} CmdSN={0}]")[1]:
            pass

    def told(self, command, data=b"", rest=None):
        """What a command is answered, whose number is put in. The rest of its data is asked for."""
        with unless_closed():
            self.client.sendall(notation.data(command.format(self.number), {}) + data)
            if rest:
                self.sends_in_halves(rest)
            found = answer_of(self.client)
        self.number += 1
        return found

    def sends_in_halves(self, content):
        """Sends data that is asked for, and waits in its middle."""
        asked = read(self.client, pdu.HEADER)
        assert asked[:1] == b"\x31"
        half, tag = len(content) // 2, int.from_bytes(asked[20:24], "big")
        for n, flags in enumerate(("", "F")):
            self.client.sendall(notation.data(DATA.format(flags, self.number, tag, n, n * half, half), {})
                                + content[n * half:][:half])
            if not flags:
                self.wait()

    def write(self, place, content):
        """Writes at a place."""
        at, sent = self.first + place * BLOCKS, 0 if self.wait else BYTES
        command = COMMAND.format("{0}", BYTES, sent, at, BLOCKS)
        return self.told(command, content[:sent], content[sent:])

    def keeps(self, place):
        """A place holds what was written there, if that was answered."""
        read_it = f"[SCSI-Command F R ITT={{0}} CmdSN={{0}} ExpectedDataTransferLength={BYTES} " \
                  f"CDB=2800{self.first + place * BLOCKS:08x}00{BLOCKS:04x}]"
        data, status, _ = self.told(read_it)
        if status or data != self.answered.get(place, data):
            raise OSError(f"place {place} has lost what was answered: status {status}, {data[:8].hex()}")

    def goes_on(self):
        """Writes and reads back at one place."""
        place, content = self.writes % PLACES, struct.pack(">I", self.writes) * (BYTES // 4)
        self.writes += 1
        self.answered.pop(place, None)  # a WRITE without an answer may have been done or not
        if (found := self.write(place, content)) != (b"", 0, b""):
            raise OSError(f"a WRITE is answered {found}")
        self.answered[place] = content
        self.keeps(place)

    def works(self):
        """Goes on, or logs in again and reads all that was answered."""
        try:
            self.goes_on()
        except Closed:
            self.closings += 1
            self.comes_again()

    def comes_again(self):
        """Logs in again, as often as it takes, and has all that it was answered."""
        until = time.monotonic() + LIMIT
        while time.monotonic() < until:
            self.client.close()
            try:
                self.begins()
                for place in range(PLACES):
                    self.keeps(place)
                return
            except Closed:
                time.sleep(0.02)
        raise OSError("it is closed again and again")


def units_for(sessions):
    """A disk with the places of so many sessions."""
    return UNITS.replace("blocks = 8", f"blocks = {sessions * PLACES * BLOCKS}")


def works_until(session, those, seconds):
    """A session goes on for so many seconds, and until strangers were closed."""
    began = time.monotonic()
    while time.monotonic() - began < seconds or closings(those) < CLOSINGS:
        assert time.monotonic() - began < seconds + LIMIT, f"{closings(those)} strangers are closed"
        session.works()


def says_why(path):
    """The log says of strangers that memory ran out, and no other reason but theirs."""
    ends = {line.partition(" ")[2].partition(" ")[2] for line in lines_of(path.read_text(encoding="ascii"))
            if "ended without a login" in line or "refused" in line}
    assert OUT_OF_MEMORY in ends and ends <= set(FOR_EVER), sorted(ends)


def closes_strangers_who_log_in_for_ever_and_keeps_what_a_session_was_answered():
    needs_room()
    for kind in KINDS:
        with logging(units_for(1), by=limited(ROOM)) as (process, address, path):
            session = Session(address)
            with strangers(address, STRANGERS, [kind]) as those:
                works_until(session, those, SECONDS)
            assert process.poll() is None and most_resident(process) < ROOM, (kind.__name__, process.poll())
            says_why(path)
            session.comes_again()
            with connect(address) as client:
                assert is_answered(client, 1), kind.__name__


def keeps_what_sessions_were_answered_beside_strangers_for_a_minute():
    needs_room()
    for count in (1, 8, 63):
        with logging(units_for(WORKERS), by=limited(ROOM)) as (process, address, path):
            with strangers(address, count, KINDS) as those:
                def waits():
                    """Waits for a stranger to be closed, for a while."""
                    before, until = closings(those), time.monotonic() + 1
                    while closings(those) == before and time.monotonic() < until:
                        time.sleep(0.001)
                workers = [Session(address, n, waits if n == 0 else None) for n in range(min(WORKERS, 64 - count))]
                with ThreadPoolExecutor(WORKERS) as pool:
                    for done in [pool.submit(works_until, one, those, LONG) for one in workers]:
                        done.result()
            assert process.poll() is None and most_resident(process) < ROOM, (count, process.poll())
            says_why(path)
            for one in workers:
                one.comes_again()
            print(f"beside {count} strangers, who were closed {closings(those)} times, {len(workers)} sessions were closed "
                  f"{[one.closings for one in workers]} times in {[one.writes for one in workers]} WRITEs; "
                  f"{most_resident(process) // MEBIBYTE} MiB at most", flush=True)


CHECKS = [closes_strangers_who_log_in_for_ever_and_keeps_what_a_session_was_answered]
LONG_CHECKS = [keeps_what_sessions_were_answered_beside_strangers_for_a_minute]
