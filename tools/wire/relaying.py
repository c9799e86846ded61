"""A relay between an initiator and a target, which keeps the PDUs that pass and their order. It can stall, cut a
connection, lose PDUs, and send others in the place of the initiator's."""

import socket
import threading
from contextlib import contextmanager
from typing import NamedTuple

from wire import decode, pdu

SENT, ANSWERED = ">", "<"
PIECE = 1 << 16


class Event(NamedTuple):
    """The bytes of a PDU that the initiator sent or the target answered; without bytes, the end of either."""
    connection: int
    side: str
    data: bytes

    def words(self):
        """The PDU in words."""
        return decode.described(*pdu.cut(self.data)[0][0])

    def name(self):
        """The PDU's name, as `pdu` has it, or 'closed'."""
        return self.words().split("  ")[0] if self.data else "closed"

    def lines(self):
        """The event as `targetd replay` reads and prints it, and below it the PDU in words."""
        if not self.data:
            sent, answered = f"gone {self.connection}", f"{self.connection} closed"
        else:
            sent, answered = (f"{start}{self.connection} {self.data.hex()}" for start in ("bytes ", ""))
        line = f"{self.side} {sent if self.side == SENT else answered}"
        return [line, f"    {self.words()}"] if self.data else [line]


def cut(data):
    """The whole PDUs at the front of what came, padding included, and what is left."""
    pdus = []
    for parts in pdu.cut(data)[0]:
        length = sum(map(len, parts)) + pdu.padding(len(parts[2]))
        pdus.append(data[:length])
        data = data[length:]
    return pdus, data


class Relay:
    """Listens on a free port, and passes what comes there to the target and back. Where it may lose PDUs, or rewrite the
    bytes of those that are sent, it passes whole ones only."""

    def __init__(self, target, tell=lambda event: None, loses=None, rewrites=None):
        self.target = target
        self.tell = tell
        self.loses = loses
        self.rewrites = rewrites
        self.events = []
        self.lock = threading.Lock()
        self.ends = []  # the two sockets of each connection
        self.stalled = set()
        self.changed = threading.Condition()
        self.listener = socket.create_server(("127.0.0.1", 0))
        self.port = self.listener.getsockname()[1]

    def accept(self):
        """Takes connections until the listener is shut down."""
        number = 0
        while True:
            try:
                initiator, _ = self.listener.accept()
            except OSError:
                return
            try:
                target = socket.create_connection(self.target)
            except OSError:
                initiator.close()
                continue
            self.ends.append((initiator, target))
            for ends in ((SENT, initiator, target), (ANSWERED, target, initiator)):
                threading.Thread(target=self.pass_on, args=(number, *ends), daemon=True).start()
            number += 1

    def pass_on(self, connection, side, source, sink):
        """Carries one direction of a connection to its end."""
        rest = b""
        while piece := received(source):
            pdus, rest = cut(rest + piece)
            events = [Event(connection, side, data) for data in pdus]
            self.keep(events)
            if self.loses or self.rewrites:
                piece = b"".join(map(self.passed, events))
            with self.changed:
                self.changed.wait_for(lambda: connection not in self.stalled)
            if not is_sent(sink, piece):
                return
        self.keep([Event(connection, side, b"")])
        shut_down(sink, socket.SHUT_WR)

    def passed(self, event):
        """The bytes of a PDU that go on."""
        if self.loses and self.loses(event):
            return b""
        return self.rewrites(event.data) if self.rewrites and event.side == SENT else event.data

    def keep(self, events):
        """Keeps events before their bytes go on, so that an answer stands after its request."""
        with self.lock:
            for event in events:
                self.events.append(event)
                self.tell(event)

    def stall(self):
        """Passes nothing more on the connections that there are."""
        with self.changed:
            self.stalled.update(range(len(self.ends)))

    def go_on(self):
        """Passes again what was stalled."""
        with self.changed:
            self.stalled.clear()
            self.changed.notify_all()

    def cut(self):
        """Ends each connection that there is for both sides, wherever it is in a PDU."""
        for end in [end for ends in self.ends for end in ends]:
            shut_down(end, socket.SHUT_RDWR)


def received(source):
    """What came, or nothing at the end."""
    try:
        return source.recv(PIECE)
    except OSError:
        return b""


def is_sent(sink, piece):
    """The other side still took it."""
    try:
        sink.sendall(piece)
    except OSError:
        return False
    return True


def shut_down(end, how):
    """Tells the other side that nothing more comes, if it is still there."""
    try:
        end.shutdown(how)
    except OSError:
        pass


@contextmanager
def relaying(target, tell=lambda event: None, loses=None, rewrites=None):
    """A relay to this address, until it is no longer needed."""
    relay = Relay(target, tell, loses, rewrites)
    thread = threading.Thread(target=relay.accept, daemon=True)
    thread.start()
    try:
        yield relay
    finally:
        relay.go_on()
        shut_down(relay.listener, socket.SHUT_RDWR)
        thread.join()
