"""Logins whose texts have many keys that the target does not know."""

import socket

from running.patience import LIMIT
from wire import pdu

KEYS = 1000  # in a text: a key and its value take 8 bytes, so that they fit one segment
NAMES = b"InitiatorName=a\0TargetName=t1\0"
LAYOUT = pdu.LAYOUTS["Login-Request"]


def request(data, **fields):
    """A Login Request in the stage of operational negotiation with this text."""
    opcode, _, places = LAYOUT
    header = bytes(pdu.HEADER)
    for name, value in {"Byte0": 0x40 | opcode, "CSG": 1, "ITT": 1, "ISID": 1, "DataSegmentLength": len(data),
                        **fields}.items():
        header = pdu.put(header, places[name], value)
    return header + data + bytes(pdu.padding(len(data)))


def text(number):
    """A text of keys that no other has."""
    return b"".join(b"k%05d=\0" % key for key in range(KEYS * number, KEYS * (number + 1)))


def response(client):
    """The header of the next Login Response."""
    header = client.recv(pdu.HEADER, socket.MSG_WAITALL)
    length = pdu.get(header, pdu.COMMON["DataSegmentLength"])
    client.recv(length + pdu.padding(length), socket.MSG_WAITALL)
    return header


def is_answered(client, data):
    """Whether a text is answered whole, however many pieces that takes."""
    fields = pdu.LAYOUTS["Login-Response"][2]
    while True:
        client.sendall(request(data))
        header = response(client)
        if pdu.get(header, fields["Status"]):
            return False
        if not pdu.get(header, fields["C"]):
            return True
        data = b""


def login(port, texts):
    """Logs in with so many texts, and leaves."""
    with socket.create_connection(("127.0.0.1", port), LIMIT) as client:
        client.settimeout(LIMIT)
        for number in range(texts):
            if not is_answered(client, (b"" if number else NAMES) + text(number)):
                raise OSError(f"text {number} of a login is refused")
