"""The notation in which a case writes bytes.

    43 87 0000 001e     hexadecimal digits, in groups of any even length
    "TargetName=t1" 00  text between quotes of either kind; \\n \\r \\t \\0 \\\\ \\" \\' are escapes
    00*16  "x"*223      a group or a text so many times
    [Login-Request T CSG=1 NSG=3 CmdSN=7 | "InitiatorName=a" 00]
                        a PDU by the names of its fields (pdu.py), then its data segment
    SESSION             what `let` or `for` gave this name
    0..47 of SESSION    its bytes from 0 up to, and not including, 47
"""

import re

from wire import pdu
from wire.pdu import Malformed

TOKEN = re.compile(r"""\s*(?:
    (?P<text>"(?:[^"\\]|\\.)*"|'(?:[^'\\]|\\.)*')(?:\*(?P<count>\w+))?
  | (?P<mark>[\[\]|])
  | (?P<word>[^\s"'\[\]|]+) )""", re.VERBOSE)
NAME = re.compile(r"[A-Z][A-Z0-9_]*")
HEX = re.compile(r"(?:[0-9a-fA-F]{2})+")
ESCAPES = {"n": "\n", "r": "\r", "t": "\t", "0": "\0", "\\": "\\", '"': '"', "'": "'"}


def check_name(name):
    """A name is in capitals, and cannot be read as hexadecimal digits."""
    if not NAME.fullmatch(name) or re.fullmatch("[A-F0-9]+", name):
        raise Malformed(f"{name!r} is no name")


def tokens(source):
    """The tokens of a text, each a match of TOKEN."""
    found, at, source = [], 0, source.rstrip()
    while at < len(source):
        token = TOKEN.match(source, at)
        if not token:
            raise Malformed(f"cannot read {source[at:].strip()!r}")
        found.append(token)
        at = token.end()
    return found


def number(word, names):
    """A number in decimal or, after 0x, in hexadecimal, or the name of one."""
    word = names.get(word, word).strip()
    if re.fullmatch(r"0x[0-9a-fA-F]+", word):
        return int(word, 16)
    if re.fullmatch(r"0|[1-9][0-9]*", word):
        return int(word)
    raise Malformed(f"{word!r} is no number")


def unquoted(text):
    """The bytes of a text between quotes."""
    def escape(match):
        if match[1] not in ESCAPES:
            raise Malformed(f"no escape \\{match[1]}")
        return ESCAPES[match[1]]
    return re.sub(r"\\(.)", escape, text[1:-1]).encode()


def data(source, names):
    """The bytes that a text in this notation stands for."""
    reader = Reader(tokens(source), names)
    result = b"".join(iter(reader.item, None))
    if reader.rest:
        raise Malformed(f"{reader.rest[0].group().strip()!r} stands alone")
    return result


class Reader:
    """Reads bytes from tokens, item after item."""

    def __init__(self, rest, names):
        self.rest = rest
        self.names = names

    def item(self):
        """The bytes of the next item, or None if there is none."""
        if not self.rest or self.rest[0]["mark"] in ("]", "|"):
            return None
        token = self.rest.pop(0)
        if token["text"]:
            return unquoted(token["text"]) * number(token["count"] or "1", self.names)
        if token["mark"]:
            return self.pdu()
        if ".." in token["word"]:
            return self.part(token["word"])
        return self.word(token["word"])

    def word(self, word):
        """Hexadecimal digits or a name, which may be repeated."""
        word, star, count = word.partition("*")
        times = number(count, self.names) if star else 1
        if word in self.names:
            return data(self.names[word], self.names) * times
        if HEX.fullmatch(word):
            return bytes.fromhex(word) * times
        raise Malformed(f"{word!r} is neither hexadecimal digits nor a name")

    def part(self, word):
        """A part of the next item, after `A..B of`."""
        start, _, end = word.partition("..")
        start, end = number(start, self.names), number(end, self.names)
        if not self.rest or self.rest.pop(0)["word"] != "of":
            raise Malformed(f"'of' must follow {word}")
        whole = self.item()
        if whole is None or not start <= end <= len(whole):
            raise Malformed(f"there are no bytes {word}")
        return whole[start:end]

    def pdu(self):
        """A PDU, after its opening bracket."""
        words = []
        while self.rest and self.rest[0]["word"]:
            word = self.rest.pop(0)["word"]
            if word in self.names:
                self.rest[:0] = tokens(self.names[word])
            else:
                words.append(word)
        segment = None
        if self.rest and self.rest[0]["mark"] == "|":
            self.rest.pop(0)
            segment = b"".join(iter(self.item, None))
        if not self.rest or self.rest.pop(0)["mark"] != "]":
            raise Malformed("']' is missing")
        return written(words, segment, self.names)


def written(words, segment, names):
    """The bytes of a PDU: its name, its flags and fields, and its data segment."""
    name, fields = (words or [""])[0], [word.partition("=") for word in words[1:]]
    extra = {"CDB": "00"} if name == "TEST-UNIT-READY" else {}
    layout = pdu.LAYOUTS.get("SCSI-Command" if extra else name)
    if not layout:
        raise Malformed(f"there is no PDU {name!r}")
    given = {**extra, **{key: value if equals else "1" for key, equals, value in fields}}
    if len(given) != len(extra) + len(fields):
        raise Malformed(f"a field of {name} comes twice")
    given = {key: names.get(value, value).strip() for key, value in given.items()}
    additional, pad = hexadecimal(given.pop("AHS", "")), given.pop("Pad", None)
    if "Sense" in given:
        segment = sense(given.pop("Sense"), segment)
    segment = segment or b""
    pad = bytes(pdu.padding(len(segment))) if pad is None else hexadecimal(pad)
    header = bytes([layout[0], layout[1]]) + bytes(46)
    header = pdu.put(header, pdu.COMMON["TotalAHSLength"], len(additional) // 4)
    header = pdu.put(header, pdu.COMMON["DataSegmentLength"], len(segment))
    for key, value in given.items():
        header = with_field(header, name, layout[2], key, value, names)
    return header + additional + segment + pad


def sense(given, segment):
    """The data segment of a sense key, additional sense code and qualifier, as 06/2900."""
    if segment is not None or not re.fullmatch(r"[0-9A-F]{2}/[0-9A-F]{4}", given):
        raise Malformed(f"sense is KEY/CODE and nothing beside it, not {given!r}")
    key, code = given.split("/")
    return pdu.sense_data(int(key, 16), int(code, 16))


def hexadecimal(digits):
    """The bytes of digits that may be none."""
    if digits and not HEX.fullmatch(digits):
        raise Malformed(f"{digits!r} is not pairs of hexadecimal digits")
    return bytes.fromhex(digits)


def with_field(header, name, fields, key, value, names):
    """The header with one field set."""
    if key not in fields:
        raise Malformed(f"{name} has no field {key!r}")
    if key == "CDB":
        return pdu.put(header, fields[key], int.from_bytes(hexadecimal(value).ljust(16, b"\0"), "big"))
    if key == "LUN" and not value.startswith("0x"):
        return pdu.put(header, pdu.octets(9, 1), number(value, names))
    return pdu.put(header, fields[key], number(value, names))
