"""What targetd-import carries over from another target, as a configuration of targetd, and the notes of what it does not."""

import hashlib
from dataclasses import dataclass, field

from operation.configuration import MOST_BLOCKS, MOST_BYTES, MOST_LUN, MOST_NAME, MOST_SERIAL, MOST_TARGETS, MOST_UNITS

LOOPBACK, PORT = "127.0.0.1", 3260
SERVED = "/var/lib/targetd/"  # the folder whose files the systemd units may open
ESCAPED = {'"': '\\"', "\\": "\\\\"}
MOST_COMMENTS = 50  # at one place of the configuration
HEAD = "# By targetd-import. A note says what is not as it was.\n"


class NotCarried(Exception):
    """Nothing of a file can be carried over, and why."""


@dataclass
class Unit:
    """A disk, in a file, or in memory with a number of blocks."""
    lun: int
    serial: str
    file: str
    blocks: int
    notes: list = field(default_factory=list)


@dataclass
class Target:
    """A target with its units."""
    name: str
    where: str
    units: list = field(default_factory=list)
    notes: list = field(default_factory=list)


def shown(text):
    """A text as it may stand in one line."""
    text = str(text)
    return text if text.isprintable() else "".join(
        letter if letter.isprintable() else letter.encode("unicode_escape").decode("ascii") for letter in text)


def is_text(value):
    """Whether a value is a text that TOML and the system can have."""
    if not isinstance(value, str) or "\0" in value:
        return False
    try:
        value.encode("utf-8")
    except UnicodeEncodeError:
        return False
    return True


def quoted(text):
    """A text as TOML has it between quotes."""
    letters = (ESCAPED.get(letter, letter) if letter.isprintable() else f"\\U{ord(letter):08x}" for letter in text)
    return f'"{"".join(letters)}"'


class Carried:
    """The targets that were carried over so far, and what was noted, in order."""

    def __init__(self):
        self.targets, self.notes, self.told = [], [], []
        self.addresses = []  # host and port of each portal
        self.files = {}

    def note(self, where, words, notes=None):
        """Something is not carried over, or not as it was: of a target or a unit with these notes, or of all."""
        words = shown(words)
        self.told.append(f"{shown(where)}: note: {words}")
        (self.notes if notes is None else notes).append(words)

    def target(self, where, name):
        """A target of this name without units yet, or nothing if it cannot be one."""
        why = None
        if not is_text(name) or not name:
            why = "its name is empty, or no text"
        elif len(name.encode("utf-8")) > MOST_NAME:
            why = f"its name has more than {MOST_NAME} bytes"
        elif any(target.name == name for target in self.targets):
            why = "a target of this name stands before it"
        elif len(self.targets) == MOST_TARGETS:
            why = f"a configuration has at most {MOST_TARGETS}: give it a configuration and a process of its own (targetd@NAME)"
        if why:
            self.note(where, f"the target {name} is left out: {why}")
            return None
        target = Target(name, where)
        if name != name.lower() or any(map(str.isspace, name)):
            self.note(where, f"the name {name} has capitals or blanks, and initiators may ask for it in lower case and without "
                      "blanks alone", target.notes)
        self.targets.append(target)
        return target

    def unit(self, where, target, lun, serial, file=None, blocks=None):
        """A disk of a target, or nothing if it cannot be one."""
        name = f"unit {lun}" if file is None else f"the disk {file}"
        why = self.refusal(target, lun, file, blocks)
        if why:
            self.note(where, f"{name} is left out: {why}", target.notes)
            return None
        unit = Unit(lun, serial, file, blocks)
        self.give_serial(where, target, unit)
        if file is not None:
            self.files[file] = target.name
            self.place(where, unit)
        target.units.append(unit)
        return unit

    def refusal(self, target, lun, file, blocks):
        """Why a disk cannot be one of a target, or nothing."""
        if isinstance(lun, bool) or not isinstance(lun, int) or not 0 <= lun <= MOST_LUN:
            return f"its LUN is to be from 0 to {MOST_LUN}"
        if any(unit.lun == lun for unit in target.units):
            return f"LUN {lun} stands before it in its target"
        if len(target.units) == MOST_UNITS:
            return f"a target has at most {MOST_UNITS}"
        if file is None:
            return None if 1 <= blocks <= MOST_BLOCKS else f"a disk in memory has at most {MOST_BLOCKS} blocks of 512 bytes"
        if not is_text(file) or not file:
            return "its path is empty, or no text"
        return f"the target {self.files[file]} has its file already" if file in self.files else None

    def give_serial(self, where, target, unit):
        """Gives a disk a serial that targetd takes and that no other one has."""
        given, others = unit.serial, {other.serial for one in self.targets for other in one.units}
        short = given.replace("-", "") if is_text(given) else ""
        if is_text(given) and 1 <= len(given) <= MOST_SERIAL and all(" " <= letter <= "~" for letter in given):
            why = f"another disk has the serial {given}" if given in others else None
        elif len(short) == MOST_SERIAL and short.isalnum() and short.isascii() and short not in others:
            self.note(where, f"the serial {given} has more than {MOST_SERIAL} characters, and is {short} here: hosts see "
                      "another disk", unit.notes)
            unit.serial = short
            return
        else:
            why = f"it has no serial of 1 to {MOST_SERIAL} printable ASCII characters" if given else "no serial is named"
        if why:
            origin = f"{target.name} {unit.lun} {unit.file}".encode("utf-8")
            unit.serial = hashlib.sha256(origin).hexdigest()[:16]
            self.note(where, f"{why}, so the disk gets {unit.serial}: hosts see another disk", unit.notes)

    def place(self, where, unit):
        """What is to be done so that the systemd units open a file."""
        if not unit.file.startswith("/"):
            self.note(where, f"the path {unit.file} counts from the folder in which targetd starts", unit.notes)
        elif unit.file.startswith("/dev/"):
            self.note(where, f"{unit.file} is a device: the units want the drop-in block-devices.conf (targetd(8))", unit.notes)
        elif not unit.file.startswith(SERVED):
            self.note(where, f"{unit.file} is not below {SERVED}: the units want its folder as ReadWritePaths= (targetd(8))",
                      unit.notes)

    def close(self):
        """Leaves out targets without a disk, and gives each other one a LUN 0."""
        for target in [target for target in self.targets if not target.units]:
            self.targets.remove(target)
            for words in target.notes:
                self.notes.append(f"{target.name}: {words}")
            self.note(target.where, f"the target {target.name} is left out: no disk of it is carried over")
        for target in self.targets:
            first = min(target.units, key=lambda unit: unit.lun)
            if first.lun:
                self.note(target.where, f"LUN {first.lun} is LUN 0 here, as each target has one: paths of hosts that name the "
                          "LUN change", first.notes)
                first.lun = 0

    def listen(self):
        """The address to listen on, with what is to be noted of it."""
        own = [(host, port) for host, port in self.addresses if host.strip("[]") not in ("0.0.0.0", "::", "::0")]
        host, port = own[0] if own else (LOOPBACK, self.addresses[0][1] if self.addresses else PORT)
        if not own:
            self.note("listen", "hosts do not reach 127.0.0.1: name the address of this host that they are to log in at, in "
                      "place of all addresses")
        for other in sorted({*self.addresses} - {(host, port)}):
            self.note("listen", f"the portal {other[0]}:{other[1]} is not carried over: a process has one address")
        return f"[{host.strip('[]')}]:{port}" if ":" in host else f"{host}:{port}"

    def document(self):
        """The configuration, or a refusal if nothing was carried over."""
        self.close()
        if not self.targets:
            raise NotCarried("no target with a disk is carried over")
        listen = self.listen()
        for most in (MOST_COMMENTS, 0):
            document = self.written(listen, most)
            if len(document.encode("utf-8")) <= MOST_BYTES:
                return document
        raise NotCarried(f"the configuration would have more than {MOST_BYTES} bytes")

    def written(self, listen, most):
        """The configuration, with this number of notes at each place at most."""
        lines = [HEAD, *comments(self.notes, most), f"listen = {quoted(listen)}\n", 'log = "-"\n']
        for target in self.targets:
            lines += ["\n", *comments(target.notes, most), "[[target]]\n", f"name = {quoted(target.name)}\n"]
            for unit in sorted(target.units, key=lambda one: one.lun):
                held = f"file = {quoted(unit.file)}\n" if unit.file is not None else f"blocks = {unit.blocks}\n"
                lines += ["\n", *comments(unit.notes, most), "[[target.unit]]\n", f"lun = {unit.lun}\n", 'kind = "disk"\n',
                          f"serial = {quoted(unit.serial)}\n", held]
        return "".join(lines).rstrip("\n")


def comments(notes, most):
    """The first of these notes as comments, and how many others there are."""
    others = len(notes) - most
    return [*(f"# note: {words}\n" for words in notes[:most]),
            *([f"# note: {others} more are told on standard error alone\n"] if others > 0 else [])]
