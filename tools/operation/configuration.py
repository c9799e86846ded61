"""What is wrong with a configuration of targetd, each fault at its line and key (targetd.toml(5))."""

import difflib
import os
import re
from pathlib import Path
from typing import NamedTuple

from operation import trying
from operation.file_locks import holders, is_served_by, is_taken, words_of
from operation.toml_lines import NotToml, read

MOST_BYTES = 1_048_576
MOST_TARGETS, MOST_UNITS, MOST_LUN = 8, 16, 255
MOST_LISTEN, MOST_NAME, MOST_SERIAL = 253, 223, 32
MOST_BLOCKS, MOST_CAPACITY = 1_048_576, 34_359_738_360
KEYS = {"the configuration": ["listen", "log", "target"], "target": ["name", "unit"],
        "disk": ["lun", "kind", "serial", "blocks", "file"],
        "tape": ["lun", "kind", "serial", "capacity", "early", "file"]}
EXAMPLE_SERIAL = "EXAMPLE1"
# The forms of the name of a target: its domain begins with a letter or a digit, and a colon stands before what the owner adds.
NAME = re.compile(r"iqn\.[0-9]{4}-(?:0[1-9]|1[0-2])\.[a-z0-9][^:,]*(?::[^,]*)?|eui\.[0-9a-f]{16}|naa\.(?:[0-9a-f]{16}|[0-9a-f]{32})")
STANDARD_ERROR = "-"


class Told(NamedTuple):
    """Something to tell. `fault`: the number that the program gives, "socket", "device", or nothing if it
    takes the configuration all the same."""
    line: int
    fault: object
    words: str


class Place(NamedTuple):
    """A table of the document, and how it is named."""
    table: object
    name: str
    line: int


class Configuration:
    """Goes through the document of the file at a path, and tells what is wrong with it. Files are looked for from a
    folder."""

    def __init__(self, path, folder):
        self.path, self.folder = path, folder
        self.told = []
        self.names, self.files, self.inodes, self.serials = {}, {}, {}, {}
        self.in_memory = 0

    def tell(self, line, fault, words):
        """Something is to be told."""
        self.told.append(Told(line, fault, words))

    # ---- the types of fields

    def field(self, place, key, kind):
        """The value of a field that is needed, or nothing if a fault was told."""
        value = place.table.held.get(key)
        if value is None:
            self.tell(place.line, 3, f'{place.name}: "{key}" is missing')
        elif value.kind != kind:
            self.tell(place.table.lines[key], 3,
                      f'{place.name}: "{key}" is to be {article(kind)}, and is {article(value.kind)}')
        else:
            return value.held
        return None

    def number(self, place, key, least, most):
        """A number within its range, or nothing if a fault was told."""
        number = self.field(place, key, "integer")
        if number is None or least <= number <= most:
            return number
        self.tell(place.table.lines[key], 3, f'{place.name}: "{key}" is {number}, and not from {least} to {most}')
        return None

    def named(self, place, key, most):
        """A text that may be a name, or nothing if a fault was told."""
        name = self.field(place, key, "text")
        if name is None:
            return None
        line = place.table.lines[key]
        if not name or "\0" in name:
            self.tell(line, 3, f'{place.name}: "{key}" {"has a zero byte" if name else "is empty"}')
        elif len(name.encode()) > most:
            self.tell(line, 4, f'{place.name}: "{key}" has {len(name.encode())} bytes, and more than {most}')
        else:
            return name
        return None

    def tables(self, place, key, name, most):
        """The tables of an array."""
        elements = self.field(place, key, "array") or []
        for number, element in enumerate(elements, 1):
            if element.kind != "table":
                self.tell(element.line, 3,
                          f"{name.format(number)}: it is to be a table, and is {article(element.kind)}")
        if len(elements) > most:
            self.tell(elements[most].line, 4, f"{name.format(most + 1)}: there are more than {most}")
        return [Place(element, name.format(number), element.line)
                for number, element in enumerate(elements, 1) if element.kind == "table"]

    def unread(self, place, keys):
        """Keys that nothing reads."""
        for key in sorted(set(place.table.held) - set(keys)):
            near = difflib.get_close_matches(key, keys, 1)
            self.tell(place.table.lines[key], None, f'{place.name}: nothing reads "{key}"'
                      + (f': is "{near[0]}" meant?' if near else ""))

    def twice(self, seen, key, place, field, words, fault=5):
        """One value in two places."""
        line = place.table.lines[field]
        if key in seen:
            self.tell(line, fault, f"{place.name}: {words}, as at line {seen[key]}")
        else:
            seen[key] = line

    # ---- the document

    def document(self, root):
        """The whole document."""
        place = Place(root, "the configuration", 1)
        listen = self.named(place, "listen", MOST_LISTEN)
        if listen is not None:
            self.listen(listen, root.lines["listen"])
        for target in self.tables(place, "target", "target {}", MOST_TARGETS):
            self.target(target)
        self.memory(root)
        self.log(place)
        self.unread(place, KEYS["the configuration"])

    def memory(self, root):
        """The memory that units take at the start."""
        if self.in_memory > trying.memory():
            self.tell(root.lines["target"], None, f"units in memory take {self.in_memory} bytes at the start, and this machine has "
                      f"{trying.memory()}")

    def listen(self, listen, line):
        """The address to listen on, which hosts that discover the targets are told."""
        address = trying.address_in(listen)
        if address is None:
            self.tell(line, "socket", f'"listen" is "{listen}", and no address with a port, as "127.0.0.1:3260" or '
                      '"[::1]:3260": names are not looked up')
            return
        if address.host.is_unspecified:
            self.tell(line, None, f'"listen" is "{listen}", which discovery tells: no other host can log in by it. '
                      f"Name an address of this host{trying.own_addresses(address)}")
        error = trying.bind_error(address)
        if error:
            words, processes = trying.unbound(address, error)
            self.taken(line, "socket", f'"listen" is "{listen}", {words}', processes)

    def taken(self, line, fault, words, processes):
        """Processes have what is wanted, which is as it should be if they serve this configuration."""
        if processes and all(is_served_by(process, self.path) for process in processes):
            self.tell(line, None, f"{words}, which serves this configuration")
        else:
            self.tell(line, fault, words)

    def log(self, place):
        """Where the log is written to. Another value than a text is not looked at."""
        value = place.table.held.get("log")
        if value is None:
            return
        line = place.table.lines["log"]
        if value.kind != "text":
            self.tell(line, None, f'{place.name}: "log" is no text, so there is no log')
        elif not value.held:
            self.tell(line, "stream", f'{place.name}: "log" is empty, and no path')
        elif value.held != STANDARD_ERROR:
            fault = trying.log_fault(os.path.join(self.folder, value.held), self.inodes)
            if fault:
                self.tell(line, "stream", f'the log "{value.held}"{self.tried(value.held)} {fault}')

    def tried(self, path):
        """In which folder a path was tried that names none of its own, in words."""
        return "" if Path(path).is_absolute() else f", tried in {Path(self.folder).resolve()},"

    def target(self, place):
        """A target with its units."""
        name = self.named(place, "name", MOST_NAME)
        if name is not None:
            self.twice(self.names, name, place, "name", f'the name "{name}" comes twice')
            self.spelled(name, place)
        self.units(place)
        self.unread(place, KEYS["target"])

    def spelled(self, name, place):
        """The name of a target, for which initiators ask in lower case and without blanks (RFC 7143 §4.2.7.2), and which some take
        in one of three forms alone (§4.2.7.1)."""
        if not NAME.fullmatch(name.lower()):
            self.tell(place.table.lines["name"], None, f'{place.name}: the name "{name}" is of none of the forms iqn.YYYY-MM.DOMAIN '
                      "with a colon and more, eui.DIGITS and naa.DIGITS, and some initiators take no other")
        found = [what for what, is_there in (("capitals", name != name.lower()), ("blanks", any(map(str.isspace, name))))
                 if is_there]
        if found:
            self.tell(place.table.lines["name"], None, f'{place.name}: the name "{name}" has {" and ".join(found)}, and '
                      "initiators may ask for it in lower case and without blanks alone")

    def units(self, place):
        """The units of a target. Where the LUN of one cannot be read, it may be 0."""
        luns, units = {}, self.tables(place, "unit", f"unit {{}} of {place.name}", MOST_UNITS)
        are_read = [self.unit(unit, luns) for unit in units]
        value = place.table.held.get("unit")
        if value is not None and value.kind == "array" and are_read.count(True) == len(value.held) and 0 not in luns:
            self.tell(place.line, 6, f'{place.name}: no unit of it has "lun" 0')

    def unit(self, place, luns):
        """A unit, beside the LUNs of its target so far. Whether its own could be read."""
        lun = self.field(place, "lun", "integer")
        if lun is not None and not 0 <= lun <= MOST_LUN:
            self.tell(place.table.lines["lun"], 4, f'{place.name}: "lun" is {lun}, and not from 0 to {MOST_LUN}')
        elif lun is not None:
            self.twice(luns, lun, place, "lun", f"LUN {lun} comes twice in its target")
        self.serial(place)
        kind = self.field(place, "kind", "text")
        if kind == "disk":
            self.disk(place)
        elif kind == "tape":
            self.tape(place)
        elif kind is not None:
            self.tell(place.table.lines["kind"], 3, f'{place.name}: "kind" is "{kind}", and neither "disk" nor "tape"')
        return lun is not None

    def serial(self, place):
        """The serial of a unit. Hosts take two units of one serial for one."""
        serial = self.field(place, "serial", "text")
        if serial is None:
            return
        line = place.table.lines["serial"]
        if not 1 <= len(serial.encode()) <= MOST_SERIAL:
            self.tell(line, 4, f'{place.name}: "serial" has {len(serial.encode())} bytes, and not 1 to {MOST_SERIAL}')
        elif not all(" " <= character <= "~" for character in serial):
            self.tell(line, 4, f'{place.name}: "serial" has a character that is not printable ASCII')
        else:
            if serial == EXAMPLE_SERIAL and serial not in self.serials:
                self.tell(line, None, f'{place.name}: the serial "{serial}" is that of the example, and hosts may take '
                          "two units that have it for one: give each its own")
            self.twice(self.serials, serial, place, "serial",
                       f'the serial "{serial}" comes twice, and hosts may take the two units for one', None)

    def disk(self, place):
        """A disk, in a file or in memory."""
        keys = KEYS["disk"]
        if "file" in place.table.held:
            self.file(place, "disk", trying.disk_fault)
            keys = [key for key in keys if key != "blocks"]
        elif "blocks" in place.table.held:
            self.in_memory += (self.number(place, "blocks", 1, MOST_BLOCKS) or 0) * trying.BLOCK
        else:
            self.tell(place.line, 3, f'{place.name}: "file" or "blocks" is missing')
        self.unread(place, keys)

    def tape(self, place):
        """A tape, in a file or in memory."""
        capacity = self.number(place, "capacity", 1, MOST_CAPACITY)
        most = MOST_CAPACITY if capacity is None else capacity
        self.number(place, "early", 0, most)
        if "file" in place.table.held:
            self.file(place, "tape", lambda file: trying.tape_fault(file, most))
        else:
            self.in_memory += capacity or 0
        self.unread(place, KEYS["tape"])

    def file(self, place, kind, fault_in):
        """The file of a unit of a kind, tried as the program opens it, and what `fault_in` it is told of its content."""
        path = self.field(place, "file", "text")
        if path is None:
            return
        line = place.table.lines["file"]
        self.twice(self.files, path, place, "file", f'the file "{path}" comes twice')
        if not path:
            self.tell(line, "device", f'{place.name}: "file" is empty, and no path')
            return
        name = f'{place.name}: the file "{path}"{self.tried(path)}'
        try:
            with open(os.path.join(self.folder, path), "r+b", buffering=0) as file:
                self.opened(file, path, line, name, kind, fault_in)
        except (OSError, ValueError) as error:
            self.tell(line, "device", f"{name} cannot be opened for reading and writing: {trying.why(error)}")

    def opened(self, file, path, line, name, kind, fault_in):
        """The file of a unit that could be opened."""
        status = os.fstat(file.fileno())
        first = self.inodes.setdefault((status.st_dev, status.st_ino), path)
        if not is_taken(file):
            processes = holders(file)
            self.taken(line, "device", f"{name} is locked by {words_of(processes)}", processes)
        elif first != path:
            self.tell(line, "device", f'{name} is that of another unit, as "{first}"')
        elif fault := fault_in(file):
            self.tell(line, "device", f"{name} {fault}")
        elif doubt := trying.doubt_of(file, kind == "tape"):
            self.tell(line, None, f"{name} {doubt}")


def article(kind):
    """A kind of value, in words."""
    return f"an {kind}" if kind[0] in "ai" else f"a {kind}"


def explained(contents, path, folder):
    """What is to be told of a configuration with these contents, at a path; files are looked for from a folder."""
    if len(contents) > MOST_BYTES:
        return [Told(1, 1, f"the file has {len(contents)} bytes, and more than {MOST_BYTES}")]
    try:
        document = read(contents.decode())
    except UnicodeDecodeError as error:
        return [Told(contents.count(b"\n", 0, error.start) + 1, 2, f"byte {contents[error.start]:02x}h is no UTF-8")]
    except NotToml as fault:
        return [Told(fault.line, 2, str(fault))]
    configuration = Configuration(path, folder)
    configuration.document(document)
    return sorted(configuration.told, key=lambda told: (told.line, str(told.fault)))


def told_of(path, folder="."):
    """What is to be told of the file at this path, from a folder."""
    path = Path(folder, path)
    try:
        contents = path.read_bytes()
    except (OSError, ValueError) as error:
        return [Told(1, 1, f"the file cannot be read: {getattr(error, 'strerror', None) or error}")]
    return explained(contents, path, folder)


def number_of(told):
    """The number of the fault that the program gives, or nothing."""
    return min((one.fault for one in told if isinstance(one.fault, int)), default=None)
