"""Reads the targets.conf of tgt, with the files that it includes, and carries its disks over."""

import glob
import os
import re
from dataclasses import dataclass, field
from pathlib import Path

from operation.carried import NotCarried

MOST_BYTES = 16 << 20  # of a file
MOST_DEEP = 50  # files that include one another
COMMENT = re.compile(r"(?<!\\)#.*")
OPTION = re.compile(r"([^\s=]*)(?:\s*=\s*|\s+|$)(.*)")
STORES = ("backing-store", "direct-store")  # in the order in which tgt numbers them
YES, NO = ("1", "yes", "on", "true"), ("0", "no", "off", "false")
# What a directive says that targetd does anyway.
AS_IT_IS = {"write-cache": ("on", "1", "yes"), "removable": NO, "readonly": NO, "online": YES, "bs-type": ("rdwr", "aio"),
            "block-size": ("512",), "device-type": ("disk",), "allow-in-use": NO, "driver": ("iscsi",),
            "default-driver": ("iscsi",), "ignore-errors": NO, "iSNS": NO}
OF_STORES = ("write-cache", "scsi_id", "scsi_sn", "vendor_id", "product_id", "product_rev", "sense_format", "removable",
             "online", "path", "mode_page", "readonly", "device-type", "bs-type", "bsopts", "bsoflags", "allow-in-use",
             "block-size", "lbppbe", "la_lba", "optimal_xfer_gran", "optimal_xfer_len", "params", "lun")
LEAVES_OUT = {"block-size": "its blocks have {} bytes, and those of targetd 512", "device-type": "it is a {}, and no disk",
              "bs-type": "it is kept by {}, and not in a file or on a block device",
              "readonly": "it is read-only, and with targetd each disk can be written"}
WORDS = {"incominguser": "CHAP (incominguser)", "outgoinguser": "CHAP (outgoinguser)",
         "incomingdiscoveryuser": "CHAP of discovery (incomingdiscoveryuser)",
         "outgoingdiscoveryuser": "CHAP of discovery (outgoingdiscoveryuser)",
         "initiator-address": "the list of hosts (initiator-address)", "initiator-name": "the list of hosts (initiator-name)"}
GLOBAL = ("default-driver", "ignore-errors", "control-port", "iSNS", "iSNSServerIP", "iSNSServerPort", "iSNSAccessControl",
          "incomingdiscoveryuser", "outgoingdiscoveryuser")
OF_TARGETS = ("driver", "controller_tid", "incominguser", "outgoinguser", "initiator-address", "initiator-name", *OF_STORES)


@dataclass
class Block:
    """A block with its directives, each a name, a value and where it stands."""
    kind: str
    name: str
    where: str
    options: list = field(default_factory=list)
    blocks: list = field(default_factory=list)

    def value(self, name):
        """The value of the last directive of a name, or nothing."""
        return next((value for other, value, _ in reversed(self.options) if other == name), None)


def text_of(path):
    """The text of a file."""
    with open(path, "rb") as file:
        data = file.read(MOST_BYTES + 1)
    if len(data) > MOST_BYTES:
        raise NotCarried(f"it has more than {MOST_BYTES} bytes")
    try:
        return data.decode("utf-8")
    except UnicodeDecodeError as error:
        raise NotCarried(f"byte {data[error.start]:02x}h at {error.start} is no UTF-8") from None


def unquoted(value):
    """A value without the quotes round it."""
    return value[1:-1] if len(value) > 1 and value[0] == value[-1] and value[0] in "\"'" else value


def included(line):
    """What an include names, or nothing if the line is none."""
    words = (line[2:-2] if line.startswith("<<") and line.endswith(">>") else line).split(None, 1)
    return unquoted(words[1].strip()) if len(words) == 2 and words[0].lower() in ("include", "includeoptional") else None


class Reader:
    """Reads files with those that they include into one tree of blocks."""

    def __init__(self, carried):
        self.carried, self.root = carried, Block("", "", "")
        self.open, self.seen, self.deep = [self.root], set(), 0

    def file(self, path, text):
        """Reads a file, whose blocks are all closed in it."""
        depth, waiting, in_comment = len(self.open), [], False
        self.seen.add(path)
        self.deep += 1
        for number, line in enumerate(text.split("\n"), 1):
            if in_comment or line.lstrip().startswith("/*"):
                in_comment = "*/" not in line
                continue
            line = COMMENT.sub("", line).replace("\\#", "#").strip()
            waiting.append(line.removesuffix("\\"))
            if line.endswith("\\"):
                continue
            line, waiting = "".join(waiting).strip(), []
            if line:
                self.line(line, f"{path}:{number}", depth)
        if len(self.open) > depth:
            last = self.open[-1]
            raise NotCarried(f"<{last.kind} {last.name}> of {last.where} is not closed: the file may be cut off")
        if waiting or in_comment:
            raise NotCarried(f"{path} ends in a line that goes on, or in a comment: it may be cut off")
        self.deep -= 1

    def line(self, line, where, depth):
        """One line: an include, a block that begins or ends, or a directive."""
        pattern, block = included(line), line[1:-1].strip() if line.startswith("<") and line.endswith(">") else None
        if pattern is not None:
            self.include(pattern, where)
        elif block and block.startswith("/"):
            if len(self.open) == depth or self.open[-1].kind != block[1:].strip().partition(" ")[0]:
                raise NotCarried(f"{where}: <{block[:40]}> closes nothing that is open")
            self.open.pop()
        elif block:
            kind, *name = block.removesuffix("/").split(None, 1)
            begun = Block(kind, unquoted(name[0].strip()) if name else "", where)
            self.open[-1].blocks.append(begun)
            if not block.endswith("/"):
                self.open.append(begun)
        elif line.startswith("<"):
            raise NotCarried(f"{where}: this line begins no block: {line[:40]}")
        else:
            name, value = OPTION.fullmatch(line).groups()
            self.open[-1].options.append((name, unquoted(value.strip()), where))

    def include(self, pattern, where):
        """Reads the files of an include, by the order of their names; a relative one counts from the folder of the file."""
        pattern = os.path.join(os.path.dirname(where.rpartition(":")[0]), pattern)
        found = sorted(glob.glob(pattern))
        if not found and not glob.has_magic(pattern):
            self.carried.note(where, f"the file {pattern} is not included: it is not there")
        for path in found:
            for one in sorted(map(str, Path(path).iterdir())) if os.path.isdir(path) else [path]:
                self.included(os.path.realpath(one), where)

    def included(self, path, where):
        """Reads one file of an include, once."""
        if path in self.seen or self.deep == MOST_DEEP or not os.path.isfile(path):
            why = ("it was read before" if path in self.seen else "it is no file" if self.deep < MOST_DEEP else
                   "files include one another too deep")
            self.carried.note(where, f"the file {path} is not included: {why}")
            return
        try:
            text = text_of(path)
        except OSError as error:
            self.carried.note(where, f"the file {path} is not included: {error.strerror}")
            return
        except NotCarried as why:
            raise NotCarried(f"{path}: {why}") from None
        self.file(path, text)


class Stores:
    """Carries the stores of one target over, as tgt numbers them."""

    def __init__(self, carried, target, blocks):
        self.carried, self.target = carried, target
        self.common = [option for block in blocks for option in block.options if option[0] in OF_STORES]
        self.settings = {name: value for name, value, _ in self.common}
        self.found = []  # each store: its kind, path, own directives and place
        for kind in STORES:
            for block in blocks:
                self.found += [(kind, value, [], where) for name, value, where in block.options if name == kind]
                self.found += [(kind, one.name, self.inside(one), one.where) for one in block.blocks if one.kind == kind]
        self.taken, self.free = {self.number(own) for _, _, own, _ in self.found}, 1

    def inside(self, block):
        """The directives of a store; a block inside it is none of them."""
        for inner in block.blocks:
            self.carried.note(inner.where, f"<{inner.kind} {inner.name}> stands inside a store, and is not carried over",
                              self.target.notes)
        return block.options

    def number(self, own):
        """The LUN that a store names, or nothing."""
        value = {**self.settings, **{name: value for name, value, _ in own}}.get("lun")
        return int(value) if value is not None and re.fullmatch("[0-9]{1,9}", value) else value

    def carry(self):
        """Carries each store over."""
        for kind, path, own, where in self.found:
            lun = self.number(own)
            if lun is None:
                while self.free in self.taken:
                    self.free += 1
                lun, self.free = self.free, self.free + 1
            self.store(kind, path, own, where, lun)
        self.note(self.common, self.target.notes)

    def note(self, options, notes):
        """Notes the directives that are not carried over."""
        for name, value, where in options:
            if name not in ("lun", "scsi_sn") and name not in LEAVES_OUT and value not in AS_IT_IS.get(name, ()):
                self.carried.note(where, words_of(name, value), notes)

    def store(self, kind, path, own, where, lun):
        """Carries one store over, or notes why it is left out."""
        settings = {**self.settings, **{name: value for name, value, _ in own}}
        for name, words in LEAVES_OUT.items():
            if name in settings and settings[name] not in AS_IT_IS[name]:
                self.carried.note(where, f"the disk {path} is left out: {words.format(settings[name])}", self.target.notes)
                return
        unit = self.carried.unit(where, self.target, lun, settings.get("scsi_sn"), path)
        if unit is None:
            return
        if kind == "direct-store":
            self.carried.note(where, "the vendor, product and serial of the device (direct-store) are not carried over",
                              unit.notes)
        self.note(own, unit.notes)


def words_of(name, value):
    """What is noted of a directive. A value that may be a secret is not shown."""
    if name == "params" and "thin" in value:
        return "thin provisioning (params) is not carried over"
    if name == "write-cache":
        return f"write-cache {value} is not carried over: writes are cached until a host syncs, or asks for FUA"
    if name in WORDS:
        return f"{WORDS[name]} is not carried over: whoever reaches the port has the disks"
    if name in OF_TARGETS or name in GLOBAL:
        return f"{name} is not carried over"
    return f"{name} is not known, and is not carried over"


def carry(path, text, carried):
    """Carries over what a targets.conf has."""
    reader = Reader(carried)
    reader.file(os.path.realpath(path), text)
    for name, value, where in reader.root.options:
        if value not in AS_IT_IS.get(name, ()):
            carried.note(where, words_of(name, value))
    targets = {}
    for block in reader.root.blocks:
        if block.kind == "target":
            targets.setdefault(block.name, []).append(block)
        else:
            carried.note(block.where, f"<{block.kind}> is not known, and is not carried over")
    for name, blocks in targets.items():
        carry_target(name, blocks, reader.root.value("default-driver") or "iscsi", carried)


def carry_target(name, blocks, driver, carried):
    """Carries a target over, of which tgt takes all blocks of one name together."""
    drivers = {block.value("driver") or driver for block in blocks}
    if drivers != {"iscsi"}:
        carried.note(blocks[0].where, f"the target {name} is left out: it is served by {', '.join(sorted(drivers))}")
        return
    target = carried.target(blocks[0].where, name)
    if target is None:
        return
    for block in blocks[1:]:
        carried.note(block.where, f"the target {name} stands before too: its disks are those of one target, as with tgt",
                     target.notes)
    for block in blocks:
        for option, value, where in block.options:
            if option not in (*OF_STORES, *STORES) and value not in AS_IT_IS.get(option, ()):
                carried.note(where, words_of(option, value), target.notes)
        for inner in block.blocks:
            if inner.kind not in STORES:
                carried.note(inner.where, f"<{inner.kind}> is not known, and is not carried over", target.notes)
    Stores(carried, target, blocks).carry()
