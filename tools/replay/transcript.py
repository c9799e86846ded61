"""Reads a case: what goes into targetd and what must come out. cases/README.md explains the form."""

import re
import shlex
from dataclasses import dataclass, field
from itertools import zip_longest
from pathlib import Path

from wire.notation import check_name, data, number
from wire.pdu import Malformed

CASES = Path(__file__).resolve().parents[2] / "cases"
COMMENT = re.compile(r"""((?:[^#"']|"(?:[^"\\]|\\.)*"|'(?:[^'\\]|\\.)*')*)#.*""")
STREAMS = {"stdin": ("folder", "closed"), "stdout": ("full", "closed")}


@dataclass
class Step:
    """A line of input, and what must be printed after it."""
    line: int
    sent: bytes
    printed: bytes = b""


@dataclass
class Run:
    """One run of the program: `text` is what its words alone have it print."""
    row: str = ""
    name: bytes = None
    words: list = None
    files: dict = field(default_factory=dict)
    streams: dict = field(default_factory=dict)
    text: bytes = b""
    steps: list = field(default_factory=list)
    status: int = None
    stderr: bytes = b""


def cases():
    """Every case of cases/, folder by folder."""
    return sorted(CASES.glob("*/*.case"))


def case(name):
    """The case of this name, in whichever folder it is."""
    path, = CASES.glob(f"*/{name}.case")
    return path


def statements(text):
    """Each statement of a case: the number of its first line, that line, and its indented lines."""
    found = []
    for at, line in enumerate(text.splitlines(), 1):
        comment = COMMENT.fullmatch(line)
        line = (comment[1] if comment else line).rstrip()
        if not line:
            continue
        if not line[0].isspace():
            found.append((at, line, []))
        elif found:
            found[-1][2].append(line.strip())
        else:
            raise Malformed(f"line {at}: it continues nothing")
    return found


def rows(first, indented):
    """What `for` gives its names, row by row."""
    shape = re.fullmatch(r"for (.+?) in(?: (\w+)\.\.(\w+))?", first)
    if not shape or bool(shape[2]) == bool(indented):
        raise Malformed("it is 'for NAME in' with rows below it, or 'for NAME in A..B'")
    names = [name.strip() for name in shape[1].split(";")]
    for name in names:
        check_name(name)
    if shape[2]:
        numbers = range(number(shape[2], {}), number(shape[3], {}))
        if not numbers or len(names) > 1:
            raise Malformed("there are no numbers from A up to B, or several names for them")
        return names, [[str(n)] for n in numbers]
    return names, [columns(row, len(names)) for row in indented]


def columns(row, count):
    """The columns of a row, between semicolons that are not within quotes."""
    parts = re.findall(r"""(?:[^;"']|"(?:[^"\\]|\\.)*"|'(?:[^'\\]|\\.)*')+""", row)
    if len(parts) != count or ";".join(parts) != row:
        raise Malformed(f"{row!r} is not {count} columns")
    return [part.strip() for part in parts]


def read(path):
    """The runs of a case: one, or one for each row of its `for`."""
    found = statements(Path(path).read_text(encoding="utf-8"))
    loops = [statement for statement in found if statement[1].startswith("for ")]
    others = [statement for statement in found if statement not in loops]
    if len(loops) > 1:
        raise Malformed(f"line {loops[1][0]}: there is a 'for' already")
    names, table = [], [[]]
    for at, first, indented in loops:
        names, table = located(at, rows, first, indented)
        for name in names:
            if not any(uses(name, line) for _, head, more in others for line in [head, *more]):
                raise Malformed(f"line {at}: {name} is never used")
    return [run(others, dict(zip(names, row))) for row in table]


def uses(name, line):
    """The name stands in the line."""
    return re.search(rf"\b{name}\b", line)


def located(at, call, *arguments):
    """Calls, and says in a fault at which line."""
    try:
        return call(*arguments)
    except Malformed as fault:
        raise Malformed(f"line {at}: {fault}") from None


def run(found, names):
    """The run of these statements, with these names."""
    row = "; ".join(f"{name} {value}" for name, value in names.items())
    reader = Statements(Run(row=row), dict(names))
    for at, first, indented in found:
        located(at, reader.take, at, " ".join([first, *indented]))
    if reader.run.words is None or reader.run.status is None:
        raise Malformed("it has no line 'words' or no line 'status'")
    return reader.run


def substituted(text, names):
    """The text with each name in it replaced by what it stands for."""
    for name, value in names.items():
        text = re.sub(rf"\b{name}\b", lambda _: value, text)
    return text


class Statements:
    """Takes one statement after the other."""

    def __init__(self, begun, names):
        self.run = begun
        self.names = names

    def take(self, at, line):
        """The statement that begins in this line."""
        word, _, rest = line.partition(" ")
        takers = {"words": self.words, "called": self.called, "config": self.config,
                  "file": self.file, "let": self.let, "stdin": self.stream, "stdout": self.stream,
                  "prints": self.prints, ">": self.sent, "<": self.printed, "status": self.status, "stderr": self.stderr}
        if word not in takers:
            raise Malformed(f"{word!r} is no statement")
        if self.run.status is not None and word != "stderr":
            raise Malformed("only 'stderr' may follow 'status'")
        takers[word](rest.strip(), at if word == ">" else word)

    def words(self, rest, _):
        """The words after the program's name, quoted as in a shell; \\xNN is a byte."""
        if self.run.words is not None:
            raise Malformed("the words are there already")
        self.run.words = words_in(substituted(rest, self.names))

    def called(self, rest, _):
        """The name that the program is called by, which is its path otherwise."""
        self.run.name, = words_in(substituted(rest, self.names))

    def config(self, rest, _):
        """A file of cases/, as it is or with its first OLD replaced by NEW."""
        name, _, change = rest.partition(" ")
        shape = re.fullmatch(r"with (.+) replaced by (.+)", change)
        if change and not shape or not (CASES / name).is_file():
            raise Malformed("it is 'config FILE', or 'config FILE with OLD replaced by NEW'")
        content = (CASES / name).read_bytes()
        if shape:
            old, new = (data(part, self.names) for part in shape.groups())
            if old not in content:
                raise Malformed(f"{name} has no {old!r}")
            content = content.replace(old, new, 1)
        self.keep(name, content)

    def file(self, rest, _):
        """A file with these bytes."""
        name, _, content = rest.partition(" ")
        self.keep(name, data(content, self.names))

    def keep(self, name, content):
        """A file of the folder that the program runs in."""
        if not re.fullmatch(r"[\w.-]+", name) or name in self.run.files:
            raise Malformed(f"{name!r} is no name of a file, or is there already")
        self.run.files[name] = content

    def let(self, rest, _):
        """A name for bytes."""
        name, equals, value = (part.strip() for part in rest.partition("="))
        check_name(name)
        if not equals or name in self.names:
            raise Malformed("it is 'let NAME = DATA', with a new name")
        data(value, self.names)
        self.names[name] = value

    def stream(self, rest, stream):
        """Standard input or standard output is something that fails."""
        if rest not in STREAMS[stream] or stream in self.run.streams:
            raise Malformed(f"{stream} may be {' or '.join(STREAMS[stream])}, once")
        self.run.streams[stream] = rest

    def prints(self, rest, _):
        """A line that the words alone have the program print."""
        self.run.text += (data(rest, self.names) if rest else b"") + b"\n"

    def sent(self, rest, at):
        """A line of input, or one for each piece of the bytes in it."""
        if self.run.steps and not self.run.steps[-1].sent.endswith(b"\n"):
            raise Malformed("the line before it is unended")
        end = b"" if rest.endswith(" unended") else b"\n"
        for line in lines_of(rest.removesuffix(" unended"), self.names):
            self.run.steps.append(Step(at, line + end))

    def printed(self, rest, _):
        """A line that must be printed after the line of input above it."""
        connection, _, printed = rest.partition(" ")
        if not printed or not self.run.steps:
            raise Malformed("it is '< C closed' or '< C DATA', below a line of input")
        text = "closed" if printed == "closed" else data(printed, self.names).hex()
        line = f"{number(connection, self.names)} {text}\n"
        self.run.steps[-1].printed += line.encode()

    def status(self, rest, _):
        """The exit status."""
        self.run.status = number(substituted(rest, self.names), {})

    def stderr(self, rest, _):
        """A line of standard error."""
        if self.run.status is None:
            raise Malformed("'stderr' follows 'status'")
        self.run.stderr += substituted(rest, self.names).encode() + b"\n"


def words_in(text):
    """The words of a text, quoted as in a shell."""
    def byte(digits):
        return bytes.fromhex(digits[1].decode())
    return [re.sub(rb"\\x([0-9a-f]{2})", byte, word.encode()) for word in shlex.split(text)]


def lines_of(rest, names):
    """The lines that a statement `>` stands for, without their newlines."""
    event = re.fullmatch(r"(open|gone) (\w+)", rest)
    if event:
        return [f"{event[1]} {number(event[2], names)}".encode()]
    if not rest.startswith("bytes "):
        return [data(rest, names)]
    cut = re.fullmatch(r"(.*) by (\d+)", rest)
    rest, size = cut.groups() if cut else (rest, None)
    turns = [pieces(part, size, names) for part in re.split(r" and (?=bytes \w+ )", rest)]
    return [line for turn in zip_longest(*turns) for line in turn if line is not None]


def pieces(event, size, names):
    """The lines of `bytes C DATA`, one for each piece of so many bytes, or one for all of them."""
    _, connection, source = f"{event} ".split(" ", 2)
    sent = data(source, names)
    size = int(size or len(sent) or 1)
    starts = range(0, len(sent), size) if sent else [0]
    head = f"bytes {number(connection, names)} "
    return [(head + sent[at:at + size].hex()).encode() for at in starts]
