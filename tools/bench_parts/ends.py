"""The ends of a measurement: servers, the initiator of tools/bench_parts/ask.c, and what its commands cost a server."""

import shutil
import signal
import subprocess
import sys
import tempfile
import time
from contextlib import ExitStack, contextmanager
from functools import partial
from pathlib import Path
from typing import NamedTuple
from urllib.parse import urlsplit

from bench_parts import tgt
from bench_parts.rows import Aims
from running.server import listening, targetd

TOP = Path(__file__).resolve().parents[2]
LIMIT = 120  # seconds that one program may take
BLOCK = 512
SIZE = 64 << 20  # bytes that each disk has
# A server is waited for until it has worked for no more than this share of a pause, but no longer than these seconds.
IS_IDLE, PAUSE, SETTLED = 0.01, 0.1, 10


class Served(NamedTuple):
    """A server that is measured, and the unit that is asked."""
    pid: int
    port: int
    target: str = "t1"
    lun: int = 0


class Seen(NamedTuple):
    """What was seen of a server that was asked: a figure each, or a list of those of all rounds."""
    rate: float  # commands each second
    cost: float  # microseconds of the server's processors for each
    median: float  # microseconds from a command to its answer
    late: float  # one in a hundred takes longer


def ran(*words):
    """What a program printed."""
    return subprocess.run(words, capture_output=True, text=True, errors="replace", check=True, timeout=LIMIT).stdout


def processor_seconds(pid):
    """How long all threads of a process have worked, to the nanosecond."""
    files = Path(f"/proc/{pid}/task").glob("*/schedstat")
    return sum(int(file.read_text(encoding="ascii").split()[0]) for file in files) / 1e9


def resident(pid):
    """How many bytes of memory a process has, counted page by page (proc(5))."""
    lines = Path(f"/proc/{pid}/smaps_rollup").read_text(encoding="ascii").splitlines()
    return next(int(line.split()[1]) * 1024 for line in lines if line.startswith("Rss:"))


def settle(pid):
    """Waits until a server has nothing more to do."""
    until = time.monotonic() + SETTLED
    while True:
        before = processor_seconds(pid)
        time.sleep(PAUSE)
        if processor_seconds(pid) - before <= IS_IDLE * PAUSE:
            return
        if time.monotonic() > until:
            print(f"tools/bench: process {pid} works on for {SETTLED} seconds, with nothing to do", file=sys.stderr)
            return


def units(*tables):
    """The units of a configuration, each a kind and how it is kept, with LUNs from 0 on."""
    listed = ", ".join(f'{{ lun = {lun}, serial = "S{lun}", kind = "{kind}", {keeping} }}'
                       for lun, (kind, keeping) in enumerate(tables))
    return f'[[target]]\nname = "t1"\nunit = [{listed}]\n'


def filled(folder, name, size=SIZE):
    """A disk's file, which has all its blocks."""
    path = Path(folder) / name
    path.write_bytes(bytes(size))
    return path


@contextmanager
def of_targetd(program, those, **settings):
    """targetd with these units."""
    with targetd(program, those, **settings) as server:
        yield Served(server.process.pid, server.port)


@contextmanager
def of_tgt(serving):
    """tgt with a unit that is served so."""
    with serving as (process, url):
        yield Served(process.pid, urlsplit(url).port, tgt.NAME, 1)


class Held:
    """Sessions that are logged in and wait. `asks`: how many R2Ts each may have outstanding for a command."""

    def __init__(self, process):
        self.process = process
        self.asks = int(self.line().split()[-1])

    def line(self):
        """What they say next."""
        line = self.process.stdout.readline()
        if not line:
            raise OSError("sessions that are held are not served")
        return line

    def begin(self):
        """Lets them work."""
        self.process.stdin.write("go\n")
        self.process.stdin.flush()

    def go(self):
        """Lets them work, and gives how many of their commands were answered, in how many seconds, and in how many
        microseconds half of them, all but one in a hundred, and all."""
        self.begin()
        return [float(word) for word in self.line().split()]


class Ends:
    """The programs of both ends, built in a folder."""

    def __init__(self, folder):
        names = ("answer", "ask", "delay", "allocations.so")
        self.answering, self.asking, self.relaying, self.counting = (Path(folder) / name for name in names)
        for program in (self.answering, self.asking, self.relaying, self.counting):
            source = TOP / f"tools/bench_parts/{program.stem}.c"
            shared = ["-shared", "-fPIC"] if program == self.counting else []
            subprocess.run(["gcc", "-O2", "-pthread", *shared, "-o", program, source], check=True)

    @contextmanager
    def plain(self, *words):
        """The plain C program with these words."""
        with listening(self.answering, *words) as server:
            yield Served(server.process.pid, server.port)

    @contextmanager
    def far(self, served, microseconds):
        """A server behind a way on which each direction takes so long."""
        with listening(self.relaying, str(served.port), str(microseconds)) as relay:
            yield served._replace(port=relay.port)

    def words(self, served, load):
        """The words by which the initiator asks a server so."""
        settings = {"port": served.port, "target": served.target, "lun": served.lun, **load}
        return [self.asking, *(f"{name}={value}" for name, value in settings.items())]

    def ask(self, served, **load):
        """Asks a server so."""
        ran(*self.words(served, load))

    @contextmanager
    def held(self, served, **load):
        """Sessions that are logged in, for as long as they are needed."""
        words = self.words(served, {"held": 1, **load})
        with subprocess.Popen(words, stdin=subprocess.PIPE, stdout=subprocess.PIPE, text=True) as process:
            try:
                yield Held(process)
            finally:
                process.kill()

    def seen(self, served, **load):
        """What was seen of a server that was asked so, once all sessions were logged in."""
        with self.held(served, **load) as held:
            before = processor_seconds(served.pid)
            answered, seconds, middle, late, _ = held.go()
            cost = (processor_seconds(served.pid) - before) * 1e6
        return Seen(answered / seconds, cost / max(1, answered), middle, late)

    def calls(self, served, **load):
        """How many calls of the system a server makes for each command, by strace: a list, which is empty if strace
        cannot tell."""
        if not shutil.which("strace"):
            return []
        with self.held(served, **load) as held, tempfile.TemporaryDirectory() as folder:
            told = Path(folder) / "calls"
            words = ["strace", "-f", "-c", "-o", told, "-p", str(served.pid)]
            with subprocess.Popen(words, stderr=subprocess.PIPE) as tracer:
                tracer.stderr.readline()
                answered = held.go()[0]
                tracer.send_signal(signal.SIGINT)
                tracer.wait(LIMIT)
            lines = told.read_text(encoding="ascii").splitlines() if told.exists() else []
            # its last line has the sums, the fourth of which is that of the calls
            return [int(lines[-1].split()[3]) / max(1, answered)] if lines else []


class Pace(NamedTuple):
    """In how many rounds servers take turns, for how long each is asked, and the share of what is sent by number."""
    rounds: int = 5
    milliseconds: int = 400
    share: float = 1

    def of(self, count):
        """How many are sent if this is the whole number."""
        return max(1, int(count * self.share))


class Bench(NamedTuple):
    """What all parts work with."""
    ends: Ends
    aims: Aims
    programs: dict  # each targetd, by what it is called
    has_tgt: bool
    pace: Pace

    def in_turns(self, looks, most=None):
        """What each look found, round by round. There are no more rounds than these, if that is said."""
        found = {name: [] for name in looks}
        for _ in range(min(self.pace.rounds, most or self.pace.rounds)):
            for name, look in looks.items():
                found[name].append(look())
        return found

    def seen_in_turns(self, looks):
        """What was seen in all rounds, figure by figure."""
        return {name: Seen(*zip(*rounds)) for name, rounds in self.in_turns(looks).items()}

    def seen(self, servers, **load):
        """What was seen of each server that was asked so, in turns."""
        timed = {"milliseconds": self.pace.milliseconds, **load}
        return self.seen_in_turns({name: partial(self.ends.seen, served, **timed) for name, served in servers.items()})

    def calls(self, served, **load):
        """How many calls of the system a server makes for each command, in a list that may be empty."""
        return self.ends.calls(served, **{"milliseconds": self.pace.milliseconds // 2, **load})

    @contextmanager
    def targets(self, with_files=False):
        """Each target with a disk, by its name: targetd in memory and, if that is asked for, in a file; and tgt."""
        with tempfile.TemporaryDirectory(dir="/dev/shm") as folder, ExitStack() as stack:
            found = {}
            for name, program in self.programs.items():
                kept = {name: f"blocks = {SIZE // BLOCK}"}
                if with_files:
                    kept[f"{name}, file"] = f'file = "{filled(folder, name)}"'
                for which, keeping in kept.items():
                    found[which] = stack.enter_context(of_targetd(program, units(("disk", keeping))))
            if self.has_tgt:
                found["tgt"] = stack.enter_context(of_tgt(tgt.tgt(filled(folder, "tgt"))))
            yield found
