"""The parts of tools/bench that measure tapes: records beside blocks, moves over many records, the opening of a file,
and the memory that a READ takes."""

import os
import struct
import subprocess
import tempfile
import time
from contextlib import ExitStack, contextmanager
from functools import partial
from pathlib import Path

from bench_parts import tgt
from bench_parts.counted import Counted
from bench_parts.ends import BLOCK, filled, of_targetd, of_tgt, ran, settle, units
from bench_parts.rows import FIGURES, OURS, figures, head, ratios, row, spread

MEMORY = "/dev/shm"  # a folder whose files are in memory
RECORD, RECORDS = 65536, 1000
# What a pass is called, its kind, its unit, how much each command asks for, beside what it stands, and the aim.
PASSES = [("WRITE of blocks", "write-on", 0, RECORD, None, None),
          ("WRITE of records", "write-tape", 1, RECORD, "WRITE of blocks", 1.2),
          ("READ of blocks", "read-on", 0, RECORD, None, None),
          ("READ of records", "read-tape", 1, RECORD, "READ of blocks", 1.2),
          ("READ of records, 1 MiB asked for", "read-short", 1, 1 << 20, "READ of records", None),
          ("WRITE of fixed blocks of 512 bytes", "write-fixed", 1, RECORD, "WRITE of records", 1.3),
          ("READ of fixed blocks of 512 bytes", "read-fixed", 1, RECORD, "READ of records", 1.3)]
# One more of a disk in a file: its file has none of the blocks, as that of a tape has none of the records.
NEW_BLOCKS = ("WRITE of blocks that the file has not", "write-on", 0, RECORD, "WRITE of blocks", None)
SMALL, MANY, FEW, MOVE_AIM = 512, 100_000, 10, 1.5
MOVES = {"LOCATE": "locate", "SPACE": "space"}  # what moves a tape, and its kind
FILEMARKS, TURNS = 1 << 24, 3
LONGEST, READ_AIM = 1 << 20, 8


def item(data=b""):
    """A record, or a filemark, as the file of a tape has it."""
    length = struct.pack(">I", len(data))
    return length + data + length


def tape_in(folder, name, content=b"", capacity=0):
    """A tape in a file with this content: how it is kept."""
    path, capacity = Path(folder) / name, max(capacity, len(content))
    path.write_bytes(content)
    return "tape", f'capacity = {capacity}, early = {capacity}, file = "{path}"'


def disk_and_tape(count, folder=None):
    """The units with room for so many records, of fixed blocks too, in memory or in files of a folder."""
    size, capacity = count * RECORD, (BLOCK + 8) * (RECORD // BLOCK) * count
    if folder is None:
        return units(("disk", f"blocks = {size // BLOCK}"), ("tape", f"capacity = {capacity}, early = {capacity}"))
    return units(("disk", f'file = "{filled(folder, "disk", size)}"'), tape_in(folder, "tape", capacity=capacity))


def emptied(file, look):
    """What a look sees of a disk whose file has none of its blocks."""
    size = os.path.getsize(file)
    os.truncate(file, 0)
    os.truncate(file, size)
    return look()


def passes_of(bench, name, program, folder=None):
    """Prints what was seen of a disk and of a tape, in memory or in files of a folder."""
    passes, where = (PASSES, "") if folder is None else ([NEW_BLOCKS, *PASSES], ", in a file")
    with of_targetd(program, disk_and_tape(bench.pace.of(RECORDS), folder)) as served:
        loads = {what: (served._replace(lun=lun), {"kind": kind, "length": length, "count": bench.pace.of(RECORDS)})
                 for what, kind, lun, length, _, _ in passes}
        looks = {what: partial(bench.ends.seen, unit, **load) for what, (unit, load) in loads.items()}
        if folder is not None:
            looks[NEW_BLOCKS[0]] = partial(emptied, Path(folder) / "disk", looks[NEW_BLOCKS[0]])
        bench.in_turns(looks, 1)  # so that all its memory was used before
        found = bench.seen_in_turns(looks)
        for what, _, _, _, other, most in passes:
            unit, load = loads[what]
            times = ratios(found[what].cost, found[other].cost) if other else []
            row(what + where, name, *figures(found[what], bench.ends.calls(unit, **load)),
                f"{spread(times)} times {other}" if other else "",
                bench.aims.judged(f"{what}{where}, {RECORD >> 10} KiB", times, most, f"times {other}")
                if name == OURS else "")


def tape(bench):
    """Blocks of a disk, and records and fixed blocks of a tape, in memory and in files."""
    head(f"{bench.pace.of(RECORDS)} of {RECORD >> 10} KiB, one in flight", "Server", *FIGURES, "Cost", "Aim")
    with tempfile.TemporaryDirectory(dir=MEMORY) as folder:
        for name, program in bench.programs.items():
            passes_of(bench, name, program)
            passes_of(bench, name, program, folder)


@contextmanager
def tapes(bench, count):
    """Each target with a tape of so many small records, by its name, and why tgt has none."""
    content = item(bytes(SMALL)) * count
    with tempfile.TemporaryDirectory(dir=MEMORY) as folder, ExitStack() as stack:
        found, why = {}, "it cannot be installed"
        for name, program in bench.programs.items():
            found[name] = stack.enter_context(of_targetd(program, units(tape_in(folder, name, content))))
        if bench.has_tgt:
            try:
                served = stack.enter_context(of_tgt(tgt.tape(Path(folder) / "tgt", (len(content) >> 20) * 2 + 16)))
                bench.ends.ask(served, kind="write-tape", length=SMALL, count=count)
                found["tgt"] = served
            except (OSError, subprocess.SubprocessError) as error:
                why = str(error)
        yield found, why


def moves_of(bench, name, served, many):
    """What was seen of each move of a target's tape, and its calls, by its name and over how many records it goes."""
    loads = {(what, over): {"kind": kind, "over": over} for what, kind in MOVES.items() for over in (FEW, many)
             if name != "tgt" or what == "SPACE"}
    found = bench.seen_in_turns({move: partial(bench.ends.seen, served, milliseconds=bench.pace.milliseconds, **load)
                                 for move, load in loads.items()})
    return {move: (found[move], bench.calls(served, **load)) for move, load in loads.items()}


def tell_moves(bench, name, found, ours):
    """Prints what was seen of each move, beside LOCATE over few records of the same tape, or beside that of targetd."""
    for (what, over), (seen, calls) in found.items():
        beside = f"LOCATE over {FEW}" if name != "tgt" else OURS
        other = found["LOCATE", FEW] if name != "tgt" else ours[what, over]
        title, times = f"{what} over {over:,}", ratios(seen.cost, other[0].cost)
        most = MOVE_AIM if name == OURS and over != FEW else None
        row(title, name, *figures(seen, calls), f"{spread(times)} times {beside}",
            bench.aims.judged(title, times, most, f"times {beside}"))


def spacing(bench):
    """Moves over few and over many records of a tape in a file."""
    many, ours = bench.pace.of(MANY), None
    head(f"There and back over records of {SMALL} bytes, one in flight", "Server", *FIGURES, "Cost", "Aim")
    with tapes(bench, many + 1) as (targets, why):
        for name, served in targets.items():
            found = moves_of(bench, name, served, many)
            ours = ours or found
            tell_moves(bench, name, found, ours)
    row("LOCATE", "tgt", "it has none" if "tgt" in targets else f"not measured: {why}", *[""] * 6)


def contents(bench):
    """What a tape holds that is opened, in words, its bytes, and the aim in milliseconds."""
    records, filemarks = bench.pace.of(MANY), bench.pace.of(FILEMARKS)
    yield f"{records:,} records of {SMALL} bytes", item(bytes(SMALL)) * records, 50 if records == MANY else None
    yield f"{filemarks:,} filemarks", item() * filemarks, 1000 if filemarks == FILEMARKS else None


def timed(*words):
    """For how many milliseconds a program runs."""
    began = time.monotonic()
    ran(*words)
    return (time.monotonic() - began) * 1e3


def opening(bench):
    """How long a targetd with a tape in a file runs that serves no turn, beside wc, which reads the file by a pipe."""
    head("A tape in a file of", "Program", "Milliseconds", "Times wc", "Aim")
    for what, content, most in contents(bench):
        with tempfile.TemporaryDirectory(dir=MEMORY) as folder:
            config = Path(folder) / "config.toml"
            config.write_text(f'listen = "127.0.0.1:0"\n{units(tape_in(folder, "tape", content))}', encoding="ascii")
            looks = {name: partial(timed, program, "serve", "--config", config, "--turns", "0")
                     for name, program in bench.programs.items()}
            looks["wc -c"] = partial(timed, "sh", "-c", f"cat {folder}/tape | wc -c")
            found = bench.in_turns(looks, TURNS)
        for name, times in found.items():
            row(what, name, spread(times), "" if name == "wc -c" else spread(ratios(times, found["wc -c"])),
                bench.aims.judged(f"The opening of {what}", times, most, "ms") if name == OURS else "")


def taken(bench, program, length):
    """How many KiB a READ of so many bytes takes at the most while it is answered, over a record of a tape."""
    with tempfile.TemporaryDirectory(dir=MEMORY) as folder:
        counted, those = Counted(Path(folder) / "counted"), units(tape_in(folder, "tape", item(bytes(SMALL)) * 2))
        with of_targetd(program, those, **counted.settings(bench.ends.counting)) as served:
            bench.ends.ask(served, kind="read-tape", length=SMALL, count=2)  # so that all buffers were used before
            with bench.ends.held(served, kind="read-short", length=length, count=1) as held:
                settle(served.pid)
                before = counted.begin()
                held.go()
                return (counted.read()[1] - before) / 1024


def reading(bench):
    """What a READ of a tape takes of memory, whatever it asks for."""
    head(f"A READ of a record of {SMALL} bytes which asks for", "Server", "KiB allocated", "Aim")
    for name, program in bench.programs.items():
        for length in (SMALL, LONGEST):
            found = bench.in_turns({length: partial(taken, bench, program, length)}, TURNS)[length]
            row(f"{length:,} bytes", name, spread(found),
                bench.aims.judged(f"A READ of {length:,} bytes over a record of {SMALL}", found, READ_AIM, "KiB")
                if name == OURS and length == LONGEST else "")
