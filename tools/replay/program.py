"""Runs targetd on a case: in a fresh folder, and never for longer than a time limit."""

import subprocess
import tempfile
import threading
from contextlib import contextmanager
from pathlib import Path
from typing import NamedTuple

from running.patience import LIMIT

REDIRECTIONS = {("stdin", "folder"): "<.", ("stdin", "closed"): "<&-",
                ("stdout", "full"): ">/dev/full", ("stdout", "closed"): ">&-"}


class Ended(NamedTuple):
    """How a run ended."""
    stdout: bytes
    stderr: bytes
    status: int


class TimeLimit(Exception):
    """The program did not end."""


@contextmanager
def folder_with(files):
    """A fresh folder with these files."""
    with tempfile.TemporaryDirectory(prefix="targetd-") as folder:
        for name, content in files.items():
            (Path(folder) / name).write_bytes(content)
        yield folder


def command(program, run):
    """The program and its words, its name and its streams, as `subprocess` takes them."""
    redirected = " ".join(REDIRECTIONS[stream] for stream in run.streams.items())
    if redirected:
        return {"args": ["sh", "-c", f'exec "$@" {redirected}', "sh", program, *run.words]}
    name = bytes(program) if run.name is None else run.name
    return {"args": [name, *run.words], "executable": program}


def at_once(program, run, count, **settings):
    """Runs the first lines of a case, which are all there from the beginning."""
    return lines_at_once(program, run, [step.sent for step in run.steps[:count]], **settings)


def lines_at_once(program, run, lines, **settings):
    """Runs a case on these lines, which are all there from the beginning."""
    sent = b"".join(lines)
    with folder_with(run.files) as folder, tempfile.TemporaryFile() as given:
        given.write(sent)  # a pipe would take it in pieces, each of which wakes the program
        given.seek(0)
        try:
            ended = subprocess.run(**command(program, run), **settings, stdin=given, cwd=folder,
                                   capture_output=True, timeout=LIMIT, check=False)
        except subprocess.TimeoutExpired:
            raise TimeLimit from None
    return Ended(ended.stdout, ended.stderr, ended.returncode)


def line_by_line(program, run):
    """Runs a case as a dialogue: a line is sent once all that must be printed before it is there."""
    with folder_with(run.files) as folder:
        process = subprocess.Popen(**command(program, run), cwd=folder, bufsize=0,
                                   stdin=subprocess.PIPE, stdout=subprocess.PIPE,
                                   stderr=subprocess.PIPE)
        late = threading.Event()
        timer = threading.Timer(LIMIT, lambda: (late.set(), process.kill()))
        timer.start()
        try:
            printed = b"".join(said(process, step) for step in run.steps)
            stdout, stderr = process.communicate()
        finally:
            timer.cancel()
            process.kill()
            process.wait()
    if late.is_set():
        raise TimeLimit
    return Ended(printed + (stdout or b""), stderr, process.returncode)


def said(process, step):
    """Sends one line, and gives as many bytes as must be printed after it."""
    unsent = memoryview(step.sent)
    try:
        while unsent:
            unsent = unsent[process.stdin.write(unsent):]  # one write may take less than it is given
    except BrokenPipeError:
        return b""
    if not step.sent.endswith(b"\n"):
        process.stdin.close()
        process.stdin = None
    printed = b""
    while len(printed) < len(step.printed):
        piece = process.stdout.read(len(step.printed) - len(printed))
        if not piece:
            break
        printed += piece
    return printed
