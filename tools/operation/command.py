"""How an installed tool is called, what it prints, and how it ends if that cannot be written."""

import os
import signal
import sys
from pathlib import Path

USAGE, UNWRITTEN = 2, 3  # exit statuses


class Unwritten(Exception):
    """Standard output cannot be written, as when its disk is full."""


def name():
    """The name by which the tool was called."""
    return Path(sys.argv[0]).name


def drop(stream):
    """Leads a stream to nowhere, so that what it still holds is written without an error."""
    nowhere = os.open(os.devnull, os.O_WRONLY)
    os.dup2(nowhere, stream.fileno())
    os.close(nowhere)


def say(text):
    """Prints lines on standard output at once. Where its reader has ended, they go nowhere."""
    try:
        print(text, flush=True)
    except BrokenPipeError:
        drop(sys.stdout)
    except OSError as error:
        drop(sys.stdout)
        raise Unwritten(f"standard output cannot be written: {error.strerror}") from None


def give(data):
    """Writes bytes on standard output. Where its reader has ended, they go nowhere."""
    try:
        sys.stdout.buffer.write(data)
        sys.stdout.buffer.flush()
    except BrokenPipeError:
        drop(sys.stdout)
    except OSError as error:
        drop(sys.stdout)
        raise Unwritten(f"standard output cannot be written: {error.strerror}") from None


def tell(why):
    """Prints one line on standard error, with the name of the tool in front."""
    print(f"{name()}: {why}", file=sys.stderr)


def is_help(words):
    """The words ask for help, and for nothing else."""
    return words in (["-h"], ["--help"])


def shown(page, installed):
    """The page of a tool, with the name by which it was called in place of that by which it is installed."""
    return page.strip().replace(installed, name())


def refused(why):
    """Tells why the words are not taken. Gives the exit status."""
    tell(f"{why} ('{name()} --help' shows how it is called)")
    return USAGE


def run(main):
    """Runs a tool with its words, and ends with the status that it gives."""
    try:
        sys.exit(main(sys.argv[1:]))
    except Unwritten as why:
        tell(why)
        sys.exit(UNWRITTEN)
    except KeyboardInterrupt:
        sys.exit(128 + signal.SIGINT)
