"""The files of a package, put into a folder by tools/install, with the same bytes, modes and times at each run."""

import gzip
import os
import subprocess
from pathlib import Path

from packing.built import TOP

MODES = {True: 0o755, False: 0o644}
PYTHON = b"#!/usr/bin/env python3\n"


def installed(program, prefix, folder):
    """Installs targetd below a folder and a prefix."""
    subprocess.run([TOP / "tools/install", program, prefix, folder], cwd=TOP, check=True, stdout=subprocess.DEVNULL)


def put(path, data, executable=False):
    """Writes a file, with the folders named in its path."""
    path.parent.mkdir(parents=True, exist_ok=True)
    path.write_bytes(data)
    path.chmod(MODES[executable])


def packed(data):
    """Data as gzip packs it, without a name and a time (gzip -n)."""
    return gzip.compress(data, 9, mtime=0)


def pack_pages(folder):
    """Packs each manual page."""
    for page in sorted(folder.glob("usr/share/man/man*/*")):
        put(page.with_name(f"{page.name}.gz"), packed(page.read_bytes()))
        page.unlink()


def name_python(folder):
    """Lets the tools run by the Python of Debian, whatever the path of who calls them has."""
    for tool in sorted(folder.glob("usr/share/targetd/*")):
        if tool.is_file():
            put(tool, tool.read_bytes().replace(PYTHON, b"#!/usr/bin/python3\n", 1), executable=True)


def all_below(folder):
    """Every file, link and folder below a folder, the folder first, in the order of their paths."""
    return [folder, *sorted(folder.rglob("*"), key=lambda path: path.relative_to(folder).as_posix())]


def settle(folder, moment):
    """Gives all that is below a folder the same modes and times at each run."""
    for path in reversed(all_below(folder)):
        if not path.is_symlink():
            path.chmod(MODES[path.is_dir() or os.access(path, os.X_OK)])
        os.utime(path, (moment, moment), follow_symlinks=False)


def size_of(folder):
    """What the files below a folder take, in KiB, each counted up to the next."""
    return sum(-(-path.lstat().st_size // 1024) for path in all_below(folder) if not path.is_dir() or path.is_symlink())
