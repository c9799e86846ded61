"""The archive for systems without dpkg: what is installed below /usr/local, and a script that puts it there."""

import io
import tarfile

from packing import files
from packing.debian import SOURCES
from packing.built import TOP, version


def added(archive, path, name, moment):
    """Adds a file, a link or a folder to an archive, as root's."""
    one = archive.gettarinfo(path, name)
    one.uid = one.gid = 0
    one.uname = one.gname = "root"
    one.mtime = moment
    if one.isfile():
        with path.open("rb") as file:
            archive.addfile(one, file)
    else:
        archive.addfile(one)


def archive_of(program, origin, moment, room, out):
    """Makes the archive, with the lines that say what the program was built from. Gives its path."""
    name = f"targetd-{version()}-x86_64"
    folder, path, held = room / name, out / f"{name}.tar.gz", io.BytesIO()
    files.installed(program, "/usr/local", folder)
    files.put(folder / "install", (SOURCES / "install-archive").read_bytes(), executable=True)
    for page, data in (("built-from", origin), ("copyright", (SOURCES / "copyright").read_bytes()),
                       ("changelog", (TOP / "CHANGELOG.md").read_bytes())):
        files.put(folder / "usr/local/share/doc/targetd" / page, data)
    files.settle(folder, moment)
    with tarfile.open(fileobj=held, mode="w", format=tarfile.USTAR_FORMAT) as archive:
        for one in files.all_below(folder):
            added(archive, one, one.relative_to(room).as_posix(), moment)
    path.write_bytes(files.packed(held.getvalue()))
    return path
