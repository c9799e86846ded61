"""The Debian package: its control data and its files."""

import email.utils
import hashlib
import os
import re
import subprocess
from pathlib import Path

from packing import files
from packing.built import TOP, Unfit, depends, version

REVISION, ARCHITECTURE = 1, "amd64"
MAINTAINER = "Pitsagul maintainers <maintainers@users.noreply.pitsagul.example>"
SOURCES = TOP / "install/debian"
DOC = "usr/share/doc/targetd"
SCRIPTS = ("postinst", "prerm", "postrm")
CONFFILE = "etc/targetd.toml"


def number():
    """The version of the package."""
    return f"{version()}-{REVISION}"


def changelog(moment):
    """The changelog of the package: the release, whose changes the changelog of the program tells."""
    return (f"targetd ({number()}) stable; urgency=medium\n\n  * Release {version()}: changelog.gz beside this file says what "
            f"is new.\n\n -- {MAINTAINER}  {email.utils.formatdate(moment)}\n").encode("ascii")


def add_files(folder, program, origin, moment):
    """Puts the files of the package below a folder."""
    files.installed(program, "/usr", folder)
    files.pack_pages(folder)
    files.name_python(folder)
    files.put(folder / CONFFILE, (SOURCES / "targetd.toml").read_bytes())
    files.put(folder / DOC / "built-from", origin)
    files.put(folder / DOC / "copyright", (SOURCES / "copyright").read_bytes())
    files.put(folder / DOC / "changelog.gz", files.packed((TOP / "CHANGELOG.md").read_bytes()))
    files.put(folder / DOC / "changelog.Debian.gz", files.packed(changelog(moment)))
    files.put(folder / "usr/share/lintian/overrides/targetd", (SOURCES / "lintian-overrides").read_bytes())


def control(program, size):
    """The fields of the package."""
    fields = {"VERSION": number(), "ARCHITECTURE": ARCHITECTURE, "MAINTAINER": MAINTAINER, "SIZE": size,
              "DEPENDS": depends(program)}
    text = (SOURCES / "control.in").read_text(encoding="utf-8")
    return re.sub("@([A-Z]+)@", lambda found: str(fields[found[1]]), text).encode("utf-8")


def sums(folder):
    """The MD5 of each file, as dpkg keeps them."""
    paths = [path for path in files.all_below(folder) if path.is_file() and not path.is_symlink()]
    return "".join(f"{hashlib.md5(path.read_bytes()).hexdigest()}  {path.relative_to(folder)}\n" for path in paths
                   if str(path.relative_to(folder)) != CONFFILE).encode("ascii")


def package(program, origin, moment, room, out):
    """Makes the package, with the lines that say what the program was built from. Gives its path."""
    folder, path = room / "debian", out / f"targetd_{number()}_{ARCHITECTURE}.deb"
    add_files(folder, program, origin, moment)
    data = {"control": control(program, files.size_of(folder)), "conffiles": f"/{CONFFILE}\n".encode("ascii"),
            "md5sums": sums(folder)}
    for name, content in data.items():
        files.put(folder / "DEBIAN" / name, content)
    for name in SCRIPTS:
        files.put(folder / "DEBIAN" / name, (SOURCES / name).read_bytes(), executable=True)
    files.settle(folder, moment)
    made = room / "package.deb"
    try:
        ended = subprocess.run(["dpkg-deb", "--root-owner-group", "-Zxz", "-z9", "--build", folder, made], capture_output=True,
                               env={**os.environ, "SOURCE_DATE_EPOCH": str(moment), "DPKG_DEB_THREADS_MAX": "1"}, text=True,
                               check=False)
    except OSError as error:
        raise Unfit(f"dpkg-deb cannot be run: {error.strerror}") from None
    if ended.returncode:
        raise Unfit(f"dpkg-deb: {ended.stderr.strip()}")
    path.write_bytes(made.read_bytes())
    return path
