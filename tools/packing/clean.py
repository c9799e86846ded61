"""The life of the package in a clean tree of Debian, which has no Python and no systemd: installed by apt-get with what it
depends on, upgraded and purged. The tree is to hold that as downloaded packages, since no network is asked:

    debootstrap --variant=minbase bookworm TREE
    chroot TREE apt-get update
    chroot TREE apt-get install --download-only --yes --no-install-recommends python3
    DEBIAN_TREE=TREE tools/packaging

Without DEBIAN_TREE it is tools/out/debian. Nothing is written to it."""

import os
import shutil
from pathlib import Path

from packing.built import TOP, version
from packing.host import BLOCK, Session, Writer
from packing.lives import BLOCKS, CONFIG, DISKS, block_of_readme
from packing.room import LIMIT, Skipped, laid_over

TREE = Path(os.environ.get("DEBIAN_TREE", TOP / "tools/out/debian")).resolve()
TOOLS = ("explain-config", "import", "mend-tape", "status", "stop")
APT = ("apt-get", "--yes", "--no-install-recommends")


def clean():
    """Lays a root over the tree."""
    if not (TREE / "usr/bin/apt-get").exists():
        raise Skipped("there is no clean tree of Debian: tools/packing/clean.py says how one is made, and DEBIAN_TREE names it")
    return laid_over(TREE)


def installed(one, package):
    """Installs the package by apt-get, or upgrades to it. Gives what was said."""
    shutil.copy(package, one.at("root"))
    said = one.run(*APT, "install", f"/root/{package.name}", status=None)
    if "Unable to fetch some archives" in said:
        raise Skipped(f"{TREE} lacks downloaded packages: tools/packing/clean.py says which")
    assert one.version(), said[-600:]
    return said


def configured(one):
    """Makes the disk and the configuration by the lines of README, and cuts the disk to the blocks that are written."""
    for line in block_of_readme()[1:-1]:  # but for those of apt and systemctl
        one.run("sh", "-ec", line)
    with one.at(f"{DISKS}/disk").open("r+b") as disk:
        disk.truncate(BLOCKS * BLOCK)
    assert one.run("targetd-explain-config", f"/{CONFIG}") == f"/{CONFIG}: targetd takes it\n"


def installs_by_apt_with_nothing_but_what_it_depends_on(package, _):
    with clean() as one:
        said = installed(one, package)
        assert "nothing is served yet" in said and not one.processes(), said[-600:]
        assert one.run("dpkg", "--audit") == one.run("dpkg", "--verify", "targetd") == ""
        assert not one.at("usr/bin/systemctl").exists() and not one.at("usr/bin/ss").exists()
        for tool in TOOLS:
            assert f"targetd-{tool}" in one.run(f"targetd-{tool}", "--help")
        configured(one)
        process = one.serve()
        session = Session().settle(0)
        assert session.told(0, "25000000000000000000", asked=8) == ((BLOCKS - 1).to_bytes(4, "big") + b"\0\0\2\0", 0)
        said = one.run("targetd-status", status=3)  # the log is standard error
        assert "1 of 64 connections" in said and "no journalctl" in said, said
        one.run("targetd-stop", process.pid)
        process.wait(LIMIT)


def upgrades_by_apt_while_a_host_writes_and_purges(package, later):
    with clean() as one:
        installed(one, package)
        configured(one)
        first, writer = one.serve(), Writer(BLOCKS)
        writer.start()
        writer.has_written(200)
        said = installed(one, later)
        assert one.version() == f"{version()}-2" and f"process {first.pid} runs the program from before" in said, said[-600:]
        writer.has_written(200)
        one.run("targetd-stop", first.pid)
        first.wait(LIMIT)
        second = one.serve()
        writer.has_written(200)
        writer.close()
        said = one.run(*APT, "purge", "targetd")
        assert f"process {second.pid} is ended, by targetd-stop" in said and not one.processes(), said[-600:]
        second.wait(LIMIT)
        writer.check(one.at(f"{DISKS}/disk"))
        left = {str(path.relative_to(one.path)) for part in ("etc", "usr", "var/lib", "var/log")
                for path in one.at(part).rglob("*targetd*")}
        assert left == {DISKS} and one.run("dpkg", "--audit") == "", left


CHECKS = [
    installs_by_apt_with_nothing_but_what_it_depends_on,
    upgrades_by_apt_while_a_host_writes_and_purges,
]
