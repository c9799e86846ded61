"""A root of its own, laid over that of this machine, in which packages are installed and removed. It has processes, mounts and
a network of its own, so that nothing of the machine is touched, and the port of the example is free."""

import fcntl
import json
import os
import shutil
import signal
import socket
import struct
import subprocess
import sys
import tempfile
import time
from contextlib import contextmanager
from pathlib import Path

from packing.built import TOP
from running import packages
from running.patience import LIMIT

RESULTS = "results"
WITHIN = "--within"  # the word by which a check is run once more, in namespaces of its own
NAMESPACES = ["unshare", "--mount", "--pid", "--net", "--fork", "--kill-child", "--mount-proc"]
NEEDED = ("dpkg", "libc6", "passwd", "python3", "init-system-helpers")
SIOCSIFFLAGS, UP = 0x8914, 0x41
ENVIRONMENT = {"PATH": "/usr/local/sbin:/usr/local/bin:/usr/sbin:/usr/bin:/sbin:/bin", "HOME": "/root", "LC_ALL": "C",
               "DEBIAN_FRONTEND": "noninteractive"}


class Skipped(Exception):
    """What a check needs is not on this machine."""


def refusal():
    """Why no root of its own can be made here, or nothing."""
    if os.geteuid() != 0:
        return "this user is not root, who alone installs packages"
    for command in ("dpkg", "unshare", "chroot", "mount"):
        if not shutil.which(command):
            return f"there is no {command}"
    missing = [package for package in NEEDED if not packages.version(package)]
    if missing:
        return f"these Debian packages, of which the root is made, are not installed: {' '.join(missing)}"
    tried = subprocess.run([*NAMESPACES, "true"], capture_output=True, text=True, check=False)
    return f"this user may make no namespaces: {tried.stderr.strip()}" if tried.returncode else None


def enter(program, folder):
    """Runs this check once more in namespaces of its own, with a folder into which it writes its results. Gives them."""
    ended = subprocess.run([*NAMESPACES, sys.executable, sys.argv[0], program, WITHIN, folder], check=False)
    results = folder / RESULTS
    if not results.exists():
        raise OSError(f"it ended with status {ended.returncode} in namespaces of its own")
    return json.loads(results.read_text(encoding="utf-8"))


def raise_loopback():
    """Lets 127.0.0.1 be reached in a network of its own."""
    with socket.socket() as any_socket:
        fcntl.ioctl(any_socket, SIOCSIFFLAGS, struct.pack("16sh", b"lo", UP))


def mount(*words):
    """Mounts something, or skips the check if that cannot be done here."""
    tried = subprocess.run(["mount", *map(str, words)], capture_output=True, text=True, check=False)
    if tried.returncode:
        raise Skipped(f"{words[1]} cannot be mounted: {tried.stderr.strip()}")


class Room:
    """A root in which commands are run."""

    def __init__(self, path):
        self.path = path

    def at(self, path):
        """A path of the root, as it is seen from outside."""
        return self.path / str(path).lstrip("/")

    def run(self, *words, status=0):
        """Runs a command. Gives what it said."""
        ended = subprocess.run(["chroot", self.path, *map(str, words)], stdin=subprocess.DEVNULL, stdout=subprocess.PIPE,
                               stderr=subprocess.STDOUT, text=True, timeout=LIMIT, check=False, env=ENVIRONMENT)
        assert status is None or ended.returncode == status, (words, ended.returncode, ended.stdout[-600:])
        return ended.stdout

    def dpkg(self, *words, status=0):
        """Runs dpkg. Gives what it and the scripts of the package said."""
        return self.run("dpkg", "--force-unsafe-io", *words, status=status)

    def install(self, package, status=0):
        """Installs a package, or upgrades to it."""
        shutil.copy(package, self.at("root"))
        return self.dpkg("--install", f"/root/{Path(package).name}", status=status)

    def version(self):
        """The version of the package that is installed whole, or nothing."""
        found = self.run("dpkg-query", "--show", "--showformat=${db:Status-Status} ${Version}", "targetd", status=None)
        return found.removeprefix("installed ") if found.startswith("installed ") else None

    def calls(self):
        """What systemctl was called with so far."""
        return self.at("run/calls").read_text(encoding="ascii").splitlines() if self.at("run/calls").exists() else []

    def processes(self):
        """The processes that serve, each by its number."""
        found = []
        for folder in Path("/proc").glob("[0-9]*"):
            try:
                words = (folder / "cmdline").read_bytes().split(b"\0")
                if words[0].endswith(b"sbin/targetd") and words[1] == b"serve":
                    found.append(int(folder.name))
            except (OSError, IndexError):
                continue
        return found

    def serve(self, program="/usr/sbin/targetd"):
        """Serves by hand, with the command of the unit. Gives the process."""
        process = subprocess.Popen(["chroot", "--userspec=targetd:targetd", self.path, program, "serve", "--config",
                                    "/etc/targetd.toml"], stdin=subprocess.DEVNULL, stdout=subprocess.PIPE,
                                   stderr=subprocess.DEVNULL, text=True, env=ENVIRONMENT)
        assert process.stdout.readline().startswith("listening on "), process.poll()
        process.stdout.close()
        return process

    def end_all(self):
        """Ends what still serves."""
        for number in self.processes():
            os.kill(number, signal.SIGKILL)
        until = time.monotonic() + LIMIT
        while self.processes() and time.monotonic() < until:
            time.sleep(0.01)


def bare(one, systemd):
    """Takes away what this machine has of targetd, and puts or takes away systemctl."""
    if packages.version("targetd"):
        one.dpkg("--purge", "targetd")
    one.run("userdel", "targetd", status=None)
    one.run("groupdel", "targetd", status=None)
    one.run("sh", "-c", "rm -rf /var/lib/targetd /var/log/targetd /etc/targetd /etc/targetd.toml")
    one.at("usr/sbin/policy-rc.d").unlink(missing_ok=True)
    if systemd:
        one.at("run/systemd/system").mkdir(parents=True)
        one.at("usr/local/sbin").mkdir(parents=True, exist_ok=True)
        shutil.copy(TOP / "tools/packing/systemctl.py", one.at("usr/local/sbin/systemctl"))
    else:
        for command in ("systemctl", "systemd-sysusers", "systemd-tmpfiles"):
            one.at(f"usr/bin/{command}").unlink(missing_ok=True)


@contextmanager
def laid_over(lower):
    """Makes a root that is the one at this path, but for what is written in it."""
    with tempfile.TemporaryDirectory(prefix="targetd-room-") as folder:
        top = Path(folder)
        mount("-t", "tmpfs", "-o", "mode=755", "tmpfs", top)
        one = Room(top / "root")
        try:
            for part in ("root", "upper", "work"):
                (top / part).mkdir()
            mount("-t", "overlay", "-o", f"lowerdir={lower},upperdir={top}/upper,workdir={top}/work", "overlay", one.path)
            if not one.at("var/lib/dpkg/status").exists():
                raise Skipped(f"no packages are installed in {lower}, or its /var is a file system of its own")
            for kind, place in (("proc", "proc"), ("tmpfs", "run"), ("tmpfs", "tmp")):
                mount("-t", kind, kind, one.at(place))
            mount("--bind", "/dev", one.at("dev"))
            yield one
        finally:
            one.end_all()
            subprocess.run(["umount", "--recursive", "--lazy", top], check=False)


@contextmanager
def room(systemd=True):
    """A root that is this machine's but for what is written in it, without targetd."""
    with laid_over("/") as one:
        bare(one, systemd)
        yield one
