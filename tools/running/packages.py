"""Debian packages that a tool needs and a machine may lack."""

import os
import subprocess

UPDATE_LIMIT, INSTALL_LIMIT = 60, 240  # seconds
APT = ["apt-get", "-o", "Acquire::Retries=1", "-o", "Acquire::http::Timeout=10",
       "-o", "Acquire::https::Timeout=10", "-o", "DPkg::Lock::Timeout=120"]


def version(package):
    """Which version is installed, or nothing."""
    try:
        shown = subprocess.run(["dpkg-query", "--show", "--showformat=${db:Status-Status} ${Version}", package],
                               capture_output=True, text=True, check=False)
    except OSError:
        return ""
    status, _, number = shown.stdout.partition(" ")
    return number if status == "installed" else ""


def install(packages):
    """Installs those that are missing. Gives why that could not be done, or nothing."""
    missing = [package for package in packages if not version(package)]
    if not missing:
        return ""
    print(f"installing {' '.join(missing)}", flush=True)
    words = ["install", "-y", "--no-install-recommends", *missing]
    if not apt(words, INSTALL_LIMIT):
        return ""
    return apt(["update"], UPDATE_LIMIT) or apt(words, INSTALL_LIMIT)


def apt(words, limit):
    """Runs apt-get. Gives what it said last if it failed, or nothing."""
    try:
        ran = subprocess.run([*APT, *words], capture_output=True, text=True, timeout=limit, check=False,
                             stdin=subprocess.DEVNULL,
                             env={**os.environ, "DEBIAN_FRONTEND": "noninteractive"})
    except OSError as error:
        return str(error)
    except subprocess.TimeoutExpired:
        return f"apt-get {words[0]} took more than {limit} seconds"
    lines = (ran.stderr or ran.stdout).strip().splitlines()
    return (lines or ["apt-get failed"])[-1] if ran.returncode else ""
