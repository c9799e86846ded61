"""The addresses of this host, as its kernel lists them (proc(5)): those that other hosts may reach."""

import ipaddress
import re
from pathlib import Path

LOCAL = re.compile(r"\|-- ([0-9.]+)\n(?: +/\d+ .*\n)*? +/32 host LOCAL")
GLOBAL = re.compile(r"^([0-9a-f]{32}) [0-9a-f]+ [0-9a-f]+ 00 ", re.MULTILINE)


def listed(path):
    """What the kernel lists at this path, or nothing."""
    try:
        return Path(path).read_text(encoding="ascii")
    except OSError:
        return ""


def addresses_of_host(version):
    """The addresses of this version of IP, without those that only this host reaches."""
    if version == 4:
        found = map(ipaddress.ip_address, LOCAL.findall(listed("/proc/net/fib_trie")))
    else:
        found = (ipaddress.ip_address(bytes.fromhex(digits)) for digits in GLOBAL.findall(listed("/proc/net/if_inet6")))
    return sorted({address for address in found if not address.is_loopback})
