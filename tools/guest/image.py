"""The kernel and the first file system of a Linux guest. They are put together from Debian packages that are
downloaded and unpacked below tools/out, and not installed."""

import re
import shutil
import subprocess
from pathlib import Path

from running import packages
from running.checks import must, succeeds

OUT = Path(__file__).resolve().parents[1] / "out/linux"
KERNEL = "linux-image-amd64"
PROGRAMS = ("busybox-static", "open-iscsi", "sg3-utils", "mt-st", "tar", "e2fsprogs", "dmsetup")
MODULES = ("virtio_pci", "virtio_net", "virtio_blk", "crc32c_generic", "iscsi_tcp", "sd_mod", "st", "sg", "ext4",
           "dm_mod")
# What the packages need only to be installed.
NOT_NEEDED = re.compile(r"perl|^lib(pam|db|gdbm|semanage|sepol|audit)|^(adduser|debconf|dpkg|passwd|udev|usrmerge)$")
# What the guest needs nothing of: what its packages have for people, and what they have for an installed system.
LEFT_OUT = ("usr/share", "usr/include", "var/lib/dpkg", "lib/systemd", "usr/lib/systemd", "boot", "etc/init.d")
DOWNLOAD_LIMIT, UNPACK_LIMIT = 600, 300  # seconds
INIT = """#!/bin/busybox sh
/bin/busybox mkdir -p /proc /sys /dev /run/lock /tmp /mnt
/bin/busybox mount -t proc proc /proc
/bin/busybox --install -s /usr/local/bin
export PATH=/usr/sbin:/usr/bin:/sbin:/bin:/usr/local/bin
mount -t sysfs sysfs /sys
mount -t devtmpfs devtmpfs /dev
for module in $(cat /modules/order); do insmod /modules/$module; done
ip link set lo up
ip link set eth0 up
ip addr add 10.0.2.15/24 dev eth0
ip route add default via 10.0.2.2
iscsid
exec </dev/ttyS1 >/dev/ttyS1 2>&1
stty raw -echo
echo @@ended@@ 0 0
exec sh /dev/ttyS1  # as a script, so that it shows no prompt and echoes nothing
"""
NAME = "iqn.2024-01.com.example:guest"


def closure(names):
    """These packages and all that they need, on a system that has none."""
    none = OUT / "no-packages"
    none.touch()
    said = succeeds("apt-get", "-s", "-o", f"Dir::State::status={none}", "install", "--no-install-recommends",
                    *names, limit=DOWNLOAD_LIMIT)
    found = set(re.findall(r"^Inst (\S+) ", said, re.MULTILINE))
    return sorted(name for name in found if not NOT_NEEDED.search(name))


def kernel_package():
    """The package of the newest kernel."""
    said = succeeds("apt-cache", "depends", KERNEL)
    return re.search(r"Depends: (linux-image-\S+)", said)[1]


def download(names):
    """Fetches packages that are not there yet. Gives their files."""
    folder = OUT / "packages"
    folder.mkdir(exist_ok=True)
    missing = [name for name in names if not list(folder.glob(f"{name}_*.deb"))]
    if missing:
        print(f"downloading {len(missing)} packages", flush=True)
        ran = subprocess.run(["apt-get", "download", *missing], cwd=folder, capture_output=True, text=True,
                             timeout=DOWNLOAD_LIMIT, check=False)
        must(ran.returncode == 0, ran.stderr)
    return [next(folder.glob(f"{name}_*.deb")) for name in names]


def unpack(files, root):
    """Lays the content of packages into a folder."""
    shutil.rmtree(root, ignore_errors=True)
    root.mkdir(parents=True)
    for file in files:
        succeeds("dpkg-deb", "-x", file, root, limit=UNPACK_LIMIT)


def needed_modules(folder):
    """The files of the modules and of those on which they stand, in the order in which they are loaded."""
    files = {file.stem.replace("-", "_"): file for file in folder.rglob("*.ko")}
    order = []

    def need(name):
        if name in files and files[name] not in order:
            below = re.search(rb"\0depends=([^\0]*)\0", files[name].read_bytes())
            for other in below[1].decode().replace("-", "_").split(",") if below and below[1] else []:
                need(other)
            order.append(files[name])
    for name in MODULES:
        need(name)
    return order


def libraries(program):
    """The libraries of a program of this machine, by the paths at which it looks for them."""
    said = succeeds("ldd", program)
    return [Path(path) for path in re.findall(r"(?:=> |^\s*)(/\S+) \(0x", said, re.MULTILINE)]


def make_root(root, kernel, program):
    """Adds to the guest's programs its modules, its first program, a name, and targetd with its libraries."""
    for path in LEFT_OUT:
        shutil.rmtree(root / path, ignore_errors=True)
    modules = root / "modules"
    modules.mkdir()
    order = needed_modules(kernel)
    for file in order:
        shutil.copy(file, modules)
    (modules / "order").write_text("\n".join(file.name for file in order), encoding="ascii")
    (root / "usr/local/bin").mkdir(parents=True, exist_ok=True)
    shutil.copy(program, root / "usr/local/bin/targetd")
    for file in libraries(program):
        if not (root / file.relative_to("/")).exists():
            (root / file.relative_to("/")).parent.mkdir(parents=True, exist_ok=True)
            shutil.copy(file, root / file.relative_to("/"))
    (root / "etc/iscsi").mkdir(parents=True, exist_ok=True)
    (root / "etc/iscsi/initiatorname.iscsi").write_text(f"InitiatorName={NAME}\n", encoding="ascii")
    (root / "etc/passwd").write_text("root:x:0:0:root:/:/bin/sh\n", encoding="ascii")
    (root / "init").write_text(INIT, encoding="ascii")
    (root / "init").chmod(0o755)


def archive(root, file):
    """Makes an archive of a folder, as the kernel takes its first file system."""
    with file.open("wb") as out:
        names = subprocess.run(["find", "."], cwd=root, capture_output=True, check=True).stdout
        subprocess.run([root / "bin/busybox", "cpio", "-o", "-H", "newc"], cwd=root, input=names, stdout=out,
                       stderr=subprocess.DEVNULL, check=True)


def made(program):
    """The files of a kernel and of a first file system with this targetd."""
    OUT.mkdir(parents=True, exist_ok=True)
    if packages.apt(["update"], packages.UPDATE_LIMIT):
        print("the lists of packages are not new", flush=True)
    name = kernel_package()
    root, kernel = OUT / "root", OUT / "kernel"
    unpack(download([name]), kernel)
    unpack(download(closure(PROGRAMS)), root)
    make_root(root, kernel / "lib/modules", program)
    archive(root, OUT / "root.cpio")
    shutil.move(next((kernel / "boot").glob("vmlinuz-*")), OUT / "vmlinuz")
    shutil.rmtree(kernel)  # which is large
    return OUT / "vmlinuz", OUT / "root.cpio"
