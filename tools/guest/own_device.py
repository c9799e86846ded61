"""A Linux guest that runs targetd itself, over block devices of its own, and attaches them by its own initiator."""

from guest.attached import LONG, NAME
from running.checks import must

SIZE = 4 << 20  # of each of its two disks
UNITS = """listen = "127.0.0.1:3260"
[[target]]
name = "{name}:own"
unit = [{{ lun = 0, kind = "disk", serial = "OWN0", file = "{device}" }}]
"""
PORTAL = "127.0.0.1:3260"


def attaches(guest, device, size):
    """The guest serves a device of its own and writes to it as a disk that it has attached."""
    guest.says(f"cat > /tmp/own.toml <<'END'\n{UNITS.format(name=NAME, device=device)}END")
    guest.says("targetd serve --config /tmp/own.toml >/tmp/own.log 2>&1 & echo $! > /tmp/own.pid")
    guest.waits_for("cat /tmp/own.log; grep -q listening /tmp/own.log")
    guest.says(f"iscsiadm -m discovery -t sendtargets -p {PORTAL}")
    guest.says(f"iscsiadm -m node -T {NAME}:own -p {PORTAL} --login")
    guest.waits_for("test -b /dev/sda")
    found = guest.says("cat /sys/block/sda/size").strip()
    must(found == str(size // 512), ("its size", found))
    guest.says(f"head -c {size} /dev/urandom > /tmp/image && dd if=/tmp/image of=/dev/sda bs=1M conv=fsync", LONG)
    guest.says("echo 3 > /proc/sys/vm/drop_caches; cmp /tmp/image /dev/sda", LONG)
    guest.says(f"cmp /tmp/image {device}", LONG)
    guest.says("mkfs.ext4 -q -F /dev/sda && mount -t ext4 /dev/sda /mnt && cp -r /etc /mnt && umount /mnt", LONG)
    guest.says(f"iscsiadm -m node -T {NAME}:own -p {PORTAL} --logout")
    guest.says("kill $(cat /tmp/own.pid); wait $(cat /tmp/own.pid); true")
    guest.says(f"mount -t ext4 -o ro {device} /mnt && diff -r /etc /mnt/etc && umount /mnt", LONG)


def serves_a_disk_of_its_own(guest):
    attaches(guest, "/dev/vda", SIZE)


def serves_a_device_of_two_disks(guest):
    """By device-mapper, as LVM makes one."""
    blocks = SIZE // 512
    guest.says(f"printf '0 {blocks} linear /dev/vda 0\\n{blocks} {blocks} linear /dev/vdb 0\\n'"
               " | dmsetup create --noudevsync both && dmsetup mknodes")
    attaches(guest, "/dev/mapper/both", 2 * SIZE)
    guest.says("dmsetup remove --noudevsync both")


CHECKS = [serves_a_disk_of_its_own, serves_a_device_of_two_disks]
