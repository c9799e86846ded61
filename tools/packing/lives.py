"""The life of the package in a root of its own: installed, served, upgraded, removed and purged."""

import re
import shutil
import signal
import subprocess
import threading

from operation.tape_items import items_of
from packing.built import TOP, version
from packing.host import BLOCK, Gone, Session, Writer
from packing.room import LIMIT, room

BLOCKS = 64  # of the disk that is written to over and over
TAPE = ('\n[[target.unit]]\nlun = 1\nkind = "tape"\nserial = "T1"\nfile = "/var/lib/targetd/tape"\n'
        'capacity = 1000000000\nearly = 1000000000\n')
CONFIG, DISKS = "etc/targetd.toml", "var/lib/targetd"
RECORD = bytes(range(256)) * 256  # 64 KiB


def block_of_readme():
    """The lines by which README installs the package and serves a disk."""
    found = re.findall(r"^```\n(.*?)^```$", (TOP / "README.md").read_text(encoding="utf-8"), re.MULTILINE | re.DOTALL)
    return next(lines for lines in found if lines.startswith("apt install ./targetd_")).splitlines()


def served(one, package, log='"-"'):
    """Installs the package, and serves a disk of the example and a tape."""
    said = one.install(package)
    assert "nothing is served yet" in said, said
    for name, size in (("disk", BLOCKS * BLOCK), ("tape", 0)):
        path = one.at(f"{DISKS}/{name}")
        path.write_bytes(bytes(size))
        one.run("chown", "targetd:targetd", f"/{DISKS}/{name}")
    example = (TOP / "install/targetd.toml").read_text(encoding="utf-8").replace('log = "-"', f"log = {log}")
    one.at(CONFIG).write_text(example.replace("EXAMPLE1", "D1") + TAPE, encoding="ascii")
    assert one.run("targetd-explain-config", f"/{CONFIG}") == f"/{CONFIG}: targetd takes it\n"


def serves_the_lines_of_readme(package, _):
    with room() as one:
        shutil.copy(package, one.at("root"))
        for line in block_of_readme():
            line = re.sub(r"^apt install \./targetd_\S+", f"dpkg --install /root/{package.name}", line)
            one.run("sh", "-ec", line)
        session = Session().settle(0)
        assert session.told(0, "25000000000000000000", asked=8) == (bytes.fromhex("001fffff00000200"), 0)
        serial = session.told(0, "120180002400", asked=36)[0][4:]
        assert re.fullmatch(b"[0-9a-f]{32}", serial), serial
        assert len(one.processes()) == 1 and "enable --now targetd" in one.calls()
        said = one.run("targetd-status", status=3)  # no journal tells who has logged in
        assert "target iqn.2024-01.com.example:disk" in said and "1 of 64 connections" in said, said


def enables_and_serves_nothing_as_it_is_installed(package, _):
    with room() as one:
        one.install(package)
        assert not [call for call in one.calls() if re.search(r"\b(enable|start|restart)\b", call)], one.calls()
        assert not one.processes()
        assert one.run("targetd-explain-config", f"/{CONFIG}") == f"/{CONFIG}: targetd takes it\n"
        assert "listening on" in one.run("targetd", "serve", "--config", f"/{CONFIG}", "--turns", "0")
        owners = one.run("stat", "-c", "%U %G %a", f"/{DISKS}", "/var/log/targetd").splitlines()
        assert owners == ["targetd targetd 700", "targetd targetd 750"], owners
        pages = [path.name for path in one.at("usr/share/man/man8").glob("targetd*")]
        assert len(pages) == 6 and one.run("dpkg", "--verify", "targetd") == "", pages


def keeps_the_disk_of_the_example_as_its_comments_say(package, _):
    """The lines that are commented out in the configuration of the package are those of the example."""
    with room() as one:
        one.install(package)
        path = one.at(CONFIG)
        lines = [line for line in path.read_text(encoding="ascii").splitlines() if line != "target = []"]
        for line in [line.removeprefix("#     ") for line in lines if line.startswith(("#     truncate", "#     chown"))]:
            one.run("sh", "-ec", line)
        path.write_text("\n".join(re.sub(r"^#(?=\S|$)", "", line) for line in lines) + "\n", encoding="ascii")
        said = one.run("targetd-explain-config", f"/{CONFIG}")
        assert said.endswith("targetd takes it\n") and said.count("\n") == 2 and '"EXAMPLE1"' in said, said


def upgrades_while_a_host_writes_and_loses_nothing(package, later):
    with room() as one:
        served(one, package, '"/var/log/targetd/log"')
        one.run("systemctl", "enable", "--now", "targetd")
        before, held, writer = one.processes(), one.at(CONFIG).read_bytes(), Writer(BLOCKS)
        writer.start()
        writer.has_written(200)
        said = one.install(later)
        assert "targetd: targetd.service is restarted, by targetd-stop between two calls" in said, said
        assert "unknown" not in said and "was not restarted" not in said, said
        writer.has_written(200)
        after = one.processes()
        assert len(after) == 1 and after != before and writer.logins == 2, (before, after, writer.logins)
        restarts = [call for call in one.calls() if "restart" in call.split()]
        assert restarts == ["--quiet --system restart targetd.service"], restarts
        assert one.at(CONFIG).read_bytes() == held
        log = one.at("var/log/targetd/log").read_text(encoding="ascii")
        assert log.count("listening on") == 2 and log.count("logged in") == 2, log
        writer.close()
        one.run("systemctl", "stop", "targetd")
        writer.check(one.at(f"{DISKS}/disk"))


def upgrades_while_a_host_writes_a_tape_and_tears_nothing(package, later):
    with room() as one:
        served(one, package)
        one.run("systemctl", "enable", "--now", "targetd")
        session, count = Session().settle(1), 0
        upgrade = threading.Thread(target=one.install, args=(later,))
        upgrade.start()
        try:
            while session.told(1, f"0a00{len(RECORD):06x}00", RECORD)[1] == 0:
                count += 1
        except (OSError, Gone):
            pass
        upgrade.join(LIMIT)
        assert count and one.version() == f"{version()}-2", (count, one.version())
        one.run("systemctl", "stop", "targetd")
        with one.at(f"{DISKS}/tape").open("rb") as tape:
            found = items_of(tape)
        assert not found.fault and found.records in (count, count + 1), (found, count)


def upgrades_and_restarts_nothing_that_is_not_to_or_could_not_come_back(package, later):
    with room() as one:
        served(one, package)
        one.run("systemctl", "enable", "--now", "targetd")
        before, config = one.processes(), one.at(CONFIG).read_text(encoding="ascii")
        drop_in = one.at("etc/systemd/system/targetd.service.d/fenced.conf")
        drop_in.parent.mkdir(parents=True)
        drop_in.write_text("[Service]\nRestart=no\n", encoding="ascii")
        said = one.install(later)
        assert "is not restarted, as it has Restart=no" in said and one.processes() == before, said
        assert f"process {before[0]} runs the program from before" in said, said
        drop_in.unlink()
        one.at(CONFIG).write_text(f"{config}lun = 7\n", encoding="ascii")
        said = one.install(package)
        assert "is not restarted: targetd-explain-config finds a fault" in said and one.processes() == before, said
        one.at(CONFIG).write_text(config, encoding="ascii")
        said = one.install(later)
        assert "is restarted, by targetd-stop" in said and "was not restarted" not in said, said
        after = one.processes()
        assert len(after) == 1 and after != before, (before, after)
        assert not [call for call in one.calls() if call.split()[-2:] == ["start", "targetd.service"]], one.calls()


def ends_what_runs_a_program_from_before_an_upgrade(package, later):
    with room(systemd=False) as one:
        served(one, package)
        process = one.serve()
        one.install(later)
        assert process.poll() is None
        said = one.dpkg("--remove", "targetd")
        assert "is ended, by targetd-stop" in said and process.wait(LIMIT) is not None and not one.processes(), said


def purges_what_is_its_own_and_no_other(package, _):
    with room() as one:
        served(one, package)
        one.at("var/log/targetd/old.log").mkdir()
        one.dpkg("--purge", "targetd")
        assert one.at("var/log/targetd/old.log").is_dir() and one.run("dpkg", "--audit") == ""
        one.run("rm", "-r", "/var/log/targetd")
        one.at("srv/logs").mkdir(parents=True)
        one.at("srv/logs/database.log").touch()
        one.at("var/log/targetd").symlink_to("/srv/logs")
        one.install(package)
        one.dpkg("--purge", "targetd")
        assert one.at("srv/logs/database.log").exists()


def removes_and_purges_and_leaves_the_disks(package, _):
    with room() as one:
        served(one, package, '"/var/log/targetd/log"')
        one.run("systemctl", "enable", "--now", "targetd")
        writer = Writer(BLOCKS)
        Session().settle(0).told(0, f"2a00{5:08x}00000100", writer.content(5))
        content, number = one.at(f"{DISKS}/disk").read_bytes(), one.run("id", "-u", "targetd")
        for log in ("log-20260301.gz", "archive.log", "archive.log.1"):
            one.at(f"var/log/targetd/{log}").touch()
        one.dpkg("--remove", "targetd")
        assert not one.processes() and one.at(CONFIG).exists() and not one.at("usr/share/targetd").exists()
        said = one.dpkg("--purge", "targetd")
        assert "/var/lib/targetd is left" in said, said
        left = {str(path.relative_to(one.path)) for part in ("etc", "usr", "var/lib", "var/log")
                for path in one.at(part).rglob("*targetd*")}
        assert left == {DISKS}, left
        assert sorted(path.name for path in one.at(DISKS).iterdir()) == ["disk", "tape"]
        assert one.at(f"{DISKS}/disk").read_bytes() == content and content[5 * BLOCK:6 * BLOCK] == writer.content(5)
        one.install(package)
        assert one.run("id", "-u", "targetd") == number and one.run("stat", "-c", "%U", f"/{DISKS}/disk") == "targetd\n"
        assert one.run("dpkg", "--audit") == ""


def purges_while_it_serves_without_systemd(package, later):
    with room(systemd=False) as one:
        served(one, package)
        process = one.serve()
        assert "process" in (said := one.install(later)) and "runs the program from before" in said, said
        assert process.poll() is None
        process.send_signal(signal.SIGTERM)
        process.wait(LIMIT)
        process, writer = one.serve(), Writer(BLOCKS)
        session = Session().settle(0)
        for number in range(1, 40):
            assert session.told(0, f"2a00{number:08x}00000100", writer.content(number))[1] == 0
            writer.answered[number] = number
        said = one.dpkg("--purge", "targetd")
        assert "is ended, by targetd-stop between two calls" in said and "still runs" not in said, said
        assert process.wait(LIMIT) == -signal.SIGTERM
        writer.check(one.at(f"{DISKS}/disk"))
        assert not one.at("usr/sbin/targetd").exists() and not one.at(CONFIG).exists()
        assert one.run("getent", "passwd", "targetd").startswith("targetd:")


def installs_beside_a_user_that_is_there_already(package, _):
    for made in (["useradd", "--create-home", "--uid", "4711", "targetd"], ["groupadd", "--gid", "4712", "targetd"],
                 ["useradd", "--no-user-group", "--gid", "users", "--uid", "4711", "targetd"]):
        for systemd in (True, False):
            with room(systemd) as one:
                one.run(*made)
                before = "".join(one.run("getent", kind, "targetd", status=None) for kind in ("passwd", "group"))
                one.at(DISKS).mkdir(mode=0o750, parents=True)
                one.at(f"{DISKS}/disk").write_bytes(b"of before")
                one.install(package)
                after = "".join(one.run("getent", kind, "targetd") for kind in ("passwd", "group"))
                assert set(before.splitlines()) <= set(after.splitlines()), (before, after)
                assert one.at(f"{DISKS}/disk").read_bytes() == b"of before" and one.at(DISKS).stat().st_mode & 0o777 == 0o750


def leaves_all_as_it_was_where_var_is_full(package, later):
    with room() as one:
        served(one, package)
        one.run("systemctl", "enable", "--now", "targetd")
        process, program = one.processes(), one.at("usr/sbin/targetd").read_bytes()
        space = one.path.parent / "var"
        space.mkdir()
        size = sum(path.lstat().st_size // 4096 + 1 for path in one.at("var/lib/dpkg").rglob("*")) * 4 + 4096
        subprocess.run(["mount", "-t", "tmpfs", "-o", f"size={size}k", "tmpfs", space], check=True)
        shutil.copytree(one.at("var/lib/dpkg"), space / "dpkg", symlinks=True)
        subprocess.run(["mount", "--bind", space / "dpkg", one.at("var/lib/dpkg")], check=True)
        with (space / "filler").open("wb", buffering=0) as filler:
            try:
                while True:
                    filler.write(bytes(4096))
            except OSError:
                pass
        said = one.install(later, status=None)
        assert "No space left on device" in said, said
        assert one.processes() == process and one.at("usr/sbin/targetd").read_bytes() == program
        assert Session().settle(0).told(0, "25000000000000000000", asked=8)[1] == 0
        (space / "filler").unlink()
        one.install(later)
        assert one.version() == f"{version()}-2", one.version()
        assert one.processes() != process and len(one.processes()) == 1
        subprocess.run(["umount", one.at("var/lib/dpkg")], check=True)


def installs_the_archive_by_its_script(package, _, archive):
    with room(systemd=False) as one:
        shutil.copy(archive, one.at("root"))
        one.run("tar", "--directory", "/root", "-xzf", f"/root/{archive.name}")
        script = f"/root/targetd-{version()}-x86_64/install"
        assert one.run(script, "--all", status=2) and one.run(script)
        example = one.at("usr/local/share/targetd/targetd.toml").read_text(encoding="ascii")
        one.at(f"{DISKS}/disk").write_bytes(bytes(BLOCK))
        one.at(CONFIG).write_text(example, encoding="ascii")
        assert one.run("targetd-explain-config", f"/{CONFIG}") == f"/{CONFIG}: targetd takes it\n"
        assert re.search('^serial = "[0-9a-f]{16}"$', example, re.MULTILINE), example
        assert one.run("getent", "passwd", "targetd") and one.run(script)
        assert one.at("usr/local/share/targetd/targetd.toml").read_text(encoding="ascii") == example
        shutil.copy(package, one.at("root"))
        said = one.dpkg("--force-confold", "--install", f"/root/{package.name}")
        assert "below /usr/local goes before this one" in said, said[-600:]
        one.run("chown", "targetd:targetd", f"/{DISKS}/disk")
        process = one.serve("/usr/local/sbin/targetd")
        said = one.run(script, "--remove", status=1)
        assert "serves by this program: end it first" in said and one.at("usr/local/bin/targetd-stop").exists(), said
        one.run("targetd-stop", one.processes()[0])
        process.wait(LIMIT)
        one.run(script, "--remove")
        assert not list(one.at("usr/local").rglob("*targetd*")) and one.at(CONFIG).exists() and one.at(f"{DISKS}/disk").exists()


CHECKS = [
    serves_the_lines_of_readme,
    enables_and_serves_nothing_as_it_is_installed,
    keeps_the_disk_of_the_example_as_its_comments_say,
    upgrades_while_a_host_writes_and_loses_nothing,
    upgrades_while_a_host_writes_a_tape_and_tears_nothing,
    upgrades_and_restarts_nothing_that_is_not_to_or_could_not_come_back,
    ends_what_runs_a_program_from_before_an_upgrade,
    purges_what_is_its_own_and_no_other,
    removes_and_purges_and_leaves_the_disks,
    purges_while_it_serves_without_systemd,
    installs_beside_a_user_that_is_there_already,
    leaves_all_as_it_was_where_var_is_full,
    installs_the_archive_by_its_script,
]
