"""targetd-import: what it carries over of tgt and LIO, what it notes, and what it refuses."""

import copy
import json
import subprocess
import time

from installed_checks.installation import EXPLAIN, IMPORT, LIMIT, installed, ran
from running import server

ACCESS = "whoever reaches the port has the disks"
UUID = "0b5b4a6e-9a17-4c3e-8c55-2f0d1f6c9a10"
NEW = "hosts see another disk"
DIRECTIVES = [  # each in a store, with what is noted of it; nothing if targetd does it anyway
    ("write-cache on", None), ("block-size 512", None), ("device-type disk", None), ("bs-type aio", None),
    ("readonly 0", None),
    ("write-cache off", "write-cache off is not carried over: writes are cached until a host syncs, or asks for FUA"),
    ("vendor_id ACME Inc.", "vendor_id is not carried over"), ("mode_page 8:0:18:0x10", "mode_page is not carried over"),
    ("params thin_provisioning=1", "thin provisioning (params) is not carried over"),
    ("allow-in-use = yes", "allow-in-use is not carried over"),
    ("frobnicate 7", "frobnicate is not known, and is not carried over"),
    ("readonly 1", "is left out: it is read-only, and with targetd each disk can be written"),
    ("block-size 4096", "is left out: its blocks have 4096 bytes, and those of targetd 512"),
    ("device-type tape", "is left out: it is a tape, and no disk"),
    ("bs-type rbd", "is left out: it is kept by rbd, and not in a file or on a block device"),
]
REFUSED = [  # a file, and why nothing of it is carried over
    ("", "no target with a disk is carried over"), ("# nothing\n\n", "no target with a disk is carried over"),
    ("<target t>\n</target>\n", "no target with a disk is carried over"),
    ("<target t>\nbacking-store /d\n", "<target t> of {path}:1 is not closed: the file may be cut off"),
    ("<target t>\n<backing-store /d>\n</target>\n", "{path}:3: </target> closes nothing that is open"),
    ("</target>\n", "{path}:1: </target> closes nothing that is open"),
    ("<target t\nbacking-store /d\n", "{path}:1: this line begins no block: <target t"),
    ("<target t>\nbacking-store /d\n</target>\nlast \\", "ends in a line that goes on, or in a comment: it may be cut off"),
    ("/* <target t>\nbacking-store /d\n</target>\n", "ends in a line that goes on, or in a comment: it may be cut off"),
    ("<target t>\nbacking-store /d\xff".encode("latin-1"), "byte ffh at 27 is no UTF-8"),
    ("{", "line 1: no JSON: it ends too early, and may be cut off"), ("[]", "the document is no object"),
    ("[" * (1 << 20), "no JSON that can be read"), ('{"targets": 7}', "targets is no array"),
    ('{"targets": [7]}', "targets[0] is no object"), ('{"targets": [], "targets": []}', "a member comes twice in one object"),
    ('{"n": ' + "9" * 9999 + "}", "no JSON that can be read"),
    ('{"targets": []}', "no target with a disk is carried over"),
    ("<a" + " " * (1 << 20) + "b\n", "this line begins no block"),
]


def saved(**objects):
    """A saveconfig.json as rtslib 2.1.75 writes it, with one target and one disk in a file."""
    disk = {"aio": False, "alua_tpgs": [{"name": "default_tg_pt_gp"}], "attributes": {"block_size": 512, "emulate_tpu": 0},
            "dev": "/srv/one", "name": "one", "plugin": "fileio", "size": 1 << 20, "write_back": True, "wwn": UUID, **objects}
    group = {"attributes": {"authentication": 0}, "enable": True, "node_acls": [], "parameters": {}, "tag": 1,
             "luns": [{"alias": "0d8a", "alua_tg_pt_gp_name": "default_tg_pt_gp", "index": 0,
                       "storage_object": "/backstores/fileio/one"}],
             "portals": [{"ip_address": "192.168.1.4", "iser": False, "offload": False, "port": 3261}]}
    return {"fabric_modules": [], "storage_objects": [disk],
            "targets": [{"fabric": "iscsi", "tpgs": [group], "wwn": "iqn.2003-01.org.linux-iscsi.h:sn.1"}]}


def imported(top, *contents):
    """What targetd-import prints of files with these contents: its status, its lines, and those on standard error."""
    paths = [top / f"import{number}" for number in range(len(contents))]
    for path, content in zip(paths, contents):
        path.write_bytes(content if isinstance(content, bytes) else
                         (content if isinstance(content, str) else json.dumps(content)).encode("utf-8"))
    status, said, fault = ran(top / IMPORT, *paths)
    return status, said.splitlines(), fault.splitlines()


def notes_of(told):
    """The words that were noted, each once as a comment and once on standard error."""
    _, said, fault = told
    words = [line.partition(": note: ")[2] for line in fault if ": note: " in line]
    comments = [line.removeprefix("# note: ") for line in said if line.startswith("# note: ")]
    assert not said or sorted(comments) == sorted(words) or any("on standard error alone" in line for line in said), words
    return words


def has(notes, words):
    """One of the notes has these words."""
    assert any(words in note for note in notes), (words, notes)


def is_taken_by_explain_config(top, told):
    """What was printed is a configuration in which only files and the address are wrong, if anything."""
    (top / "made.toml").write_text("\n".join(told[1]) + "\n", encoding="utf-8")
    said = ran(top / EXPLAIN, top / "made.toml")[1]
    faults = [line for line in said.splitlines() if ": fault " in line or "nothing reads" in line or "targetd says" in line]
    assert not faults, faults


def carries_over_each_directive_of_tgt_or_notes_it():
    with installed() as top:
        for directive, wanted in DIRECTIVES:
            told = imported(top, f"<target t>\n<backing-store /srv/d>\nscsi_sn S1\n{directive}\n</backing-store>\n"
                            "backing-store /srv/e\n</target>\n")
            notes = notes_of(told)
            assert told[0] == 0 and (wanted is None or any(wanted in note for note in notes)), (directive, told)
            assert ('file = "/srv/d"' in told[1]) == ("left out" not in (wanted or "")), told
            assert wanted or not any(directive.split()[0] in note for note in notes), notes
            is_taken_by_explain_config(top, told)


def reads_a_mebibyte_of_anything_in_a_few_seconds():
    with installed() as top:
        for line in ("backing-store /srv/{}\n", "<backing-store /srv/{}>\nlun 3\n</backing-store>\n", "vendor_id {}\n",
                     "include /none/{}\n", "</target>\n<target {}>\nbacking-store /srv/{}\n", "{}\n", "{} \\\n"):
            lines = [line.format(number, number) for number in range((1 << 20) // len(line.format(7, 7)))]
            began = time.monotonic()
            status, said, _ = imported(top, "<target t>\nbacking-store /srv/d\n" + "".join(lines) + "\n</target>\n")
            assert (status, said.count("[[target]]") > 0) == (0, True), (line, status)
            assert len("\n".join(said)) < 1 << 20, line  # more is no configuration
            assert time.monotonic() - began < LIMIT / 2, line


def notes_who_may_log_in_and_shows_no_secret():
    with installed() as top:
        told = imported(top, "incomingdiscoveryuser d geheim0\nincomminguser x geheim1\n<target t>\nbacking-store /srv/d\n"
                        "incominguser u geheim2\noutgoinguser v geheim3\ninitiator-address 10.0.0.1\n"
                        "incoming geheim4\n</target>\n")
        notes = notes_of(told)
        for words in ("CHAP of discovery", "CHAP (incominguser)", "CHAP (outgoinguser)", "(initiator-address)"):
            has([note for note in notes if ACCESS in note], words)
        has(notes, "incomminguser is not known")
        other = saved()
        other["targets"][0]["tpgs"][0].update(chap_userid="u", chap_password="geheim5", node_acls=[
            {"node_wwn": "iqn.host", "chap_password": "geheim6",
             "mapped_luns": [{"index": 1, "tpg_lun": 0, "write_protect": True}]}])
        more = imported(top, other)
        notes = notes_of(more)
        for words in ("CHAP is not carried over", "ACLs are not carried over (iqn.host)", "(mapped_luns) is not carried over"):
            has(notes, words)
        assert "geheim" not in str([told, more])


def notes_that_a_host_sees_what_it_did_not_see_before():
    everything = [{"index": 0, "tpg_lun": 0, "write_protect": False}, {"index": 1, "tpg_lun": 1, "write_protect": False}]
    with installed() as top:
        for first, second, is_noted in ((everything, everything, False), (everything[:1], everything[1:], True),
                                        (everything, [], True)):
            other = saved()
            group = other["targets"][0]["tpgs"][0]
            group["luns"].append({"index": 1, "storage_object": "/backstores/fileio/two"})
            group["node_acls"] = [{"node_wwn": "iqn.a", "mapped_luns": first}, {"node_wwn": "iqn.b", "mapped_luns": second}]
            noted = [note for note in notes_of(imported(top, other)) if "(mapped_luns) is not carried over" in note]
            assert bool(noted) == is_noted, noted


def leaves_out_a_store_that_names_no_file():
    with installed() as top:
        for objects, words in (({"dev": None}, "its store names no file and no device"), ({"dev": 7}, "names no file"),
                               ({"alua_tpgs": 5}, "alua_tpgs is no array")):
            status, said, fault = imported(top, saved(**objects))
            assert (status, said) == (1, []) and words in "\n".join(fault), (status, said, fault)


def numbers_disks_as_tgt_does_and_gives_each_target_a_lun_0():
    with installed() as top:
        told = imported(top, "<target t>\ndirect-store /dev/b\nbacking-store /srv/c\nbacking-store /srv/d\n</target>\n"
                        "<target u>\n<backing-store /srv/e>\nlun 1\n</backing-store>\n<backing-store /srv/f>\n"
                        "</backing-store>\n</target>\n<target t>\nbacking-store /srv/g\n</target>\n<target v>\n"
                        "<backing-store /srv/h>\nlun 7\n</backing-store>\n<backing-store /srv/i>\nlun 7\n</backing-store>\n"
                        "</target>\n")
        found = [line.split(" = ")[1] for line in told[1] if line.startswith(("lun", "file"))]
        wanted = [0, "/srv/c", 2, "/srv/d", 3, "/srv/g", 4, "/dev/b", 0, "/srv/e", 2, "/srv/f", 0, "/srv/h"]
        assert found == [str(one) if isinstance(one, int) else f'"{one}"' for one in wanted], found
        notes = notes_of(told)
        for words in ("the target t stands before too", "LUN 1 is LUN 0 here", "LUN 7 is LUN 0 here",
                      "the disk /srv/i is left out: LUN 7 stands before it", "/dev/b is a device"):
            has(notes, words)
        is_taken_by_explain_config(top, told)


def follows_includes_and_notes_those_that_it_cannot():
    with installed() as top:
        folder = top / "conf.d"
        folder.mkdir()
        for name in ("a", "b"):
            (folder / f"{name}.conf").write_text(f"<target {name}>\nbacking-store /srv/{name}\n</target>\n", encoding="ascii")
        (folder / "c.conf").write_text(f"include {folder}/c.conf\n<<include a.conf>>\n", encoding="ascii")
        told = imported(top, f"include conf.d/*.conf\nInclude {top}/none.conf\ninclude {top}/none/*.conf\n"
                        f"include {folder}\n")
        assert told[0] == 0 and [line for line in told[1] if line.startswith("name")] == ['name = "a"', 'name = "b"'], told
        notes = notes_of(told)
        for words in (f"{folder}/c.conf is not included: it was read before",
                      f"{top}/none.conf is not included: it is not there",
                      f"{folder}/b.conf is not included: it was read before"):
            has(notes, words)
        (folder / "b.conf").write_bytes(b"\xff")
        assert imported(top, f"include {folder}/*.conf\n")[::2] == (1, [
            f"{top}/import0: {folder}/b.conf: byte ffh at 0 is no UTF-8: nothing is carried over"])


def carries_over_disks_of_lio_and_notes_what_is_otherwise():
    with installed() as top:
        told = imported(top, saved())
        assert told[0] == 0 and 'listen = "192.168.1.4:3261"' in told[1] and 'file = "/srv/one"' in told[1], told
        assert f'serial = "{UUID.replace("-", "")}"' in told[1], told
        has(notes_of(told), NEW)
        is_taken_by_explain_config(top, told)
        for objects, words in (
                ({"attributes": {"emulate_tpu": 1}}, "thin provisioning is not carried over"),
                ({"write_back": False}, "write_back=false is not carried over"),
                ({"frobs": 1}, '"frobs" is not known, as in a newer'),
                ({"attributes": {"block_size": 4096}}, "is left out: its blocks have 4096 bytes"),
                ({"readonly": True}, "is left out: it is read-only"),
                ({"plugin": "pscsi"}, "its store /backstores/fileio/one is not there"),
                ({"dev": "a\0b"}, "is left out: its path is empty"), ({"dev": "\ud800"}, "is left out: its path is empty"),
                ({"wwn": 7}, "it has no serial of 1 to 32"), ({"wwn": "x" * 33}, "it has no serial of 1 to 32")):
            has(notes_of(imported(top, saved(**objects))), words)
        memory = saved(plugin="ramdisk")
        memory["targets"][0]["tpgs"][0]["luns"][0]["storage_object"] = "/backstores/ramdisk/one"
        told = imported(top, memory)
        assert "blocks = 2048" in told[1], told
        has(notes_of(told), "its content is not moved")
        is_taken_by_explain_config(top, told)


def carries_over_one_address_and_notes_the_others():
    with installed() as top:
        for addresses, listen, words in (
                (["10.0.0.1", "10.0.0.2"], "10.0.0.1:3260", ["the portal 10.0.0.2:3260 is not carried over"]),
                (["0.0.0.0"], "127.0.0.1:3260", ["hosts do not reach 127.0.0.1", "the portal 0.0.0.0:3260 is not carried"]),
                (["[::0]", "[fe80::1]"], "[fe80::1]:3260", ["the portal [::0]:3260 is not carried over"]),
                (["h; x"], "127.0.0.1:3260", ["the portal h; x:3260 is not carried over: it is no address"])):
            one = saved()
            one["targets"][0]["tpgs"][0]["portals"] = [{"ip_address": address, "port": 3260} for address in addresses]
            told = imported(top, one)
            assert f'listen = "{listen}"' in told[1], told[1]
            for noted in words:
                has(notes_of(told), noted)
            is_taken_by_explain_config(top, told)


def notes_a_newer_version_and_what_is_above_the_numbers_of_targetd():
    with installed() as top:
        newer = saved()
        newer["version"], newer["targets"][0]["quality"] = 9, {"a": 1}
        notes = notes_of(imported(top, newer))
        has(notes, '"version" is not known, as in a newer version')
        has(notes, '"quality" is not known, as in a newer version')
        many = saved()
        many["storage_objects"], target = [], many["targets"][0]
        many["targets"] = [copy.deepcopy(target) for _ in range(10)]
        for number, one in enumerate(many["targets"]):
            one["wwn"] = f"iqn.x:{number}"
            names = [f"{number}-{lun}" for lun in range(800)]
            one["tpgs"][0]["luns"] = [{"index": lun, "storage_object": f"/backstores/fileio/{name}"}
                                      for lun, name in enumerate(names)]
            many["storage_objects"] += [{"plugin": "fileio", "name": name, "dev": f"/srv/{name}", "wwn": name}
                                        for name in names]
        assert len(json.dumps(many)) > 1 << 20
        began = time.monotonic()
        told = imported(top, many)
        assert time.monotonic() - began < LIMIT / 2
        assert told[0] == 0 and told[1].count("[[target]]") == 8 and told[1].count("[[target.unit]]") == 8 * 16
        notes = notes_of(told)
        has(notes, "iqn.x:8 is left out: a configuration has at most 8")
        has(notes, "/srv/0-16 is left out: a target has at most 16")
        is_taken_by_explain_config(top, told)


def writes_names_so_that_they_are_read_as_they_were():
    names = ['a"b', "a\\b", "a\nb = 7", "a\x7fb", "\u202eb", "Ünit", "#x", "a\u2028[[target]]"]
    with installed() as top:
        for name in names:
            one = saved(dev=f"/srv/{name}")
            one["targets"][0]["wwn"] = f"iqn.x:{name}"
            told = imported(top, one)
            assert told[0] == 0, told
            is_taken_by_explain_config(top, told)
            said = ran(top / EXPLAIN, top / "made.toml")[1]
            assert f'"/srv/{name}"'.partition("\n")[0] in said, said
            status, _, fault = ran(top / "sbin/targetd", "serve", "--config", top / "made.toml")
            assert status == 3 and "\ntargetd: device fault at iqn.x:" in fault, fault


def refuses_what_it_cannot_carry_over_by_a_line():
    with installed() as top:
        for content, why in REFUSED:
            status, said, fault = imported(top, content)
            assert (status, said) == (1, []) and fault[-1].endswith(": nothing is carried over"), (content[:40], fault)
            assert why.format(path=f"{top.resolve()}/import0") in fault[-1], (why, fault[-1])
        whole = json.dumps(saved())
        for length in range(1, len(whole), 31):
            status, said, fault = imported(top, whole[:length])
            assert (status, said) == (1, []), length
        assert imported(top, "<target t>\nbacking-store /srv/d\n</target>\n", whole[:50])[:2] == (1, [])


def takes_its_words_and_tells_what_it_cannot_read():
    with installed() as top:
        assert ran(top / IMPORT)[0] == 2 and ran(top / IMPORT, "--all", "x")[0] == 2
        for path, why in ((top / "none", "No such file or directory"), (top, "Is a directory")):
            assert ran(top / IMPORT, path) == (3, "", f"{path}: it cannot be read: {why}\n")
        (top / "one").write_text("<target t>\nbacking-store /srv/d\n</target>\n", encoding="ascii")
        with open("/dev/full", "w", encoding="ascii") as full:
            ended = subprocess.run([top / IMPORT, top / "one"], stdout=full, stderr=subprocess.PIPE, text=True, timeout=LIMIT,
                                   check=False)
        line = "targetd-import: standard output cannot be written: No space left on device\n"
        assert ended.returncode == 3 and ended.stderr.endswith(line), ended


def serves_a_disk_by_what_it_prints():
    with installed() as top:
        disk = top / "disk"
        disk.write_bytes(bytes(512 * 64))
        told = imported(top, f"<target iqn.x:d>\nbacking-store {disk}\n</target>\n")
        text = "\n".join(told[1]).replace(":3260", f":{server.free_port()}")
        (top / "made.toml").write_text(text + "\n", encoding="utf-8")
        with server.listening(top / "sbin/targetd", "serve", "--config", top / "made.toml") as running:
            assert running.process.poll() is None


CHECKS = [
    carries_over_each_directive_of_tgt_or_notes_it,
    reads_a_mebibyte_of_anything_in_a_few_seconds,
    notes_who_may_log_in_and_shows_no_secret,
    notes_that_a_host_sees_what_it_did_not_see_before,
    leaves_out_a_store_that_names_no_file,
    numbers_disks_as_tgt_does_and_gives_each_target_a_lun_0,
    follows_includes_and_notes_those_that_it_cannot,
    carries_over_disks_of_lio_and_notes_what_is_otherwise,
    carries_over_one_address_and_notes_the_others,
    notes_a_newer_version_and_what_is_above_the_numbers_of_targetd,
    writes_names_so_that_they_are_read_as_they_were,
    refuses_what_it_cannot_carry_over_by_a_line,
    takes_its_words_and_tells_what_it_cannot_read,
    serves_a_disk_by_what_it_prints,
]
