"""Reads the saveconfig.json of LIO (targetcli), and carries its disks over."""

import json
import re

from operation.carried import NotCarried

BLOCK = 512
KNOWN = {"": ("fabric_modules", "storage_objects", "targets"),
         "object": ("name", "plugin", "dev", "size", "wwn", "write_back", "aio", "readonly", "attributes", "alua_tpgs"),
         "target": ("fabric", "tpgs", "wwn"),
         "group": ("attributes", "parameters", "enable", "luns", "node_acls", "portals", "tag", "chap_userid", "chap_password",
                   "chap_mutual_userid", "chap_mutual_password"),
         "lun": ("alias", "index", "storage_object", "alua_tg_pt_gp_name")}
SECRETS = ("chap_userid", "chap_mutual_userid")
# Attributes that have notes of their own, with the value that targetd has anyway.
THIN = ("emulate_tpu", "emulate_tpws")


def members(value, what):
    """A value that is to be an object."""
    if not isinstance(value, dict):
        raise NotCarried(f"{what} is no object: the file is of another form than saveconfig.json")
    return value


def elements(value, what):
    """A value that is to be an array of objects, or is not there."""
    if not isinstance(value, (list, type(None))):
        raise NotCarried(f"{what} is no array: the file is of another form than saveconfig.json")
    return [members(one, f"{what}[{number}]") for number, one in enumerate(value or [])]


def once(pairs):
    """An object, in which no member comes twice."""
    found = dict(pairs)
    if len(found) < len(pairs):
        raise ValueError("a member comes twice in one object")
    return found


def read(text):
    """The document of a text."""
    try:
        return members(json.loads(text, object_pairs_hook=once), "the document")
    except json.JSONDecodeError as error:
        end = "it ends too early, and may be cut off" if error.pos >= len(text.rstrip()) - 1 else error.msg
        raise NotCarried(f"line {error.lineno}: no JSON: {end}") from None
    except (RecursionError, ValueError) as error:
        raise NotCarried(f"no JSON that can be read: {error}") from None


def is_otherwise(mapped):
    """A host sees one of these LUNs by another number, or may not write to it."""
    return any(lun.get("write_protect") or lun.get("index") != lun.get("tpg_lun") for lun in mapped)


class Saved:
    """Goes through a document, and carries over what targetd has."""

    def __init__(self, path, document, carried):
        self.path, self.document, self.carried = path, document, carried
        self.objects = {}

    def note(self, place, words, notes=None):
        """Something is noted of a place of the document."""
        self.carried.note(f"{self.path}: {place}", words, notes)

    def unknown(self, found, kind, place, notes=None):
        """Notes members that no version known here has."""
        for name in sorted(set(found) - set(KNOWN[kind])):
            self.note(place, f'"{name}" is not known, as in a newer version, and is not carried over', notes)

    def carry(self):
        """Carries over each target of iSCSI."""
        self.unknown(self.document, "", "the document")
        for number, one in enumerate(elements(self.document.get("storage_objects"), "storage_objects")):
            path = f"/backstores/{one.get('plugin')}/{one.get('name')}"
            if path in self.objects:
                self.note(f"storage_objects[{number}]", f"the store {path} stands before it, and the last one is taken")
            self.objects[path] = (f"storage_objects[{number}]", one)
        for number, one in enumerate(elements(self.document.get("targets"), "targets")):
            self.target(f"targets[{number}]", one)
        for place, one in self.objects.values():
            self.note(place, f"the store {one.get('name')} is of no disk that is carried over")

    def target(self, place, one):
        """Carries over a target by its first group of portals that is enabled."""
        name, groups = one.get("wwn"), elements(one.get("tpgs"), f"{place}.tpgs")
        if one.get("fabric") != "iscsi":
            self.note(place, f"the target {name} is left out: it is of {one.get('fabric')}, and not of iSCSI")
            return
        enabled = [(f"{place}.tpgs[{at}]", group) for at, group in enumerate(groups) if group.get("enable", True) is not False]
        if not enabled:
            self.note(place, f"the target {name} is left out: no group of portals of it is enabled")
            return
        target = self.carried.target(f"{self.path}: {place}", name)
        if target is None:
            return
        self.unknown(one, "target", place, target.notes)
        for other, group in enabled[1:]:
            self.note(other, "a second group of portals is not carried over: a target has one", target.notes)
        self.group(*enabled[0], target)

    def group(self, place, group, target):
        """Carries over a group of portals: its address and its disks."""
        self.unknown(group, "group", place, target.notes)
        for at, portal in enumerate(elements(group.get("portals"), f"{place}.portals")):
            self.portal(f"{place}.portals[{at}]", portal, target)
        self.access(place, group, target)
        for at, lun in enumerate(elements(group.get("luns"), f"{place}.luns")):
            self.lun(f"{place}.luns[{at}]", lun, target)

    def portal(self, place, portal, target):
        """Keeps the address of a portal, if it is one of TCP."""
        host, port = portal.get("ip_address"), portal.get("port")
        if portal.get("iser") or portal.get("offload"):
            self.note(place, f"the portal {host}:{port} is not carried over: it is of iSER, or offloaded", target.notes)
        elif not isinstance(host, str) or not re.fullmatch(r"[0-9.]{7,15}|\[?[0-9A-Fa-f:.]{2,45}\]?", host) \
                or isinstance(port, bool) or not isinstance(port, int) or not 0 < port < 65536:
            self.note(place, f"the portal {host}:{port} is not carried over: it is no address with a port", target.notes)
        else:
            self.carried.addresses.append((host, port))

    def access(self, place, group, target):
        """Notes who may log in with LIO, and how."""
        attributes = members(group.get("attributes") or {}, f"{place}.attributes")
        acls = elements(group.get("node_acls"), f"{place}.node_acls")
        secrets = [one for one in (group, *acls) if any(one.get(name) for name in SECRETS)]
        if attributes.get("authentication") not in (None, 0, "0") or secrets:
            self.note(place, "CHAP is not carried over: whoever reaches the port has the disks", target.notes)
        if acls:
            names = ", ".join(str(one.get("node_wwn")) for one in acls[:8]) + (", .." if len(acls) > 8 else "")
            self.note(place, f"the ACLs are not carried over ({names}): whoever reaches the port has the disks", target.notes)
        everything = {str(lun.get("index")) for lun in elements(group.get("luns"), f"{place}.luns")}
        mapped = [elements(one.get("mapped_luns"), f"{place}.node_acls[{at}].mapped_luns") for at, one in enumerate(acls)]
        if any(is_otherwise(luns) or {str(lun.get("tpg_lun")) for lun in luns} != everything for luns in mapped):
            self.note(place, "what single hosts see otherwise (mapped_luns) is not carried over: all see the same LUNs, and "
                      "may write", target.notes)
        if attributes or group.get("parameters"):
            self.note(place, "attributes and parameters of sessions are not carried over: targetd negotiates its own",
                      target.notes)

    def lun(self, place, lun, target):
        """Carries over a disk."""
        self.unknown(lun, "lun", place, target.notes)
        index, path = lun.get("index"), lun.get("storage_object")
        found = self.objects.pop(path, None) if isinstance(path, str) else None
        if found is None:
            self.note(place, f"LUN {index} is left out: its store {path} is not there, or of another disk already",
                      target.notes)
            return
        where, one = found
        attributes = members(one.get("attributes") or {}, f"{where}.attributes")
        why = self.refusal(one, attributes)
        if why:
            self.note(place, f"LUN {index} ({one.get('name')}) is left out: {why}", target.notes)
            return
        in_memory = one.get("plugin") == "ramdisk"
        unit = self.carried.unit(f"{self.path}: {place}", target, index, one.get("wwn"), None if in_memory else one.get("dev"),
                                 one["size"] // BLOCK if in_memory else None)
        if unit is not None:
            self.changes(where, one, attributes, unit)

    def refusal(self, one, attributes):
        """Why a store cannot be a disk, or nothing."""
        plugin, size = one.get("plugin"), one.get("size")
        if plugin not in ("fileio", "block", "ramdisk"):
            return f"its store is of {plugin}, and neither a file, a block device nor memory"
        if plugin != "ramdisk" and not isinstance(one.get("dev"), str):
            return "its store names no file and no device"
        if attributes.get("block_size", BLOCK) != BLOCK:
            return f"its blocks have {attributes['block_size']} bytes, and those of targetd {BLOCK}"
        if attributes.get("pi_prot_type"):
            return "its blocks have protection information"
        if one.get("readonly"):
            return "it is read-only, and with targetd each disk can be written"
        if plugin == "ramdisk" and (isinstance(size, bool) or not isinstance(size, int)):
            return "its size is no number"
        return None

    def changes(self, where, one, attributes, unit):
        """Notes what of a store is otherwise."""
        self.unknown(one, "object", where, unit.notes)
        if one.get("plugin") == "ramdisk":
            self.note(where, "it is in memory, and its content is not moved", unit.notes)
        elif one.get("plugin") == "fileio" and one.get("write_back") is False:
            self.note(where, "write_back=false is not carried over: writes are cached until a host syncs, or asks for FUA",
                      unit.notes)
        if any(attributes.get(name) for name in THIN):
            self.note(where, "thin provisioning is not carried over: UNMAP is no command of targetd", unit.notes)
        if attributes.get("force_pr_aptpl"):
            self.note(where, "reservations end with the process, also with APTPL", unit.notes)
        others = sorted(set(attributes) - {"block_size", "pi_prot_type", "force_pr_aptpl", *THIN})
        if others:
            self.note(where, f"other attributes are not carried over: {', '.join(map(str, others))}", unit.notes)
        if len(elements(one.get("alua_tpgs"), f"{where}.alua_tpgs")) > 1:
            self.note(where, "groups of ALUA are not carried over", unit.notes)


def carry(path, text, carried):
    """Carries over what a saveconfig.json has."""
    Saved(path, read(text), carried).carry()
