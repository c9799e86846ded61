"""PDUs in words: one line each, as a storage engineer would write it."""

from wire import pdu

SENSE_KEYS = {0x0: "NO SENSE", 0x2: "NOT READY", 0x3: "MEDIUM ERROR", 0x4: "HARDWARE ERROR",
              0x5: "ILLEGAL REQUEST", 0x6: "UNIT ATTENTION", 0x7: "DATA PROTECT",
              0x8: "BLANK CHECK", 0xB: "ABORTED COMMAND", 0xD: "VOLUME OVERFLOW",
              0xE: "MISCOMPARE"}
# SPC-4, ASC and ASCQ assignments: those that the target's profile names.
CODES = {
    0x0000: "NO ADDITIONAL SENSE INFORMATION", 0x0001: "FILEMARK DETECTED",
    0x0002: "END-OF-PARTITION/MEDIUM DETECTED", 0x0004: "BEGINNING-OF-PARTITION/MEDIUM DETECTED",
    0x0005: "END-OF-DATA DETECTED", 0x0C00: "WRITE ERROR", 0x1100: "UNRECOVERED READ ERROR",
    0x1A00: "PARAMETER LIST LENGTH ERROR", 0x1D00: "MISCOMPARE DURING VERIFY OPERATION",
    0x2000: "INVALID COMMAND OPERATION CODE", 0x2100: "LOGICAL BLOCK ADDRESS OUT OF RANGE",
    0x2400: "INVALID FIELD IN CDB", 0x2500: "LOGICAL UNIT NOT SUPPORTED",
    0x2600: "INVALID FIELD IN PARAMETER LIST", 0x2604: "INVALID RELEASE OF PERSISTENT RESERVATION",
    0x2700: "WRITE PROTECTED", 0x2800: "NOT READY TO READY CHANGE, MEDIUM MAY HAVE CHANGED",
    0x2900: "POWER ON, RESET, OR BUS DEVICE RESET OCCURRED",
    0x2903: "BUS DEVICE RESET FUNCTION OCCURRED", 0x2A01: "MODE PARAMETERS CHANGED",
    0x2A03: "RESERVATIONS PREEMPTED", 0x2A04: "RESERVATIONS RELEASED",
    0x2A05: "REGISTRATIONS PREEMPTED", 0x2F00: "COMMANDS CLEARED BY ANOTHER INITIATOR",
    0x3900: "SAVING PARAMETERS NOT SUPPORTED", 0x3A00: "MEDIUM NOT PRESENT",
    0x4400: "INTERNAL TARGET FAILURE", 0x5504: "INSUFFICIENT REGISTRATION RESOURCES"}
STATUSES = {0x00: "GOOD", 0x02: "CHECK CONDITION", 0x18: "RESERVATION CONFLICT"}
# RFC 7143 §11.13.5.
LOGIN_STATUSES = {
    0x0000: "success", 0x0200: "initiator error", 0x0203: "target not found",
    0x0205: "unsupported version", 0x0206: "too many connections", 0x0207: "missing parameter",
    0x020A: "session does not exist"}
OPERATIONS = {0x00: "TEST UNIT READY", 0x03: "REQUEST SENSE", 0x12: "INQUIRY",
              0x28: "READ (10)", 0x2A: "WRITE (10)", 0xA0: "REPORT LUNS"}
# Fields that say nothing if they are 0, and that are told in another way.
QUIET = {"VersionMax", "VersionMin", "VersionActive", "CID", "ATTR", "ExpStatSN", "Response",
         "ExpDataSN", "ResidualCount", "ExpectedDataTransferLength"}
APART = {"Byte0", "Byte1", "TotalAHSLength", "DataSegmentLength", "LUN", "CDB", "OperationCode",
         "Status"}
HEXADECIMAL = {"ITT": 8, "TTT": 8, "ISID": 12, "ReferencedTaskTag": 8, "Reason": 2}
BY_OPCODE = {layout[0]: (name, layout[2]) for name, layout in pdu.LAYOUTS.items()}


def described(header, additional, segment):
    """One PDU in one line."""
    opcode = pdu.get(header, pdu.OPCODE)
    name, fields = BY_OPCODE.get(opcode, (f"opcode {opcode:02X}h", pdu.COMMON))
    flags = [key for key, field in fields.items() if field[1] == 1 and pdu.get(header, field)]
    parts = [name, " ".join(flags)] + [told(header, key, field) for key, field in fields.items()]
    parts += [apart(header, name, fields), f"{len(additional)} bytes of additional header"
              if additional else "", content(name, segment)]
    return "  ".join(part for part in parts if part)


def told(header, key, field):
    """A field that is a number, with its name, or nothing."""
    value = pdu.get(header, field)
    if field[1] == 1 or key in APART or key in QUIET and not value:
        return ""
    return f"{key} {value:0{HEXADECIMAL[key]}X}h" if key in HEXADECIMAL else f"{key} {value}"


def apart(header, name, fields):
    """The fields that have names of their own for their values."""
    parts = []
    if "LUN" in fields:
        lun = pdu.get(header, fields["LUN"])
        is_number = lun >> 56 == 0 and lun & ((1 << 48) - 1) == 0
        parts.append(f"LUN {lun >> 48}" if is_number else f"LUN {lun:016X}h")
    if "CDB" in fields:
        operation = header[32]
        parts.append(OPERATIONS.get(operation, f"operation code {operation:02X}h"))
    if "Status" in fields:
        status, names = pdu.get(header, fields["Status"]), STATUSES
        width = 2
        if name == "Login-Response":
            names, width = LOGIN_STATUSES, 4
        parts.append(f"status {status:0{width}X}h {names.get(status, '')}".rstrip())
    return "  ".join(parts)


def content(name, segment):
    """The data segment: sense data by its names, text keys, or how many bytes."""
    if name == "SCSI-Response" and len(segment) >= 16:
        key, code = segment[4] & 0x0F, int.from_bytes(segment[14:16], "big")
        return (f"sense {key:02X}/{code:04X} {SENSE_KEYS.get(key, '')}, "
                f"{CODES.get(code, 'code of no name here')}")
    if name.startswith(("Login", "Text")) and segment:
        return " ".join(part.decode("utf-8", "backslashreplace")
                        for part in segment.split(b"\0") if part)
    return f"{len(segment)} bytes of data" if segment else ""


def line(text):
    """The PDUs of a line `C HEX` of output or `bytes C HEX` of input, each in words."""
    words = text.removeprefix("bytes ").split(" ")
    if len(words) != 2:
        return []
    try:
        found, rest = pdu.cut(bytes.fromhex(words[1]))
    except ValueError:
        return []
    return [described(*one) for one in found] + ([f"{len(rest)} bytes more"] if rest else [])
