"""The PDUs of RFC 7143 §11, field by field, to write them and to read them.

A header is 48 bytes. It is handled as one number of 384 bits, so that a field is the place of its
first bit and its width, whether it is four bytes or one flag.
"""

HEADER = 48


class Malformed(Exception):
    """What a person wrote cannot be understood."""


def octets(first, count):
    """The field of so many whole bytes."""
    return (8 * first, 8 * count)


def bits(byte, high, low=None):
    """The field of the bits from high to low of one byte; bit 7 is the most significant."""
    low = high if low is None else low
    return (8 * byte + 7 - high, high - low + 1)


F, R, W, T, C = bits(1, 7), bits(1, 6), bits(1, 5), bits(1, 7), bits(1, 6)
LUN, TTT = octets(8, 8), octets(20, 4)
OPCODE, IMMEDIATE, BYTE_1 = bits(0, 5, 0), bits(0, 6), octets(1, 1)
COMMON = {"I": IMMEDIATE, "Byte0": octets(0, 1), "Byte1": BYTE_1,
          "TotalAHSLength": octets(4, 1), "DataSegmentLength": octets(5, 3), "ITT": octets(16, 4)}
ASKING = {"CmdSN": octets(24, 4), "ExpStatSN": octets(28, 4)}
ANSWERING = {"StatSN": octets(24, 4), "ExpCmdSN": octets(28, 4), "MaxCmdSN": octets(32, 4)}
STAGES = {"T": T, "C": C, "CSG": bits(1, 3, 2), "NSG": bits(1, 1, 0), "ISID": octets(8, 6),
          "TSIH": octets(14, 2)}

# The name of each PDU: its opcode, byte 1 before any flag, and its fields.
REQUESTS = {
    "NOP-Out": (0x00, 0x80, {"LUN": LUN, "TTT": TTT}),
    "SCSI-Command": (0x01, 0x00, {
        "F": F, "R": R, "W": W, "ATTR": bits(1, 2, 0), "LUN": LUN,
        "ExpectedDataTransferLength": octets(20, 4), "CDB": octets(32, 16),
        "OperationCode": octets(32, 1)}),
    "Task-Management-Request": (0x02, 0x80, {
        "Function": bits(1, 6, 0), "LUN": LUN, "ReferencedTaskTag": octets(20, 4),
        "RefCmdSN": octets(32, 4)}),
    "Login-Request": (0x03, 0x00, {
        **STAGES, "VersionMax": octets(2, 1), "VersionMin": octets(3, 1), "CID": octets(20, 2)}),
    "Text-Request": (0x04, 0x00, {"F": F, "C": C, "LUN": LUN, "TTT": TTT}),
    "Data-Out": (0x05, 0x00, {
        "F": F, "LUN": LUN, "TTT": TTT, "DataSN": octets(36, 4), "BufferOffset": octets(40, 4)}),
    "Logout-Request": (0x06, 0x80, {"Reason": bits(1, 6, 0), "CID": octets(20, 2)}),
    "SNACK-Request": (0x10, 0x80, {
        "Type": bits(1, 3, 0), "LUN": LUN, "TTT": TTT, "BegRun": octets(40, 4),
        "RunLength": octets(44, 4)}),
}
ANSWERS = {
    "NOP-In": (0x20, 0x80, {"LUN": LUN, "TTT": TTT}),
    "SCSI-Response": (0x21, 0x80, {
        "O": bits(1, 2), "U": bits(1, 1), "Response": octets(2, 1), "Status": octets(3, 1),
        "ExpDataSN": octets(36, 4), "ResidualCount": octets(44, 4)}),
    "Task-Management-Response": (0x22, 0x80, {"Response": octets(2, 1)}),
    "Login-Response": (0x23, 0x00, {
        **STAGES, "VersionMax": octets(2, 1), "VersionActive": octets(3, 1),
        "Status": octets(36, 2)}),
    "Text-Response": (0x24, 0x00, {"F": F, "C": C, "LUN": LUN, "TTT": TTT}),
    "Data-In": (0x25, 0x00, {
        "F": F, "LUN": LUN, "TTT": TTT, "DataSN": octets(36, 4), "BufferOffset": octets(40, 4)}),
    "Logout-Response": (0x26, 0x80, {"Response": octets(2, 1)}),
    "R2T": (0x31, 0x80, {
        "LUN": LUN, "TTT": TTT, "R2TSN": octets(36, 4), "BufferOffset": octets(40, 4),
        "DesiredDataTransferLength": octets(44, 4)}),
    "Reject": (0x3F, 0x80, {"Reason": octets(2, 1)}),
}


def layouts():
    """The opcode, byte 1 and all fields of each PDU, by its name."""
    table = {}
    for kinds, numbers in ((REQUESTS, ASKING), (ANSWERS, ANSWERING)):
        for name, (opcode, byte_1, own) in kinds.items():
            table[name] = (opcode, byte_1, {**COMMON, **own, **numbers})
    return table


LAYOUTS = layouts()


def get(header, field):
    """The number in a field of 48 bytes."""
    first, width = field
    return int.from_bytes(header, "big") >> (8 * HEADER - first - width) & ((1 << width) - 1)


def put(header, field, value):
    """The 48 bytes with a number in one of their fields."""
    first, width = field
    if not 0 <= value < 1 << width:
        raise Malformed(f"{value:#x} does not fit {width} bits")
    shift = 8 * HEADER - first - width
    kept = int.from_bytes(header, "big") & ~(((1 << width) - 1) << shift)
    return (kept | value << shift).to_bytes(HEADER, "big")


def sense_data(key, code):
    """SenseLength and sense data in the fixed format (SPC-4, fixed format sense data)."""
    fixed = bytes([0x70, 0, key, 0, 0, 0, 0, 10, 0, 0, 0, 0]) + code.to_bytes(2, "big") + bytes(4)
    return len(fixed).to_bytes(2, "big") + fixed


def padding(length):
    """How many bytes bring a length to a multiple of 4."""
    return -length % 4


def cut(data):
    """The PDUs that data begins with, each a header, its additional header and its data segment,
    and the bytes that are left over."""
    found = []
    while len(data) >= HEADER:
        additional = 4 * data[4]
        length = int.from_bytes(data[5:8], "big")
        whole = HEADER + additional + length + padding(length)
        if len(data) < whole:
            break
        start = HEADER + additional
        found.append((data[:HEADER], data[HEADER:start], data[start:start + length]))
        data = data[whole:]
    return found, data
