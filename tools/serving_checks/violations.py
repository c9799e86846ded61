"""The end of a connection that broke a rule of the protocol: the log names the PDU and the rule."""

import time

from serving_checks.log_lines import lines_of, logging
from serving_checks.loopback import LIMIT, connect, is_closed, read
from wire import notation, pdu

LOGIN = '[Login-Request I T CSG=1 NSG=3 ISID=0x400000000007 ITT=16 CmdSN=500 | "InitiatorName=h" 00 "TargetName=t1" 00 {}]'
READY = "[TEST-UNIT-READY F ITT=1 CmdSN=500]"
WRITE = "[SCSI-Command F W ITT=2 CmdSN=501 ExpectedDataTransferLength=2048 CDB=2a000000000000000400]"
OPEN = WRITE.replace(" F ", " ")  # unsolicited Data-Outs follow
BURSTS = '"MaxBurstLength=1024" 00'
FOUR = BURSTS + '"MaxOutstandingR2T=4" 00'
UNASKED = '"InitialR2T=No" 00'
SHORT = UNASKED + '"FirstBurstLength=1024" 00'
FIRST = "[Data-Out F ITT=2 TTT=0 | 11*1024]"  # what the first R2T asks for
COMMAND, OUT = "SCSI Command (00000002h), ", "SCSI Data-Out (00000002h), "
FUNCTION = "Task Management Function Request (00000009h), "
IN_USE = "Initiator Task Tag in use"

# Offers of the login, PDUs that break no rule, one that does, and the words of the log.
IN_SESSIONS = (
    # framing
    ("", [], "[SCSI-Command F ITT=2 CmdSN=501 DataSegmentLength=262145]", COMMAND + "data segment of 262145 bytes, above 262144"),
    ("", [], "[NOP-Out I ITT=3 DataSegmentLength=0xffffff]", "NOP-Out (00000003h), data segment of 16777215 bytes, above 262144"),
    ("", [], "1c 80 00*3 040001 00*8 00000005 00*28", "opcode 1Ch (00000005h), data segment of 262145 bytes, above 262144"),
    # phase
    ("", [], LOGIN.format(""), "Login Request (00000010h), in full feature phase"),
    # tags
    ("", [], "[TEST-UNIT-READY F ITT=0xffffffff CmdSN=501]", "SCSI Command (FFFFFFFFh), reserved Initiator Task Tag"),
    ("", [], "[Task-Management-Request I Function=1 ITT=0xffffffff]",
     "Task Management Function Request (FFFFFFFFh), reserved Initiator Task Tag"),
    ("", [WRITE], "[TEST-UNIT-READY F ITT=2 CmdSN=502]", COMMAND + IN_USE),
    ("", ["[TEST-UNIT-READY F ITT=2 CmdSN=502]"], "[TEST-UNIT-READY F ITT=2 CmdSN=501]", COMMAND + IN_USE),
    ("", ["[TEST-UNIT-READY F ITT=9 CmdSN=502]"], "[Task-Management-Request I Function=5 ITT=9]", FUNCTION + IN_USE),
    ("", ["[Task-Management-Request Function=5 ITT=2 CmdSN=502]"], "[TEST-UNIT-READY F ITT=2 CmdSN=501]", COMMAND + IN_USE),
    # what a command brings
    ("", [], "[TEST-UNIT-READY F ITT=2 CmdSN=501 | aa*4]", COMMAND + "immediate data without W"),
    ('"ImmediateData=No" 00', [], WRITE[:-1] + "| aa*512]", COMMAND + "immediate data with ImmediateData=No"),
    ("", [], OPEN, COMMAND + "W without F with InitialR2T=Yes"),
    ('"InitialR2T=Yes" 00', [], OPEN, COMMAND + "W without F with InitialR2T=Yes"),
    (SHORT, [], WRITE[:-1] + "| aa*1025]", COMMAND + "immediate data to byte 1025, past 1024 (FirstBurstLength)"),
    ("", [], WRITE[:-1] + "| aa*2049]", COMMAND + "immediate data to byte 2049, past 2048 (Expected Data Transfer Length)"),
    # unsolicited data
    (UNASKED, [OPEN], "[Data-Out F ITT=2 TTT=0 | aa*512]", OUT + "Target Transfer Tag 00000000h in place of FFFFFFFFh"),
    (UNASKED, [OPEN], "[Data-Out F ITT=2 TTT=0xffffffff DataSN=1 | aa*512]", OUT + "DataSN 1 in place of 0"),
    (UNASKED, [OPEN, "[Data-Out ITT=2 TTT=0xffffffff | aa*512]"],
     "[Data-Out F ITT=2 TTT=0xffffffff BufferOffset=512 | aa*512]", OUT + "DataSN 0 in place of 1"),
    (UNASKED, [OPEN], "[Data-Out F ITT=2 TTT=0xffffffff BufferOffset=512 | aa*512]", OUT + "Buffer Offset 512 in place of 0"),
    (UNASKED, [OPEN[:-1] + "| aa*512]"], "[Data-Out F ITT=2 TTT=0xffffffff | aa*512]", OUT + "Buffer Offset 0 in place of 512"),
    (SHORT, [OPEN[:-1] + "| aa*1024]"], "[Data-Out F ITT=2 TTT=0xffffffff BufferOffset=1024 | aa]",
     OUT + "data to byte 1025, past 1024 (FirstBurstLength)"),
    (UNASKED, [OPEN], "[Data-Out F ITT=2 TTT=0xffffffff | aa*2049]",
     OUT + "data to byte 2049, past 2048 (Expected Data Transfer Length)"),
    # data that R2Ts ask for
    (BURSTS, [WRITE, FIRST], "[Data-Out F ITT=2 TTT=0 BufferOffset=1024 | 22*1024]",
     OUT + "Target Transfer Tag 00000000h in place of 00000001h"),
    (BURSTS, [WRITE, FIRST], "[Data-Out F ITT=2 TTT=0xffffffff BufferOffset=1024 | 22*1024]",
     OUT + "Target Transfer Tag FFFFFFFFh in place of 00000001h"),
    (BURSTS, [WRITE, FIRST], "[Data-Out F ITT=2 TTT=1 DataSN=1 BufferOffset=1024 | 22*1024]", OUT + "DataSN 1 in place of 0"),
    (BURSTS, [WRITE, FIRST], "[Data-Out F ITT=2 TTT=1 BufferOffset=1536 | 22*512]", OUT + "Buffer Offset 1536 in place of 1024"),
    (BURSTS, [WRITE, FIRST], "[Data-Out F ITT=2 TTT=1 BufferOffset=1024 | 22*1025]",
     OUT + "data to byte 2049, past 2048 (its R2T)"),
    (BURSTS, [WRITE, FIRST], "[Data-Out F ITT=2 TTT=1 BufferOffset=1024 | 22*1020]",
     OUT + "F at byte 2044, before 2048 (its R2T)"),
    (BURSTS, [WRITE, FIRST], "[Data-Out ITT=2 TTT=1 BufferOffset=1024 | 22*1024]", OUT + "no F at byte 2048 (its R2T)"),
    (UNASKED, [OPEN, "[Data-Out F ITT=2 TTT=0xffffffff | aa*512]"], "[Data-Out ITT=2 TTT=0 BufferOffset=512 | 22*1536]",
     OUT + "no F at byte 2048 (its R2T)"),
    (FOUR, [WRITE.replace("=2048", "=6144").replace("0400]", "0c00]"), FIRST],
     "[Data-Out F ITT=2 TTT=2 BufferOffset=2048 | 22*1024]",
     OUT + "Target Transfer Tag 00000002h in place of 00000001h"),
    # a WRITE that waits for one before it has all its data, or takes none
    ("", ["[TEST-UNIT-READY F ITT=3 CmdSN=502]"], "[Data-Out F ITT=3 TTT=0 | 11*4]",
     "SCSI Data-Out (00000003h), Target Transfer Tag 00000000h, where no data is due"),
    (BURSTS, [WRITE.replace("501", "502"), FIRST, "[Data-Out F ITT=2 TTT=1 BufferOffset=1024 | 11*1024]"],
     "[Data-Out F ITT=2 TTT=1 DataSN=1 BufferOffset=2048]", OUT + "Target Transfer Tag 00000001h, where no data is due"),
    # The tag was of a command that was aborted: the log does not know which of the two the target has.
    ("", [WRITE, "[Task-Management-Request I Function=1 ReferencedTaskTag=2 ITT=9 CmdSN=502]", WRITE.replace("501", "502")],
     "[Data-Out F ITT=2 TTT=1 DataSN=7 | 11*2048]", OUT + "a rule that is not known"),
)

# PDUs before full feature phase, and the words of the log.
BEFORE_SESSIONS = (
    (READY, "SCSI Command (00000001h), before full feature phase"),
    ("[NOP-Out I ITT=3]", "NOP-Out (00000003h), before full feature phase"),
    ("[Data-Out F ITT=2 | aa*4]", "SCSI Data-Out (00000002h), before full feature phase"),
    ('"GET / HTTP/1.1\\r\\nHost: " "a"*40', "opcode 07h (486F7374h), data segment of 2115668 bytes, above 262144"),
    ("3f 80 00*14 00000007 00*28", "opcode 3Fh (00000007h), before full feature phase"),
    ("[Login-Request T CSG=1 NSG=3 ITT=4 DataSegmentLength=262145]",
     "Login Request (00000004h), data segment of 262145 bytes, above 262144"),
    ('[Login-Request CSG=1 ITT=4 CmdSN=7 | "InitiatorName=h" 00 "TargetName=t1" 00] [Logout-Request I ITT=5]',
     "Logout Request (00000005h), before full feature phase"),
)


PING = "[NOP-Out I ITT=0x50]"


def sent(text):
    """The bytes that a text of this notation stands for."""
    return notation.data(text, {})


def answered(client):
    """The opcode of the next PDU that comes. None if the connection is closed."""
    header = read(client, pdu.HEADER)
    length = int.from_bytes(header[5:8], "big")
    read(client, length + pdu.padding(length))
    return header[0] if header else None


def comes_to(client, opcode):
    """Reads PDUs up to one of this opcode."""
    while (came := answered(client)) != opcode:
        assert came is not None, "the connection is closed"


def ending_in(path):
    """The line of a connection that ended, as soon as it is in a log. The log begins anew."""
    until = time.monotonic() + LIMIT
    while time.monotonic() < until:
        text = path.read_text(encoding="ascii") if path.exists() else ""
        if found := [line for line in lines_of(text.rpartition("\n")[0]) if " ended" in line]:
            path.unlink()
            return found[0]
        time.sleep(0.01)
    raise AssertionError("no connection ended")


def names_the_rule_that_a_session_broke():
    with logging() as (_, address, path):
        for offer, before, wrong, words in IN_SESSIONS:
            with connect(address) as client:
                for part in (LOGIN.format(offer), READY):
                    client.sendall(sent(part))
                    assert answered(client) is not None, words
                for part in before:
                    # What it sets off comes before the answer to a ping.
                    client.sendall(sent(part) + sent(PING))
                    comes_to(client, 0x20)
                client.sendall(sent(wrong))
                assert is_closed(client), words
                assert ending_in(path) == f"session of connection 0 ended: violation: {words}"


def names_it_where_all_comes_at_once():
    with logging() as (_, address, path):
        for offer, before, wrong, words in IN_SESSIONS:
            with connect(address) as client:
                client.sendall(b"".join(map(sent, [LOGIN.format(offer), READY, *before, wrong])))
                assert ending_in(path) == f"session of connection 0 ended: violation: {words}"


def names_no_rule_where_a_tag_comes_again_before_its_answer():
    again = "[TEST-UNIT-READY F ITT=2 CmdSN=501]", WRITE.replace("501", "502"), "[Data-Out F ITT=2 TTT=0 DataSN=7 | 11*2048]"
    with logging() as (_, address, path), connect(address) as client:
        client.sendall(b"".join(map(sent, [LOGIN.format(""), READY, *again])))
        assert ending_in(path) == f"session of connection 0 ended: violation: {OUT}a rule that is not known"


def names_the_rule_that_was_broken_before_a_session():
    with logging() as (_, address, path):
        for wrong, words in BEFORE_SESSIONS:
            with connect(address) as client:
                client.sendall(sent(wrong))
                assert ending_in(path) == f"connection 0 ended without a login: violation: {words}"


def names_the_rule_in_a_discovery_session():
    login = LOGIN.format("").replace('"TargetName=t1"', '"SessionType=Discovery"')
    with logging() as (_, address, path), connect(address) as client:
        client.sendall(sent(login) + sent(READY) + sent("[Data-Out ITT=9 | aa]") + sent(login))
        assert ending_in(path) == "session of connection 0 ended: violation: Login Request (00000010h), in full feature phase"


CHECKS = [
    names_the_rule_that_a_session_broke,
    names_it_where_all_comes_at_once,
    names_no_rule_where_a_tag_comes_again_before_its_answer,
    names_the_rule_that_was_broken_before_a_session,
    names_the_rule_in_a_discovery_session,
]
