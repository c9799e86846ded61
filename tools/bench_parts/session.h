/* A session of tools/bench_parts/ask.c: its fields, what is sent and read on it one at a time, and how it begins. */

#include "load.h"
#include <unistd.h>

enum { SEGMENT = 8192, TAGS = 1024, ATTENTIONS = 8, IMMEDIATE = 0x40, TRANSIT = 0x80 };

struct session {
    int fd;
    unsigned next; /* the number and the tag of the next command */
    long sent, answered;
    size_t segment;    /* how much data a PDU to the target may have */
    long asks;         /* MaxOutstandingR2T */
    size_t held, rest; /* how much of a header was read, and how much of its data is still to come */
    unsigned char header[HEADER];
    uint64_t began[TAGS]; /* when a command was sent, by its tag */
};

static void refused(const char *what, const unsigned char *header)
{
    fprintf(stderr, "%s: PDU %02x %02x %02x %02x\n", what, header[0], header[1], header[2], header[3]);
    exit(1);
}

static void put(int fd, const unsigned char *bytes, size_t size)
{
    while (size > 0) {
        ssize_t n = send(fd, bytes, bytewise ? 1 : size, MSG_NOSIGNAL);
        if (n <= 0)
            fail("send");
        bytes += n;
        size -= (size_t)n;
    }
}

static void get(int fd, unsigned char *bytes, size_t size)
{
    while (size > 0) {
        ssize_t n = read(fd, bytes, size);
        if (n <= 0)
            fail("read");
        bytes += n;
        size -= (size_t)n;
    }
}

/* Sends a PDU that has the next number, and reads the one that answers it: its header, and its data as a text. */
static const char *exchange(struct session *session, unsigned char *pdu, size_t size)
{
    static unsigned char text[MOST + 1];
    put_number(pdu, 16, session->next);
    put_number(pdu, 24, session->next);
    put(session->fd, pdu, size);
    get(session->fd, session->header, HEADER);
    if (rest_after(session->header) > MOST)
        refused("too much data", session->header);
    get(session->fd, text, rest_after(session->header));
    text[rest_after(session->header)] = 0;
    return (const char *)text;
}

/* The number that a text has for a key, or another if it has none. */
static long value_of(const char *text, size_t size, const char *name, long other)
{
    for (const char *key = text; key < text + size; key += strlen(key) + 1)
        if (strncmp(key, name, strlen(name)) == 0)
            return atol(key + strlen(name));
    return other;
}

static const char limit[] = "MaxRecvDataSegmentLength=", most_asks[] = "MaxOutstandingR2T=";

/* Notes what a Login Response says that is in force. Whether the session has begun; else a request without text is due. */
static int has_begun(struct session *session, const char *text)
{
    const unsigned char *header = session->header;
    if (opcode(header) != ACCEPTED || header[36] != 0 || (header[1] & TRANSIT && header[1] != LOGGED_IN))
        refused("a login is refused", header);
    session->segment = smaller((size_t)value_of(text, rest_after(header), limit, (long)session->segment), MOST);
    if (piece > 0)
        session->segment = smaller(session->segment, (size_t)piece);
    session->asks = value_of(text, rest_after(header), most_asks, session->asks);
    return header[1] == LOGGED_IN;
}

/* Logs in, by the initiator port of this number. */
static void login(struct session *session, int port_number)
{
    unsigned char pdu[HEADER + 512] = {IMMEDIATE | LOGIN, LOGGED_IN, [8] = 0x80, [21] = 1};
    char *data = (char *)pdu + HEADER;
    int size = 1 + snprintf(data, 512, "InitiatorName=a%cTargetName=%s%cSessionType=Normal%c%s%d", 0, target, 0, 0,
                            limit, MOST);
    if (asks > 0 && size < 512)
        size += 1 + snprintf(data + size, 512 - (size_t)size, "%s%ld", most_asks, asks);
    if (burst > 0 && size < 512)
        size += 1 + snprintf(data + size, 512 - (size_t)size, "MaxBurstLength=%ld", burst);
    if (size > 512)
        fail("the name of the target is too long");
    put_number(pdu, 4, (size_t)size);
    put_number(pdu, 10, (size_t)getpid() << 16 | (size_t)port_number);
    session->segment = SEGMENT;
    session->asks = 1;
    while (!has_begun(session, exchange(session, pdu, HEADER + rest_after(pdu))))
        put_number(pdu, 4, 0);
}

/* Sends a command without data. Whether it is GOOD. */
static int is_good(struct session *session, unsigned char operation)
{
    unsigned char command[HEADER] = {COMMAND, 0x81, [9] = (unsigned char)lun, [CDB] = operation};
    exchange(session, command, HEADER);
    session->next++;
    return session->header[0] == RESPONSE && session->header[2] == 0 && session->header[3] == 0;
}

/* Sets the block length of a tape by MODE SELECT (6): a header of 4 bytes, and a block descriptor. Whether that is GOOD. */
static int has_blocks(struct session *session)
{
    static const unsigned char list[12] = {[2] = 0x10, [3] = 8, [10] = BLOCK >> 8, [11] = BLOCK & 0xff};
    unsigned char command[HEADER + sizeof list] = {COMMAND, 0xa1, [7] = sizeof list, [9] = (unsigned char)lun,
                                                   [23] = sizeof list, [CDB] = MODE_SELECT, PAGE_FORMAT,
                                                   [CDB + 4] = sizeof list};
    memcpy(command + HEADER, list, sizeof list);
    exchange(session, command, sizeof command);
    session->next++;
    return session->header[0] == RESPONSE && session->header[2] == 0 && session->header[3] == 0;
}

/* Begins a session whose unit is ready. A tape is rewound, and has its block length. */
static void begin(struct session *session, int port_number)
{
    int told = 0;
    session->fd = connected((unsigned short)port);
    login(session, port_number);
    while (!is_good(session, TEST_UNIT_READY)) /* until its unit attentions are told */
        if (++told > ATTENTIONS)
            refused("the unit is not ready", session->header);
    if (kind->is_tape && !is_good(session, REWIND))
        refused("the tape is not rewound", session->header);
    if (is_fixed() && !has_blocks(session))
        refused("the block length is refused", session->header);
}
