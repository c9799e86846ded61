/* What tools/bench_parts/ask.c is asked for: its words, and the CDBs of the commands that it sends.

   kind=read, kind=write              READs or WRITEs of `length` (0) bytes at the front of a disk; TEST UNIT READYs
                                      if they are 0
   kind=verify                        VERIFYs of so many bytes that are zeros, which the disk holds there too
   kind=read-on, kind=write-on        one after the other, from the front of a disk on
   kind=read-tape, kind=write-tape    records of so many bytes, from the front of a tape on
   kind=read-fixed, kind=write-fixed  fixed blocks of 512 bytes, so many bytes of them at a time, from the front of a tape on
   kind=read-short                    records of a tape, each of which may be shorter than what is asked for (SILI)
   kind=write-same                    WRITE SAMEs of 16 MiB by a block of `length` bytes, at the front of a disk
   kind=space, kind=locate            SPACE or LOCATE over so many records as `over` (1) says, there and back by turns

   held=1     once it is logged in it prints "logged in" and waits for a line of its input, and once it has printed
              what was answered it waits for the next, so that its sessions stay
   bare=1     no data comes with its WRITEs, so that all of it is asked for
   stalled=1  it does not read the answers, but sends as many commands as there may be in flight
   apart=1    a session sends nothing before all commands of the one before it are answered
   bytewise=1 each byte is sent by a call of its own
   flood=1    it logs in nowhere, but connects and resets, over and over, which counts as a command
   asks=N     each login offers this MaxOutstandingR2T, and "logged in" is followed by that which is in force
   burst=N    each login offers this MaxBurstLength
   piece=N    no PDU brings more data than this */

#include "fields.h"

enum { ROOM = 1 << 20, WINDOW = 64 };
enum { TEST_UNIT_READY = 0x00, REWIND = 0x01, READ_6 = 0x08, WRITE_6 = 0x0a, SPACE = 0x11, READ_10 = 0x28 };
enum { WRITE_10 = 0x2a, LOCATE = 0x2b, VERIFY_10 = 0x2f, WRITE_SAME = 0x41 };
enum { MODE_SELECT = 0x15, PAGE_FORMAT = 0x10 };
enum { SILI = 0x02, FIXED = 0x01, BYTCHK = 0x02 /* with the data that comes */, SAME = 32768 /* blocks of a WRITE SAME: 16 MiB */ };

static const struct kind {
    const char *name;
    unsigned char operation, flags; /* of its CDB: byte 0, and byte 1 */
    int writes, goes_on, is_tape, is_short;
} kinds[] = {{"read", READ_10, 0, 0, 0, 0, 0},
             {"write", WRITE_10, 0, 1, 0, 0, 0},
             {"verify", VERIFY_10, BYTCHK, 1, 0, 0, 0},
             {"read-on", READ_10, 0, 0, 1, 0, 0},
             {"write-on", WRITE_10, 0, 1, 1, 0, 0},
             {"read-tape", READ_6, 0, 0, 0, 1, 0},
             {"write-tape", WRITE_6, 0, 1, 0, 1, 0},
             {"read-short", READ_6, SILI, 0, 0, 1, 1},
             {"read-fixed", READ_6, FIXED, 0, 0, 1, 0},
             {"write-fixed", WRITE_6, FIXED, 1, 0, 1, 0},
             {"write-same", WRITE_SAME, 0, 1, 0, 0, 0},
             {"space", SPACE, 0, 0, 0, 1, 0},
             {"locate", LOCATE, 0, 0, 0, 1, 0}};

static const struct kind *kind = kinds;
static const char *target = "t1";
static long port, lun, connections = 1, window = 1, count = 1L << 40, milliseconds = 3600000, length;
static long over = 1, held, bare, stalled, apart, bytewise, flood, asks, burst, piece;
static const struct {
    const char *name;
    long *value, most;
} options[] = {{"port", &port, 65535},
               {"lun", &lun, 255},
               {"connections", &connections, CONNECTIONS},
               {"window", &window, WINDOW},
               {"count", &count, 1L << 40},
               {"milliseconds", &milliseconds, 3600000},
               {"length", &length, ROOM},
               {"over", &over, (1 << 23) - 1},
               {"held", &held, 1},
               {"bare", &bare, 1},
               {"stalled", &stalled, 1},
               {"apart", &apart, 1},
               {"bytewise", &bytewise, 1},
               {"flood", &flood, 1},
               {"asks", &asks, 65535},
               {"burst", &burst, 16777215},
               {"piece", &piece, 262144}};

/* Notes what a word says. Whether it says anything. */
static int is_taken(const char *word)
{
    const char *value = strchr(word, '=');
    size_t name = value != NULL ? (size_t)(value++ - word) : 0;
    if (name == 6 && strncmp(word, "target", name) == 0) {
        target = value;
        return 1;
    }
    for (size_t k = 0; k < sizeof kinds / sizeof *kinds && name == 4 && strncmp(word, "kind", name) == 0; k++)
        if (strcmp(value, kinds[k].name) == 0) {
            kind = kinds + k;
            return 1;
        }
    for (size_t k = 0; k < sizeof options / sizeof *options; k++)
        if (name == strlen(options[k].name) && strncmp(word, options[k].name, name) == 0) {
            *options[k].value = atol(value);
            return *options[k].value >= 0 && *options[k].value <= options[k].most;
        }
    return 0;
}

/* Whether a command has data, and which way it goes. */
static int has_data_out(void)
{
    return kind->writes && length > 0;
}

static int has_data_in(void)
{
    return !kind->writes && length > 0;
}

/* Whether a command counts fixed blocks of a tape. */
static int is_fixed(void)
{
    return kind->is_tape && (kind->flags & FIXED) != 0;
}

/* Writes the CDB of a command that moves a tape over so many items, there and back by turns. */
static void put_move(unsigned char *cdb, long sent)
{
    int is_back = sent % 2 == 1;
    cdb[0] = kind->operation;
    if (kind->operation == LOCATE)
        put_number(cdb, 3, is_back ? 0 : (size_t)over);
    else
        put_number(cdb, 1, (size_t)(is_back ? -over : over) & 0xffffff); /* over records: code 0, and a count */
}

/* Writes the CDB of the command before which so many were sent. */
static void put_cdb(unsigned char *cdb, long sent)
{
    long blocks = kind->operation == WRITE_SAME ? SAME : length / BLOCK;
    if (kind->operation == SPACE || kind->operation == LOCATE)
        put_move(cdb, sent);
    if (length == 0)
        return; /* TEST UNIT READY, if it is not said otherwise */
    cdb[0] = kind->operation;
    if (kind->is_tape) {
        put_number(cdb, 1, (size_t)(is_fixed() ? length / BLOCK : length)); /* the last three bytes, after byte 1 */
        cdb[1] = kind->flags;
        return;
    }
    cdb[1] = kind->flags;
    put_number(cdb, 2, kind->goes_on ? (size_t)(sent * blocks) : 0);
    cdb[7] = (unsigned char)(blocks >> 8);
    cdb[8] = (unsigned char)blocks;
}
