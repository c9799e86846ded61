/* What must be on a tape, as a list of records and filemarks, and each command, whose answer and bytes are compared with
   what that list says (tools/initiators/tape.c). */

#include <iscsi/iscsi.h>
#include <iscsi/scsi-lowlevel.h>
#include <stdarg.h>
#include <stdint.h>
#include <stdio.h>
#include <stdlib.h>
#include <string.h>

enum { LONGEST = 1 << 20, OVERHEAD = 8, MOST_ITEMS = 1 << 16, LIMIT = 120 };
enum { TAR = 10240 }; /* the length of a record of tar */
enum { BLOCKS = 0, FILEMARKS = 1, END_OF_DATA = 3 }; /* the codes of SPACE */
enum { FILEMARK = 0x80, EOM = 0x40, ILI = 0x20 }; /* bits of byte 2 of sense data */
enum { NO_SENSE, NOT_READY = 2, ILLEGAL_REQUEST = 5, UNIT_ATTENTION = 6, BLANK_CHECK = 8, VOLUME_OVERFLOW = 13 };
enum { NONE = SCSI_XFER_NONE, IN = SCSI_XFER_READ, OUT = SCSI_XFER_WRITE };
enum { UNTOUCHED = 0xee };

/* What a command is answered; of its sense data the key, the code, those bits and the information. */
struct answer {
    int status, key, code, bits, is_valid;
    int32_t information;
    size_t given; /* bytes of data */
};

/* A record, whose bytes its seed gives, or a filemark, which has none. */
struct item {
    unsigned length, seed;
};

static struct iscsi_context *session;
static const char *address;
static int lun;

/* What must be on the tape. */
static struct item items[MOST_ITEMS];
static unsigned count, position, seeds;
static unsigned block; /* the length of its fixed blocks, 0 for variable ones */
static int is_loaded = 1;
static unsigned long capacity, early;

static unsigned char data[2 * LONGEST];
static char wrong[400]; /* what was not as it must be, the first of a check */

static const struct answer good;

static void complain(const char *form, ...)
{
    va_list list;
    va_start(list, form);
    if (wrong[0] == 0)
        vsnprintf(wrong, sizeof wrong, form, list);
    va_end(list);
}

static void fail(const char *what, struct iscsi_context *of)
{
    printf("FAIL %s: %s\n0 passed, 1 failed\n", what, of ? iscsi_get_error(of) : "out of memory");
    exit(1);
}

/* ---- sessions and commands */

static struct iscsi_context *connected(const char *name)
{
    struct iscsi_context *made = iscsi_create_context(name);
    struct iscsi_url *url = made ? iscsi_parse_full_url(made, address) : NULL;
    if (url == NULL)
        fail(address, made);
    iscsi_set_targetname(made, url->target);
    iscsi_set_session_type(made, ISCSI_SESSION_NORMAL);
    iscsi_set_timeout(made, LIMIT);
    iscsi_set_noautoreconnect(made, 1);
    lun = url->lun;
    if (iscsi_full_connect_sync(made, url->portal, lun) != 0)
        fail("login", made);
    iscsi_destroy_url(url);
    return made;
}

static void disconnect(struct iscsi_context *made)
{
    iscsi_logout_sync(made);
    iscsi_destroy_context(made);
}

static struct answer told(int key, int code, int bits, long information)
{
    return (struct answer){.status = SCSI_STATUS_CHECK_CONDITION, .key = key, .code = code, .bits = bits,
                           .is_valid = 1, .information = (int32_t)information};
}

/* Sense data that says no more than its key and code. */
static struct answer refused(int key, int code)
{
    return (struct answer){.status = SCSI_STATUS_CHECK_CONDITION, .key = key, .code = code};
}

static struct answer answer_of(struct scsi_task *task)
{
    struct answer seen = {.status = task->status};
    if (task->status != SCSI_STATUS_CHECK_CONDITION)
        return seen;
    if (task->datain.size < 20) {
        complain("sense data of %d bytes", task->datain.size);
        return seen;
    }
    const unsigned char *sense = task->datain.data + 2; /* after its length */
    seen.key = task->sense.key;
    seen.code = task->sense.ascq;
    seen.bits = sense[2] & (FILEMARK | EOM | ILI);
    seen.is_valid = sense[0] >> 7;
    seen.information = (int32_t)((uint32_t)sense[3] << 24 | sense[4] << 16 | sense[5] << 8 | sense[6]);
    return seen;
}

/* Sends a command with this much data in its direction, and gives its answer. */
static struct answer ask_on(struct iscsi_context *on, const unsigned char *cdb, int size, int direction, size_t length)
{
    unsigned char copy[16];
    struct iscsi_data out = {length, data};
    memcpy(copy, cdb, (size_t)size);
    int to = length > 0 ? direction : NONE;
    struct scsi_task *task = scsi_create_task(size, copy, to, (int)length);
    if (task == NULL)
        fail("a command", NULL);
    if (to == IN) {
        memset(data, UNTOUCHED, length);
        scsi_task_add_data_in_buffer(task, (int)length, data);
    }
    if (iscsi_scsi_command_sync(on, lun, task, to == OUT ? &out : NULL) == NULL)
        fail("a command was not answered", on);
    struct answer seen = answer_of(task);
    if (task->residual_status == SCSI_RESIDUAL_OVERFLOW)
        complain("an overflow of %zu bytes", task->residual);
    if (to == IN)
        seen.given = length - (task->residual_status == SCSI_RESIDUAL_UNDERFLOW ? task->residual : 0);
    scsi_free_scsi_task(task);
    return seen;
}

/* A command of six bytes with three bytes of count or length. */
static struct answer ask_six(int code, int byte_1, long number, int direction, size_t length)
{
    unsigned char cdb[6] = {(unsigned char)code, (unsigned char)byte_1, (unsigned char)(number >> 16),
                            (unsigned char)(number >> 8), (unsigned char)number, 0};
    return ask_on(session, cdb, sizeof cdb, direction, length);
}

static void in_words(struct answer answer, char *words, size_t size)
{
    int used = snprintf(words, size, "status %02x, %zu bytes", (unsigned)answer.status, answer.given);
    if (answer.status == SCSI_STATUS_CHECK_CONDITION)
        used += snprintf(words + used, size - (size_t)used, ", sense %02x/%04x bits %02x", (unsigned)answer.key,
                         (unsigned)answer.code, (unsigned)answer.bits);
    if (answer.is_valid)
        snprintf(words + used, size - (size_t)used, " information %d", (int)answer.information);
}

/* A command must be answered so. */
static void must(const char *what, long number, struct answer seen, struct answer due)
{
    char left[120], right[120];
    in_words(seen, left, sizeof left);
    in_words(due, right, sizeof right);
    if (strcmp(left, right) != 0)
        complain("%s %ld at %u of %u: %s, and not %s", what, number, position, count, left, right);
}

/* ---- what must be on the tape, and what each command does to it and is told (SSC-4) */

static unsigned char byte_of(unsigned seed, size_t at)
{
    return (unsigned char)(seed * 167 + at + at / 251);
}

/* The bytes of the items before the position. */
static unsigned long size_before(void)
{
    unsigned long size = 0;
    for (unsigned at = 0; at < position; at++)
        size += items[at].length + OVERHEAD;
    return size;
}

/* Items of this length take the place of all after the position, if there is room for them. */
static struct answer put(unsigned number, unsigned length)
{
    unsigned long size = size_before() + (unsigned long)number * (length + OVERHEAD);
    if (size > capacity)
        return told(VOLUME_OVERFLOW, 0x0002, EOM, length > 0 ? length : number);
    for (unsigned put = 0; put < number && position < MOST_ITEMS; put++)
        items[position++] = (struct item){length, seeds};
    count = position;
    seeds++;
    return size > early ? told(NO_SENSE, 0x0002, EOM, 0) : good;
}

/* The next item is passed, of which so many bytes are asked for. */
static struct answer passed(unsigned asked, int is_silent)
{
    if (position == count)
        return told(BLANK_CHECK, 0x0005, 0, asked);
    unsigned length = items[position++].length;
    if (length == 0)
        return told(NO_SENSE, 0x0001, FILEMARK, asked);
    int is_told = length != asked && (!is_silent || (block > 0 && length > asked));
    struct answer due = is_told ? told(NO_SENSE, 0x0000, ILI, (long)asked - (long)length) : good;
    due.given = length < asked ? length : asked;
    return due;
}

/* So many fixed blocks, of which those that fit take the place of all after the position. */
static struct answer put_blocks(unsigned number)
{
    unsigned long fitting = (capacity - size_before()) / (block + OVERHEAD);
    unsigned written = number < fitting ? number : (unsigned)fitting;
    for (unsigned put = 0; put < written && position < MOST_ITEMS; put++)
        items[position++] = (struct item){block, seeds++};
    count = written > 0 ? position : count;
    if (written < number)
        return told(VOLUME_OVERFLOW, 0x0002, EOM, number - written);
    return number > 0 && size_before() > early ? told(NO_SENSE, 0x0002, EOM, 0) : good;
}

/* The next items are passed, until so many fixed blocks were given or one is no such block. */
static struct answer passed_blocks(unsigned number)
{
    struct answer due = good;
    size_t given = 0;
    for (; given < number && position < count && items[position].length == block; given++)
        position++;
    long left = (long)number - (long)given;
    if (left > 0 && position == count)
        due = told(BLANK_CHECK, 0x0005, 0, left);
    else if (left > 0)
        due = items[position++].length == 0 ? told(NO_SENSE, 0x0001, FILEMARK, left) : told(NO_SENSE, 0x0000, ILI, left);
    due.given = given * block;
    return due;
}

/* So many records or filemarks are passed, backward if the distance is negative. */
static struct answer spaced(int code, long distance)
{
    long left = labs(distance);
    int is_forward = distance > 0;
    while (left > 0) {
        if (is_forward && position == count)
            return told(BLANK_CHECK, 0x0005, 0, left);
        if (!is_forward && position == 0)
            return told(NO_SENSE, 0x0004, EOM, left);
        int is_mark = items[is_forward ? position++ : --position].length == 0;
        if (is_mark && code == BLOCKS)
            return told(NO_SENSE, 0x0001, FILEMARK, left);
        left -= is_mark == (code == FILEMARKS);
    }
    return good;
}

/* ---- each command, compared with that */

static struct answer not_loaded(void)
{
    return refused(NOT_READY, 0x3a00);
}

static void test_ready(void)
{
    must("TEST UNIT READY", 0, ask_six(0x00, 0, 0, NONE, 0), is_loaded ? good : not_loaded());
}

static void write_record(unsigned length)
{
    for (size_t at = 0; at < length; at++)
        data[at] = byte_of(seeds, at);
    struct answer seen = ask_six(0x0a, 0, length, OUT, length);
    must("WRITE", length, seen, !is_loaded ? not_loaded() : length > 0 ? put(1, length) : good);
}

static void write_marks(unsigned number)
{
    struct answer seen = ask_six(0x10, 0, number, NONE, 0);
    must("WRITE FILEMARKS", number, seen, !is_loaded ? not_loaded() : number > 0 ? put(number, 0) : good);
}

static void read_record(unsigned asked, int is_silent)
{
    unsigned seed = items[position].seed;
    struct answer seen = ask_six(0x08, is_silent ? 2 : 0, asked, IN, asked);
    struct answer due = !is_loaded ? not_loaded() : asked > 0 ? passed(asked, is_silent) : good;
    must(is_silent ? "READ, with SILI, of" : "READ", asked, seen, due);
    for (size_t at = 0; at < asked; at++)
        if (data[at] != (at < due.given ? byte_of(seed, at) : UNTOUCHED)) {
            complain("READ %u: byte %zu of item %u is %02x", asked, at, position - 1, data[at]);
            return;
        }
}

/* A field of a command is refused. */
static struct answer field(void)
{
    return refused(ILLEGAL_REQUEST, 0x2400);
}

/* Whether so many fixed blocks can be asked for. */
static int is_lawful(unsigned number)
{
    return block > 0 && (unsigned long)number * block <= LONGEST;
}

static void write_blocks(unsigned number)
{
    size_t length = (size_t)number * block;
    for (size_t at = 0; at < length; at++)
        data[at] = byte_of(seeds + (unsigned)(at / block), at % block);
    struct answer seen = ask_six(0x0a, 1, number, OUT, length);
    struct answer due = !is_loaded ? not_loaded() : is_lawful(number) ? put_blocks(number) : field();
    must("WRITE of fixed blocks", number, seen, due);
}

static void read_blocks(unsigned number)
{
    unsigned first = position;
    size_t length = (size_t)number * block;
    struct answer seen = ask_six(0x08, 1, number, IN, length);
    struct answer due = !is_loaded ? not_loaded() : is_lawful(number) ? passed_blocks(number) : field();
    must("READ of fixed blocks", number, seen, due);
    for (size_t at = 0; at < length; at++)
        if (data[at] != (at < due.given ? byte_of(items[first + at / block].seed, at % block) : UNTOUCHED)) {
            complain("READ of %u fixed blocks: byte %zu is %02x", number, at, data[at]);
            return;
        }
}

/* The mode parameters of a tape, with its block length. */
static void make_parameters(unsigned char *list, unsigned char first, unsigned length)
{
    unsigned char made[12] = {first, 0, 0x10, 8, [9] = (unsigned char)(length >> 16), (unsigned char)(length >> 8),
                              (unsigned char)length};
    memcpy(list, made, sizeof made);
}

/* MODE SENSE (6) tells the block length. */
static void has_blocks(void)
{
    unsigned char due[12];
    make_parameters(due, sizeof due - 1, block);
    must("MODE SENSE", block, ask_six(0x1a, 0, sizeof due, IN, sizeof due), (struct answer){.given = sizeof due});
    if (memcmp(data, due, sizeof due) != 0)
        complain("MODE SENSE tells blocks of %u bytes, not %u", (unsigned)data[9] << 16 | data[10] << 8 | data[11], block);
}

/* MODE SELECT (6) of a block length, as mt setblk sends it. */
static void set_blocks(unsigned length)
{
    make_parameters(data, 0, length);
    must("MODE SELECT", length, ask_six(0x15, 0x10, 12, OUT, 12), length <= LONGEST ? good
         : refused(ILLEGAL_REQUEST, 0x2600));
    block = length <= LONGEST ? length : block;
    has_blocks();
}

static void space(int code, long distance)
{
    struct answer seen = ask_six(0x11, code, distance & 0xffffff, NONE, 0);
    struct answer due = is_loaded ? good : not_loaded();
    if (is_loaded && code == END_OF_DATA)
        position = count;
    else if (is_loaded)
        due = spaced(code, distance);
    must(code == BLOCKS ? "SPACE blocks" : code == FILEMARKS ? "SPACE filemarks" : "SPACE to the end", distance,
         seen, due);
}

static void locate(unsigned number)
{
    unsigned char cdb[10] = {0x2b, 0, 0, (unsigned char)(number >> 24), (unsigned char)(number >> 16),
                             (unsigned char)(number >> 8), (unsigned char)number};
    struct answer seen = ask_on(session, cdb, sizeof cdb, NONE, 0);
    if (is_loaded)
        position = number < count ? number : count;
    must("LOCATE", number, seen, !is_loaded ? not_loaded() : number > count
         ? refused(BLANK_CHECK, 0x0005) : good);
}

static void rewind_tape(void)
{
    struct answer seen = ask_six(0x01, 0, 0, NONE, 0);
    if (is_loaded)
        position = 0;
    must("REWIND", 0, seen, is_loaded ? good : not_loaded());
}

static void erase(void)
{
    struct answer seen = ask_six(0x19, 1, 0, NONE, 0); /* with LONG, as mt has it */
    if (is_loaded)
        count = position;
    must("ERASE", 0, seen, is_loaded ? good : not_loaded());
}

static void load(int is_load)
{
    must(is_load ? "load" : "unload", 0, ask_six(0x1b, 0, is_load, NONE, 0), good);
    is_loaded = is_load;
    position = 0;
}

/* READ POSITION tells where the tape stands. */
static void is_there(void)
{
    unsigned char cdb[10] = {0x34}, due[20] = {0};
    struct answer seen = ask_on(session, cdb, sizeof cdb, IN, sizeof due), all = {.given = sizeof due};
    must("READ POSITION", 0, seen, is_loaded ? all : not_loaded());
    due[0] = position == 0 ? 0x80 : size_before() > early ? 0x40 : 0;
    for (int at = 0; at < 4; at++)
        due[4 + at] = due[8 + at] = (unsigned char)(position >> (24 - 8 * at));
    if (is_loaded && memcmp(data, due, sizeof due) != 0)
        complain("READ POSITION at %u of %u: %02x, %u", position, count, data[0],
                 (unsigned)data[4] << 24 | data[5] << 16 | data[6] << 8 | data[7]);
}
