/* An initiator for tapes, on libiscsi: it does what mt and tar do.

       tape URL CAPACITY EARLY         makes every check on a tape of so many bytes, whose early warning mark is
                                       at so many. What was on the tape is lost
       tape URL CAPACITY EARLY kept    looks whether what the last check left is still there

   It keeps a list of what must be on the tape, and compares each answer and each byte with that. Prints a line
   for each check, and last 'N passed, M failed'. */

#include "tape_model.h"

/* ---- what is done with these */

static void make_empty(void)
{
    rewind_tape();
    erase();
}

/* As tar writes: records, and a filemark at its end. */
static void write_file(unsigned records, unsigned length)
{
    while (records-- > 0)
        write_record(length);
    write_marks(1);
}

/* Reads all from here to the end of data, with as many bytes as each record has. */
static void read_on(void)
{
    while (position < count)
        read_record(items[position].length > 0 ? items[position].length : TAR, 0);
    read_record(TAR, 0);
}

static void read_all(void)
{
    rewind_tape();
    read_on();
}

/* Three files: of records of tar, of records of other lengths, and of one record. */
static void write_files(void)
{
    make_empty();
    write_file(3, TAR);
    write_record(512);
    write_record(65536);
    write_record(1);
    write_file(1, LONGEST);
    write_file(1, 32768);
}

/* ---- the checks */

/* A command gives these bytes. */
static void gives(int code, size_t length, const unsigned char *due)
{
    struct answer seen = ask_six(code, 0, code == 0x05 ? 0 : (long)length, IN, length);
    must("the command", code, seen, (struct answer){.given = length});
    if (memcmp(data, due, length) != 0)
        complain("the command %02x gives other bytes", (unsigned)code);
}

/* As the driver st of Linux opens a tape: records of 1 byte to 1 MiB, a variable block length. */
static void is_opened_as_linux_opens_it(void)
{
    static const unsigned char limits[6] = {0, 0x10, 0, 0, 0, 1}, mode[12] = {0x0b, 0, 0x10, 8};
    test_ready();
    gives(0x05, sizeof limits, limits);
    gives(0x1a, sizeof mode, mode);
    is_there();
}

static void tells_that_nothing_is_there(void)
{
    make_empty();
    is_there();
    read_record(TAR, 0);
    space(BLOCKS, 1);
    space(FILEMARKS, 1);
    space(BLOCKS, -1);
    space(END_OF_DATA, 0);
    is_there();
}

static void reads_files_back(void)
{
    write_files();
    is_there();
    read_all();
    is_there();
}

static void moves_nothing_for_no_byte(void)
{
    write_files();
    rewind_tape();
    read_record(0, 0);
    write_record(0);
    write_marks(0);
    is_there();
    read_on();
}

static void tells_blocks_asked_too_long_or_too_short(void)
{
    write_files();
    for (int is_silent = 0; is_silent < 2; is_silent++) {
        rewind_tape();
        read_record(TAR + 1, is_silent);
        read_record(2 * LONGEST - 1, is_silent);
        read_record(TAR - 1, is_silent);
        read_record(1, is_silent); /* the filemark */
        read_record(1, is_silent);
        is_there();
        read_record(65535, is_silent);
        read_record(2, is_silent);
        read_record(LONGEST - 1, is_silent);
        is_there();
    }
}

static void spaces_over_records(void)
{
    write_files();
    rewind_tape();
    space(BLOCKS, 2);
    is_there();
    space(BLOCKS, -1);
    read_record(TAR, 0);
    space(BLOCKS, 100); /* to the filemark */
    space(BLOCKS, -1); /* and before it */
    is_there();
    space(BLOCKS, -0x800000);
    space(END_OF_DATA, 0);
    space(BLOCKS, 0x7fffff);
    space(BLOCKS, 0);
    is_there();
}

static void spaces_over_files(void)
{
    write_files();
    rewind_tape();
    space(FILEMARKS, 1);
    read_record(512, 0);
    space(FILEMARKS, 1);
    read_record(32768, 0);
    space(FILEMARKS, -2);
    is_there();
    space(FILEMARKS, -2); /* one is there */
    is_there();
    space(FILEMARKS, 0x7fffff); /* mt eod, if st counts files */
    is_there();
}

static void appends_a_file(void)
{
    write_files();
    rewind_tape();
    space(END_OF_DATA, 0);
    write_file(2, TAR);
    space(FILEMARKS, -1);
    write_file(4, 2 * TAR); /* in the place of the last filemark */
    is_there();
    read_all();
}

static void loses_what_is_after_a_write(void)
{
    write_files();
    rewind_tape();
    space(FILEMARKS, 1);
    write_record(5);
    is_there();
    read_all();
    locate(1);
    write_marks(3);
    read_all();
}

static void locates_each_item(void)
{
    write_files();
    for (unsigned number = count + 1; number-- > 0;) {
        locate(number);
        is_there();
        read_record(TAR, 1);
    }
    locate(count + 1);
    is_there();
    locate(0xffffffff);
    is_there();
}

static void warns_early_and_takes_all_to_the_last_byte(void)
{
    make_empty();
    for (unsigned before = position + 1; before != position;) {
        before = position;
        write_record(65536);
    }
    is_there();
    write_marks(1);
    write_record((unsigned)(capacity - size_before() - OVERHEAD + 1));
    write_record((unsigned)(capacity - size_before() - OVERHEAD));
    is_there();
    write_record(1);
    write_marks(1);
    write_marks(0);
    is_there();
    read_all();
}

/* The early mark met, and passed by one byte. */
static void warns_after_the_early_mark(void)
{
    for (unsigned more = 0; more < 2; more++) {
        make_empty();
        while (early - size_before() > LONGEST)
            write_record(LONGEST / 2);
        write_record((unsigned)(early - size_before()) - OVERHEAD + more);
        is_there();
        write_marks(1);
        is_there();
    }
}

static void erases_from_here_to_the_end(void)
{
    write_files();
    locate(5);
    erase();
    is_there();
    read_record(TAR, 0);
    read_all();
    make_empty();
    read_all();
}

static void does_nothing_while_it_is_unloaded(void)
{
    write_files();
    load(0);
    test_ready();
    write_record(TAR);
    write_marks(1);
    write_marks(0);
    read_record(TAR, 0);
    space(BLOCKS, 1);
    space(END_OF_DATA, 0);
    locate(0);
    rewind_tape();
    erase();
    is_there();
    load(0);
    load(1);
    test_ready();
    is_there();
    read_on();
}

static void tells_other_sessions_of_a_load(void)
{
    static const unsigned char ready[6] = {0}, read_six[6] = {0x08, 0, 0, 0, 1, 0};
    struct iscsi_context *other = connected("iqn.2024-01.com.example:other");
    make_empty();
    write_record(1);
    load(0);
    must("another's TEST UNIT READY", 0, ask_on(other, ready, 6, NONE, 0), not_loaded());
    load(1);
    must("another's TEST UNIT READY", 1, ask_on(other, ready, 6, NONE, 0),
         refused(UNIT_ATTENTION, 0x2800));
    must("another's TEST UNIT READY", 2, ask_on(other, ready, 6, NONE, 0), good);
    must("another's READ", 1, ask_on(other, read_six, 6, IN, 1), (struct answer){.given = 1});
    position++;
    is_there();
    disconnect(other);
}

static void takes_records_of_each_length(void)
{
    static const unsigned lengths[] = {1, 2, 3, 4, 511, 512, 4096, 65535, 65536, 65537, 262143, 262144, 262145,
                                       LONGEST - 1, LONGEST};
    make_empty();
    for (size_t at = 0; at < sizeof lengths / sizeof *lengths; at++) {
        if (size_before() + lengths[at] + OVERHEAD > early)
            make_empty();
        write_record(lengths[at]);
        space(BLOCKS, -1);
        read_record(lengths[at], 0);
    }
    must("WRITE", LONGEST + 1, ask_six(0x0a, 0, LONGEST + 1, OUT, LONGEST + 1),
         refused(ILLEGAL_REQUEST, 0x2400));
    is_there();
}

/* mt tell and mt seek without the option scsi2logical, REPORT DENSITY SUPPORT, fixed blocks if their length is 0. */
static void refuses_what_is_left_out(void)
{
    static const unsigned char tell[10] = {0x34, 1}, seek[10] = {0x2b, 4}, density[10] = {0x44, [8] = 64};
    write_files();
    locate(2);
    must("READ POSITION with BT", 0, ask_on(session, tell, 10, IN, 20), field());
    must("LOCATE with BT", 0, ask_on(session, seek, 10, NONE, 0), field());
    must("READ with FIXED", 1, ask_six(0x08, 1, 1, IN, 512), field());
    must("READ with FIXED", 0, ask_six(0x08, 1, 0, NONE, 0), field());
    must("WRITE with FIXED", 1, ask_six(0x0a, 1, 1, OUT, 512), field());
    must("REPORT DENSITY SUPPORT", 0, ask_on(session, density, 10, IN, 64),
         refused(ILLEGAL_REQUEST, 0x2000));
    is_there();
    read_on();
}

/* Two files of fixed blocks, read by other numbers of them at a time: up to a filemark, over it, up to the end. */
static void reads_fixed_blocks_back(void)
{
    static const unsigned numbers[] = {1, 2, 20, 128, 2048};
    make_empty();
    set_blocks(512);
    write_blocks(20);
    write_blocks(128);
    write_blocks(0);
    write_blocks(1);
    write_marks(1);
    write_blocks(9);
    is_there();
    for (size_t at = 0; at < sizeof numbers / sizeof *numbers; at++) {
        rewind_tape();
        for (unsigned before = count + 1; before != position;) {
            before = position;
            read_blocks(numbers[at]);
        }
        read_blocks(0);
        is_there();
    }
    read_all();
    set_blocks(0);
    read_all();
}

static void takes_fixed_blocks_of_each_length(void)
{
    static const unsigned lengths[] = {1, 3, 20, 511, 4096, 65537, LONGEST / 2, LONGEST};
    for (size_t at = 0; at < sizeof lengths / sizeof *lengths; at++) {
        unsigned number = LONGEST / lengths[at] < 5 ? LONGEST / lengths[at] : 5;
        make_empty();
        set_blocks(lengths[at]);
        write_blocks(number);
        is_there();
        rewind_tape();
        read_blocks(number);
        read_blocks(1);
        is_there();
        if (lengths[at] > 1) {
            write_blocks(LONGEST / lengths[at] + 1);
            read_blocks(LONGEST / lengths[at] + 1);
        }
    }
    set_blocks(LONGEST + 1);
    set_blocks(0xffffff);
    set_blocks(0);
    is_there();
}

/* Records of another length than the blocks, which are passed and not given, and those that are read by their length. */
static void passes_records_of_another_length(void)
{
    write_files();
    set_blocks(512);
    rewind_tape();
    while (position < count)
        read_blocks(3);
    for (int is_silent = 0; is_silent < 2; is_silent++) {
        locate(4);
        read_record(512, is_silent);
        read_record(65535, is_silent);
        read_record(2, is_silent);
    }
    must("READ with FIXED and SILI", 1, ask_six(0x08, 3, 1, IN, 512), field());
    is_there();
    locate(4);
    write_blocks(3);
    read_all();
    set_blocks(0);
}

static void fills_a_tape_with_fixed_blocks(void)
{
    make_empty();
    set_blocks(65536);
    for (unsigned before = position + 1; before != position;) {
        before = position;
        write_blocks(7);
    }
    is_there();
    set_blocks(100);
    write_blocks((unsigned)((capacity - size_before()) / (100 + OVERHEAD)) + 3);
    write_blocks(2);
    is_there();
    set_blocks(0);
    read_all();
}

/* The block length stays over a load, and other sessions are told that it has changed. */
static void tells_other_sessions_of_blocks(void)
{
    static const unsigned char ready[6] = {0};
    struct iscsi_context *other = connected("iqn.2024-01.com.example:other");
    set_blocks(512);
    must("another's TEST UNIT READY", 0, ask_on(other, ready, 6, NONE, 0), refused(UNIT_ATTENTION, 0x2a01));
    set_blocks(512);
    must("another's TEST UNIT READY", 1, ask_on(other, ready, 6, NONE, 0), good);
    disconnect(other);
    load(0);
    load(1);
    has_blocks();
    make_empty();
    write_blocks(2);
    set_blocks(0);
    read_all();
}

/* One command of many, by chance. */
static void do_anything(void)
{
    unsigned chance = (unsigned)rand(), number = (unsigned)rand();
    switch (chance % 15) {
    case 0: case 1: case 2: write_record(number % 3 ? number % 2000 : number % 100000); break;
    case 3: write_marks(number % 4); break;
    case 4: case 5: read_record(number % 3 ? 2000 : number % 100000, number & 1); break;
    case 6: if (position < count) read_record(items[position].length, 0); break;
    case 7: space(BLOCKS, (long)(number % 41) - 20); break;
    case 8: space(FILEMARKS, (long)(number % 9) - 4); break;
    case 9: locate(number % (count + 3)); break;
    case 10: space(END_OF_DATA, 0); break;
    case 11: set_blocks(number % 4 ? number % 3000 : 0); break;
    case 12: write_blocks(number % 8); break;
    case 13: read_blocks(number % 12); break;
    default:
        if (number % 8 == 0)
            erase();
        else if (number % 8 == 1)
            load(1);
    }
}

static void keeps_up_with_a_list_by_chance(void)
{
    srand(23);
    make_empty();
    for (int turn = 0; turn < 3000 && wrong[0] == 0; turn++) {
        do_anything();
        is_there();
    }
    set_blocks(0);
    read_all();
}

/* The last: what it leaves is looked for later, if the tape outlives its server. */
static void leaves_three_files(void)
{
    seeds = 0;
    write_files();
    read_all();
}

static void has_the_files_that_were_left(void)
{
    static const unsigned left[] = {TAR, TAR, TAR, 0, 512, 65536, 1, LONGEST, 0, 32768, 0};
    seeds = 0;
    for (size_t at = 0; at < sizeof left / sizeof *left; at++)
        put(1, left[at]);
    position = 0;
    test_ready();
    is_there();
    read_on();
    read_all();
}

struct check {
    const char *name;
    void (*made)(void);
};

#define CHECK(name) {#name, name}

static const struct check checks[] = {
    CHECK(is_opened_as_linux_opens_it),
    CHECK(tells_that_nothing_is_there),
    CHECK(reads_files_back),
    CHECK(moves_nothing_for_no_byte),
    CHECK(tells_blocks_asked_too_long_or_too_short),
    CHECK(spaces_over_records),
    CHECK(spaces_over_files),
    CHECK(appends_a_file),
    CHECK(loses_what_is_after_a_write),
    CHECK(locates_each_item),
    CHECK(takes_records_of_each_length),
    CHECK(warns_after_the_early_mark),
    CHECK(warns_early_and_takes_all_to_the_last_byte),
    CHECK(erases_from_here_to_the_end),
    CHECK(does_nothing_while_it_is_unloaded),
    CHECK(tells_other_sessions_of_a_load),
    CHECK(refuses_what_is_left_out),
    CHECK(reads_fixed_blocks_back),
    CHECK(takes_fixed_blocks_of_each_length),
    CHECK(passes_records_of_another_length),
    CHECK(fills_a_tape_with_fixed_blocks),
    CHECK(tells_other_sessions_of_blocks),
    CHECK(keeps_up_with_a_list_by_chance),
    CHECK(leaves_three_files),
};
static const struct check kept = CHECK(has_the_files_that_were_left);

int main(int words, char **word)
{
    int passed = 0, failed = 0, is_kept = words == 5 && strcmp(word[4], "kept") == 0;
    if (words != 4 && !is_kept) {
        fprintf(stderr, "tape URL CAPACITY EARLY [kept]\n");
        return 2;
    }
    address = word[1];
    capacity = strtoul(word[2], NULL, 10);
    early = strtoul(word[3], NULL, 10);
    session = connected("iqn.2024-01.com.example:tape");
    const struct check *check = is_kept ? &kept : checks;
    for (size_t left = is_kept ? 1 : sizeof checks / sizeof *checks; left > 0; left--, check++) {
        wrong[0] = 0;
        check->made();
        if (wrong[0] != 0)
            printf("FAIL %s: %s\n", check->name, wrong);
        else
            printf("ok %s\n", check->name);
        *(wrong[0] != 0 ? &failed : &passed) += 1;
    }
    disconnect(session);
    printf("%d passed, %d failed\n", passed, failed);
    return failed > 0;
}
