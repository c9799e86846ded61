/* An initiator on libiscsi that has a WRITE of 1 MiB removed while the target waits for its data.

       removal URL FUNCTION    1 ABORT TASK, 2 ABORT TASK SET, 5 LOGICAL UNIT RESET, 6 TARGET WARM RESET

   It sends no data that was not asked for. When SIGUSR1 comes, it asks for the function, and then for what was written:
   the front of the disk must be as it was before. Then it WRITEs again and reads that back. Ends with status 0 if all
   was as it must be. */

#include <iscsi/iscsi.h>
#include <iscsi/scsi-lowlevel.h>
#include <poll.h>
#include <signal.h>
#include <stdio.h>
#include <stdlib.h>
#include <string.h>

enum { LENGTH = 1 << 20, BLOCK = 512, LOOKS = 200, PAUSE = 100 /* ms */, ATTENTIONS = 4 };

static struct iscsi_context *session;
static int lun;
static unsigned char data[LENGTH];
static volatile sig_atomic_t is_told, is_answered;
static int response = -1;

static void fail(const char *what)
{
    fprintf(stderr, "%s: %s\n", what, iscsi_get_error(session));
    exit(1);
}

static void told(int number)
{
    is_told = number;
}

/* The answer to the function. */
static void take(struct iscsi_context *context, int status, void *result, void *unused)
{
    (void)context, (void)unused;
    is_answered = 1;
    response = status == SCSI_STATUS_GOOD ? (int)*(uint32_t *)result : -1;
}

/* The end of a WRITE that is removed: it has none but that the session ends. */
static void removed(struct iscsi_context *context, int status, void *result, void *unused)
{
    (void)context, (void)result, (void)unused;
    if (status != SCSI_STATUS_CANCELLED)
        fail("the WRITE is answered");
}

/* Lets the session work until a flag is set, and does nothing more once it is. */
static void work_until(volatile sig_atomic_t *flag)
{
    for (int left = LOOKS; !*flag && left > 0;) {
        struct pollfd one = {.fd = iscsi_get_fd(session), .events = (short)iscsi_which_events(session)};
        left -= poll(&one, 1, PAUSE) == 0;
        if (!*flag && one.revents && iscsi_service(session, one.revents) != 0)
            fail("the session ends");
    }
    if (!*flag)
        fail("nothing comes any more");
}

/* Sends what is to be sent, and reads nothing: no R2T that comes meanwhile is answered before. */
static void send_all(void)
{
    while (iscsi_out_queue_length(session) > 0)
        if (iscsi_service(session, POLLOUT) != 0)
            fail("the session ends");
}

static void must_be_good(const char *what, struct scsi_task *task)
{
    if (!task || task->status != SCSI_STATUS_GOOD)
        fail(what);
}

/* Waits until its unit attentions are told. */
static void make_ready(void)
{
    for (int times = 0; times < ATTENTIONS; times++) {
        struct scsi_task *task = iscsi_testunitready_sync(session, lun);
        int is_good = task && task->status == SCSI_STATUS_GOOD;
        if (task)
            scsi_free_scsi_task(task);
        if (is_good)
            return;
    }
    fail("the unit is not ready");
}

/* The front of the disk has this byte alone. */
static void must_hold(int byte)
{
    struct scsi_task *task = iscsi_read10_sync(session, lun, 0, LENGTH, BLOCK, 0, 0, 0, 0, 0);
    must_be_good("READ", task);
    if (task->datain.size != LENGTH)
        fail("READ gives less");
    for (int at = 0; at < LENGTH; at++)
        if (task->datain.data[at] != byte) {
            fprintf(stderr, "byte %d is %02x\n", at, task->datain.data[at]);
            exit(1);
        }
    scsi_free_scsi_task(task);
}

static void log_in(const char *address)
{
    session = iscsi_create_context("iqn.2024-01.com.example:removal");
    struct iscsi_url *url = iscsi_parse_full_url(session, address);
    if (!url || iscsi_set_targetname(session, url->target) || iscsi_set_session_type(session, ISCSI_SESSION_NORMAL)
        || iscsi_set_immediate_data(session, ISCSI_IMMEDIATE_DATA_NO)
        || iscsi_set_initial_r2t(session, ISCSI_INITIAL_R2T_YES))
        fail("URL");
    iscsi_set_noautoreconnect(session, 1);
    lun = url->lun;
    if (iscsi_full_connect_sync(session, url->portal, lun) != 0)
        fail("the login");
    iscsi_destroy_url(url);
}

int main(int words, char **word)
{
    int function = words == 3 ? atoi(word[2]) : 0;
    if (function == 0) {
        fprintf(stderr, "removal URL FUNCTION\n");
        return 2;
    }
    signal(SIGUSR1, told);
    log_in(word[1]);
    make_ready();
    memset(data, 0x77, LENGTH);
    struct scsi_task *task = iscsi_write10_task(session, lun, 0, data, LENGTH, BLOCK, 0, 0, 0, 0, 0, removed, NULL);
    if (!task)
        fail("WRITE");
    work_until(&is_told);
    if (iscsi_task_mgmt_async(session, lun, function, function == 1 ? task->itt : 0xffffffff, task->cmdsn, take, NULL))
        fail("the function");
    send_all();
    work_until(&is_answered);
    if (response != 0)
        fail("the function is not done");
    iscsi_scsi_cancel_task(session, task);
    make_ready();
    must_hold(0);
    memset(data, 0x5a, LENGTH);
    must_be_good("WRITE", iscsi_write10_sync(session, lun, 0, data, LENGTH, BLOCK, 0, 0, 0, 0, 0));
    must_hold(0x5a);
    iscsi_logout_sync(session);
    iscsi_destroy_context(session);
    return 0;
}
