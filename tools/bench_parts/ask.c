/* The asking end of a measurement on loopback: an initiator with one connection or many.

       ask port=N [NAME=VALUE ..]

   It logs in on so many `connections` (1), each a session of its own, to the target whose name is `target` (t1). On
   each it keeps `window` (1) commands in flight to the unit `lun` (0), until `count` were sent or the `milliseconds`
   are over. Then it prints how many commands were answered, the seconds that these took, and of the microseconds from the
   sending of a command to its answer the median, the 99th percentile and the most.

   What else the words may be stands in tools/bench_parts/load.h. */

#include "session.h"
#include <pthread.h>
#include <sys/epoll.h>

enum { FIRST_BURST = 65536, THREADS = 2, SAMPLES = 1 << 20, RESIDUAL = 0x06, HAS_STATUS = 0x01 };

/* A thread, which works for some of the sessions. */
struct worker {
    pthread_t thread;
    struct session *sessions;
    long count, in_flight, answered, sampled;
    uint64_t until;          /* no command is sent after this time */
    unsigned char *in, *out; /* what was read, and what is sent */
    uint32_t *samples;       /* nanoseconds from each command to its answer */
};

/* The bytes of a WRITE that come with its command. */
static size_t immediate(const struct session *session)
{
    return has_data_out() && !bare ? smaller((size_t)length, smaller(FIRST_BURST, session->segment)) : 0;
}

/* The header of the next command. */
static void command_of(const struct session *session, unsigned char *command)
{
    memset(command, 0, HEADER);
    command[0] = COMMAND;
    command[1] = has_data_out() ? 0xa1 : has_data_in() ? 0xc1 : 0x81;
    command[9] = (unsigned char)lun;
    put_number(command, 4, immediate(session));
    put_number(command, 16, session->next);
    put_number(command, 20, (size_t)length);
    put_number(command, 24, session->next);
    put_cdb(command + CDB, session->sent);
}

/* Sends commands until there are as many in flight as there may be. */
static void send_commands(struct worker *worker, struct session *session)
{
    size_t each = HEADER + immediate(session), size = 0;
    uint64_t now = nanoseconds();
    if (now >= worker->until)
        return;
    for (; session->sent - session->answered < window && session->sent < count; session->sent++) {
        command_of(session, worker->out + size);
        session->began[session->next++ % TAGS] = now;
        worker->in_flight++;
        size += each;
    }
    put(session->fd, worker->out, size);
}

/* Sends what an R2T asks for. */
static void send_data(struct worker *worker, struct session *session)
{
    const unsigned char *r2t = session->header;
    size_t at = number(r2t, 40), end = at + number(r2t, 44);
    for (size_t order = 0; at < end; order++) {
        unsigned char *data = worker->out;
        size_t part = smaller(end - at, session->segment);
        memset(data, 0, HEADER);
        data[0] = DATA_OUT;
        data[1] = at + part == end ? FINAL : 0;
        put_number(data, 4, part);
        memcpy(data + 8, r2t + 8, 16); /* LUN and tags */
        put_number(data, 36, order);
        put_number(data, 40, at);
        put(session->fd, data, HEADER + part);
        at += part;
    }
}

/* Notes that a command was answered which was sent at this time. */
static void note(struct worker *worker, uint64_t began, uint64_t now)
{
    worker->answered++;
    if (worker->sampled < SAMPLES)
        worker->samples[worker->sampled++] = (uint32_t)(now - began);
}

/* Takes an answer that is there as a whole. */
static void answer(struct worker *worker, struct session *session, uint64_t now)
{
    const unsigned char *header = session->header;
    int is_response = opcode(header) == RESPONSE, is_data = opcode(header) == DATA_IN;
    if (opcode(header) == R2T)
        send_data(worker, session);
    if (opcode(header) == R2T || opcode(header) == NOP_IN || (is_data && (header[1] & HAS_STATUS) == 0))
        return;
    if ((!is_response && !is_data) || (is_response && header[2] != 0) || header[3] != 0)
        refused("a command fails", header);
    if (header[1] & RESIDUAL && !kind->is_short)
        refused("a command has a residual", header);
    session->answered++;
    worker->in_flight--;
    note(worker, session->began[number(header, 16) % TAGS], now);
}

/* Takes what was read, and sends as many commands as were answered. */
static void take(struct worker *worker, struct session *session, size_t size)
{
    const unsigned char *in = worker->in;
    uint64_t now = nanoseconds();
    while (size > 0) {
        size_t more = smaller(session->held < HEADER ? HEADER - session->held : session->rest, size);
        if (session->held < HEADER) {
            memcpy(session->header + session->held, in, more);
            session->held += more;
            session->rest = session->held == HEADER ? rest_after(session->header) : 0;
        } else {
            session->rest -= more;
        }
        in += more;
        size -= more;
        if (session->held == HEADER && session->rest == 0) {
            session->held = 0;
            answer(worker, session, now);
        }
    }
    send_commands(worker, session);
}

/* Connects and resets, over and over. */
static void pour(struct worker *worker)
{
    struct linger none = {.l_onoff = 1};
    for (uint64_t began; (began = nanoseconds()) < worker->until;) {
        int fd = connected((unsigned short)port);
        setsockopt(fd, SOL_SOCKET, SO_LINGER, &none, sizeof none);
        close(fd);
        note(worker, began, nanoseconds());
    }
}

/* Keeps commands in flight on these sessions. Where there is one, it waits for its bytes and nothing else. */
static void *work(void *given)
{
    struct worker *worker = given;
    if (flood) {
        pour(worker);
        return NULL;
    }
    struct epoll_event events[CONNECTIONS];
    int poll = epoll_create1(0), ready = 1;
    events[0].data.ptr = worker->sessions;
    for (long k = 0; k < worker->count; k++) {
        struct epoll_event one = {.events = EPOLLIN, .data.ptr = worker->sessions + k};
        epoll_ctl(poll, EPOLL_CTL_ADD, worker->sessions[k].fd, &one);
        send_commands(worker, worker->sessions + k);
    }
    while (worker->in_flight > 0 && !stalled) {
        if (worker->count > 1)
            ready = epoll_wait(poll, events, CONNECTIONS, -1);
        for (int k = 0; k < ready; k++) {
            struct session *session = events[k].data.ptr;
            ssize_t n = read(session->fd, worker->in, ROOM);
            if (n <= 0)
                fail("read");
            take(worker, session, (size_t)n);
        }
    }
    close(poll);
    return NULL;
}

/* Lets as many threads work as are of use, each for a part of these sessions. */
static void run(struct worker *workers, struct session *sessions, long those)
{
    int threads = those < THREADS ? (int)those : THREADS;
    uint64_t until = nanoseconds() + (uint64_t)milliseconds * 1000000;
    for (int k = 0; k < threads; k++) {
        struct worker *worker = workers + k;
        long first = those * k / threads;
        worker->sessions = sessions + first;
        worker->count = those * (k + 1) / threads - first;
        worker->until = until;
        if (pthread_create(&worker->thread, NULL, work, worker) != 0)
            fail("pthread_create");
    }
    for (int k = 0; k < threads; k++)
        pthread_join(workers[k].thread, NULL);
}

static int by_size(const void *one, const void *other)
{
    uint32_t a = *(const uint32_t *)one, b = *(const uint32_t *)other;
    return (a > b) - (a < b);
}

/* Prints a line, and waits for one. */
static void wait_after(const char *line)
{
    char in[8];
    puts(line);
    fflush(stdout);
    if (fgets(in, sizeof in, stdin) == NULL)
        exit(0);
}

/* How many commands were answered, in how many seconds, and how long they took: half of them, all but one in a hundred, and
   all. */
static const char *told(const struct worker *workers, double seconds)
{
    static uint32_t samples[THREADS * SAMPLES];
    static char line[128];
    long answered = 0, sampled = 0;
    for (int k = 0; k < THREADS; k++) {
        memcpy(samples + sampled, workers[k].samples, (size_t)workers[k].sampled * sizeof *samples);
        sampled += workers[k].sampled;
        answered += workers[k].answered;
    }
    qsort(samples, (size_t)sampled, sizeof *samples, by_size);
    snprintf(line, sizeof line, "%ld %.6f %.2f %.2f %.2f", answered, seconds, samples[sampled / 2] / 1e3,
             samples[sampled * 99 / 100] / 1e3, samples[sampled > 0 ? sampled - 1 : 0] / 1e3);
    return line;
}

/* What the workers read into and send from. */
static void furnish(struct worker *workers)
{
    for (int k = 0; k < THREADS; k++) {
        workers[k].in = room(ROOM);
        workers[k].out = room(WINDOW * (HEADER + FIRST_BURST) + MOST);
        workers[k].samples = room(SAMPLES * sizeof *workers[k].samples);
    }
}

/* Lets the sessions work, all at once or one after the other. What is told of it. */
static const char *measured(struct worker *workers, struct session *sessions)
{
    uint64_t began = nanoseconds();
    for (long k = 0; k < (apart ? connections : 1); k++)
        run(workers, sessions + k, apart ? 1 : connections);
    return told(workers, (double)(nanoseconds() - began) / 1e9);
}

int main(int words, char **word)
{
    int is_clear = words > 1;
    for (int k = 1; k < words; k++)
        is_clear &= is_taken(word[k]);
    if (!is_clear || port == 0 || connections == 0 || length % BLOCK != 0) {
        fprintf(stderr, "ask port=N [NAME=VALUE ..], by tools/bench_parts/ask.c\n");
        return 2;
    }
    struct session *sessions = room((size_t)connections * sizeof *sessions);
    struct worker workers[THREADS] = {0};
    char in_force[64];
    furnish(workers);
    for (int k = 0; k < connections && !flood; k++)
        begin(sessions + k, k);
    snprintf(in_force, sizeof in_force, "logged in %ld", sessions->asks);
    if (held)
        wait_after(in_force);
    const char *line = measured(workers, sessions);
    if (held)
        wait_after(line);
    else
        puts(line);
    return 0;
}
