/* The answering end of a measurement on loopback: a plain server, which does no more than any target must do.

       answer plain CONNECTIONS           data is not touched: READs are answered by bytes that are there, and those of
                                         a WRITE are passed over
       answer limit CONNECTIONS BYTES     has a store of so many bytes. The data of a READ is copied from there into its
                                         answer, and that of a WRITE from what was read to there, each once
       answer staged CONNECTIONS BYTES    the same, but it reads 64 KiB at a time, and the data of a WRITE is copied from
                                         there into a buffer that the command has to itself, and from that one to the
                                         store once all of it has come. Buffers are used again

   It prints its port, and answers whoever connects. Where one connects at a time it waits for nothing but the next
   bytes of that one; if more do, it asks epoll. Every login is accepted, every command is a READ, a WRITE or
   without data, and an R2T asks for all that does not come with a WRITE. */

#include "fields.h"
#include <sys/epoll.h>
#include <unistd.h>

enum { READS = 0x40, WRITES = 0x20, TAGS = 64, LONGEST = 1 << 20 /* bytes that a command has at most */, STAGE = 65536 };

/* What the data of a WRITE comes into that is copied twice, or one that waits to be used again. */
union buffer {
    union buffer *next;
    unsigned char bytes[LONGEST];
};

struct command {
    size_t at, length;  /* where in the store its data begins */
    union buffer *own;  /* of a WRITE whose data is copied twice */
};

struct client {
    int fd;
    size_t held, rest;             /* how much of a header was read, and how much of its data is still to come */
    unsigned char *to;             /* where that data goes, if anywhere */
    struct command commands[TAGS]; /* by their tags */
    unsigned char header[HEADER];
};

static unsigned char *store; /* none if data is not touched */
static size_t store_size, at_once = MOST; /* and how much is read at once */
static int is_staged;
static union buffer *spare;
static unsigned char out[MOST + 2 * HEADER + MOST]; /* what waits to be written, to one client at a time */
static size_t waiting;

/* Writes what waits. A client that is gone gets nothing, and its end is told by the next read. */
static void flush(const struct client *client)
{
    for (size_t at = 0; at < waiting;) {
        ssize_t n = send(client->fd, out + at, waiting - at, MSG_NOSIGNAL);
        if (n <= 0)
            break;
        at += (size_t)n;
    }
    waiting = 0;
}

/* Adds a header to what waits, which answers the PDU that was read. */
static unsigned char *add(const struct client *client, unsigned char operation, unsigned char flags)
{
    unsigned char *header = out + waiting;
    memset(header, 0, HEADER);
    header[0] = operation;
    header[1] = flags;
    memcpy(header + 16, client->header + 16, 4);
    waiting += HEADER;
    return header;
}

/* Ends if something is not so that must be. */
static void must(int is_so)
{
    if (!is_so) {
        fprintf(stderr, "a command is too long, or beyond the store\n");
        exit(1);
    }
}

/* A buffer that nobody has, the last that was given back if there is one. */
static union buffer *taken(void)
{
    union buffer *buffer = spare;
    if (buffer == NULL)
        return room(sizeof *buffer);
    spare = buffer->next;
    return buffer;
}

/* Gives back the buffer that a command has, if it has any. */
static void give_back(struct command *command)
{
    if (command->own == NULL)
        return;
    command->own->next = spare;
    spare = command->own;
    command->own = NULL;
}

/* The command whose tag was read. */
static struct command *command_of(struct client *client)
{
    return &client->commands[number(client->header, 16) % TAGS];
}

/* The data of a PDU begins whose header was read. */
static void begin(struct client *client)
{
    const unsigned char *header = client->header;
    struct command *command = command_of(client);
    size_t at = opcode(header) == DATA_OUT ? number(header, 40) : 0;
    client->rest = rest_after(header);
    client->to = NULL;
    if (opcode(header) == COMMAND) {
        command->at = number(header, 34) * BLOCK;
        command->length = number(header, 20);
        must(command->length <= LONGEST && (store == NULL || command->at + command->length <= store_size));
        if (is_staged && header[1] & WRITES)
            command->own = taken();
    }
    if (store == NULL || opcode(header) == LOGIN || client->rest == 0)
        return;
    must(at + client->rest <= command->length);
    client->to = command->own != NULL ? command->own->bytes + at : store + command->at + at;
}

/* Answers a READ by its data, a PDU for as much as each may have. */
static void answer_read(const struct client *client, const struct command *command)
{
    for (size_t at = 0, part; at < command->length; at += part) {
        part = smaller(command->length - at, MOST);
        unsigned char *data = add(client, DATA_IN, FINAL);
        put_number(data, 4, part);
        put_number(data, 40, at);
        if (store != NULL)
            memcpy(out + waiting, store + command->at + at, part);
        waiting += part;
        if (waiting >= MOST)
            flush(client);
    }
}

/* Answers a WRITE all of whose data has come, which is stored if it was not before. */
static void answer_write(struct client *client)
{
    struct command *command = command_of(client);
    if (command->own != NULL)
        memcpy(store + command->at, command->own->bytes, command->length);
    give_back(command);
    add(client, RESPONSE, FINAL);
}

/* Answers a command, after the data that came with it. */
static void answer_command(struct client *client)
{
    const unsigned char *header = client->header;
    size_t length = number(header, 20), came = segment(header);
    if (header[1] & WRITES && came < length) {
        unsigned char *r2t = add(client, R2T, FINAL);
        put_number(r2t, 40, came);
        put_number(r2t, 44, length - came);
        return;
    }
    if (header[1] & WRITES) {
        answer_write(client);
        return;
    }
    if (header[1] & READS)
        answer_read(client, command_of(client));
    add(client, RESPONSE, FINAL);
}

/* Accepts a login, and says how much data a PDU may have. */
static void answer_login(const struct client *client)
{
    static const char text[] = "MaxRecvDataSegmentLength=262144"; /* with its end a multiple of four bytes */
    put_number(add(client, ACCEPTED, LOGGED_IN), 4, sizeof text);
    memcpy(out + waiting, text, sizeof text);
    waiting += sizeof text;
}

/* Answers a PDU that was read as a whole. */
static void answer(struct client *client)
{
    const unsigned char *header = client->header;
    if (opcode(header) == COMMAND)
        answer_command(client);
    else if (opcode(header) == LOGIN)
        answer_login(client);
    else if (opcode(header) == DATA_OUT && header[1] & FINAL)
        answer_write(client);
    if (waiting >= MOST)
        flush(client);
}

/* Takes what was read, and answers each PDU that is there as a whole. */
static void take(struct client *client, const unsigned char *in, size_t count)
{
    while (count > 0) {
        size_t more = smaller(client->held < HEADER ? HEADER - client->held : client->rest, count);
        if (client->held < HEADER) {
            memcpy(client->header + client->held, in, more);
            client->held += more;
            if (client->held == HEADER)
                begin(client);
        } else {
            if (client->to != NULL) {
                memcpy(client->to, in, more);
                client->to += more;
            }
            client->rest -= more;
        }
        in += more;
        count -= more;
        if (client->held == HEADER && client->rest == 0) {
            answer(client);
            client->held = 0;
        }
    }
    flush(client);
}

/* Answers what can be read. Whether the client is still there. */
static int is_served(struct client *client)
{
    static unsigned char in[MOST];
    ssize_t n = read(client->fd, in, at_once);
    if (n <= 0) {
        close(client->fd);
        for (int k = 0; k < TAGS; k++)
            give_back(client->commands + k);
        free(client);
        return 0;
    }
    take(client, in, (size_t)n);
    return 1;
}

static struct client *accepted(int listener)
{
    int on = 1;
    struct client *client = room(sizeof *client);
    if ((client->fd = accept(listener, NULL, NULL)) < 0)
        fail("accept");
    setsockopt(client->fd, IPPROTO_TCP, TCP_NODELAY, &on, sizeof on);
    return client;
}

/* Serves those who connect one after the other. */
static void serve_one(int listener)
{
    for (;;) {
        struct client *client = accepted(listener);
        while (is_served(client))
            continue;
    }
}

/* Serves those who connect at the same time. */
static void serve_many(int listener)
{
    struct epoll_event events[CONNECTIONS], new = {.events = EPOLLIN};
    int poll = epoll_create1(0);
    epoll_ctl(poll, EPOLL_CTL_ADD, listener, &new);
    for (;;) {
        int ready = epoll_wait(poll, events, CONNECTIONS, -1);
        for (int k = 0; k < ready; k++) {
            if (events[k].data.ptr != NULL) {
                is_served(events[k].data.ptr);
                continue;
            }
            struct client *client = accepted(listener);
            struct epoll_event one = {.events = EPOLLIN, .data.ptr = client};
            epoll_ctl(poll, EPOLL_CTL_ADD, client->fd, &one);
        }
    }
}

int main(int count, char **words)
{
    const char *kind = count > 1 ? words[1] : "";
    int has_store = count == 4 && (strcmp(kind, "limit") == 0 || strcmp(kind, "staged") == 0) && atol(words[3]) > 0;
    if (!has_store && (count != 3 || strcmp(kind, "plain") != 0)) {
        fprintf(stderr, "answer plain CONNECTIONS | answer limit CONNECTIONS BYTES | answer staged CONNECTIONS BYTES\n");
        return 2;
    }
    if (has_store && strcmp(kind, "staged") == 0) {
        is_staged = 1;
        at_once = STAGE;
    }
    if (has_store) {
        store_size = (size_t)atol(words[3]);
        store = room(store_size);
        memset(store, 1, store_size); /* so that all its memory was used before */
    }
    if (atol(words[2]) > 1)
        serve_many(listening());
    serve_one(listening());
}
