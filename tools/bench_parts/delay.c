/* A long way on loopback: what comes from either side goes on after so many microseconds, at whatever rate it comes.

       delay PORT MICROSECONDS

   It prints its port, and carries one connection after the other to the target at PORT. */

#define _GNU_SOURCE /* ppoll */
#include "fields.h"
#include <errno.h>
#include <poll.h>
#include <sys/prctl.h>
#include <unistd.h>

enum { PIECES = 256, PIECE = 65536, FOREVER = 3600, SECOND = 1000000000 };

struct piece {
    uint64_t due; /* when it goes on */
    size_t size;
    unsigned char bytes[PIECE];
};

/* One direction of a connection, with what is on its way. */
struct way {
    int from, to, is_over, is_shut;
    size_t first, count, sent; /* the pieces on their way, and how much of the first is sent on */
    struct piece pieces[PIECES];
};

/* What is to be waited for. Gives the time of the next piece, if it is sooner. */
static uint64_t watch(const struct way *way, struct pollfd *polls, uint64_t now, uint64_t next)
{
    uint64_t due = way->count > 0 ? way->pieces[way->first].due : UINT64_MAX;
    polls[0] = (struct pollfd){.fd = way->is_over || way->count == PIECES ? -1 : way->from, .events = POLLIN};
    polls[1] = (struct pollfd){.fd = due <= now ? way->to : -1, .events = POLLOUT};
    return due > now && due < next ? due : next;
}

/* Takes what came. */
static void take(struct way *way, uint64_t delay)
{
    struct piece *piece = way->pieces + (way->first + way->count) % PIECES;
    ssize_t n = read(way->from, piece->bytes, PIECE);
    way->is_over = n <= 0;
    if (n <= 0)
        return;
    piece->size = (size_t)n;
    piece->due = nanoseconds() + delay;
    way->count++;
}

/* Sends on the first piece, as far as it is taken. Whether the other side is still there. */
static int is_sent(struct way *way)
{
    const struct piece *piece = way->pieces + way->first;
    ssize_t n = send(way->to, piece->bytes + way->sent, piece->size - way->sent, MSG_NOSIGNAL | MSG_DONTWAIT);
    if (n < 0)
        return errno == EAGAIN;
    way->sent += (size_t)n;
    if (way->sent == piece->size) {
        way->first = (way->first + 1) % PIECES;
        way->count--;
        way->sent = 0;
    }
    return 1;
}

/* Carries on what is ready, and the end after the last piece. Whether the other side is still there. */
static int is_carried(struct way *way, const struct pollfd *polls, uint64_t delay)
{
    if (polls[1].revents != 0 && !is_sent(way))
        return 0;
    if (polls[0].revents != 0)
        take(way, delay);
    if (way->is_over && way->count == 0 && !way->is_shut) {
        shutdown(way->to, SHUT_WR);
        way->is_shut = 1;
    }
    return 1;
}

/* Carries both directions of a connection until they end. */
static void carry(struct way *ways, uint64_t delay)
{
    int goes_on = 1;
    while (goes_on && !(ways[0].is_shut && ways[1].is_shut)) {
        struct pollfd polls[4];
        uint64_t now = nanoseconds(), next = now + (uint64_t)FOREVER * SECOND;
        for (int k = 0; k < 2; k++)
            next = watch(ways + k, polls + 2 * k, now, next);
        struct timespec wait = {.tv_sec = (time_t)((next - now) / SECOND), .tv_nsec = (long)((next - now) % SECOND)};
        if (ppoll(polls, 4, &wait, NULL) < 0)
            fail("ppoll");
        for (int k = 0; k < 2; k++)
            goes_on = goes_on && is_carried(ways + k, polls + 2 * k, delay);
    }
}

static void set_out(struct way *way, int from, int to)
{
    int on = 1;
    setsockopt(to, IPPROTO_TCP, TCP_NODELAY, &on, sizeof on);
    way->from = from;
    way->to = to;
    way->is_over = way->is_shut = 0;
    way->first = way->count = way->sent = 0;
}

int main(int count, char **words)
{
    static struct way ways[2];
    if (count != 3 || atol(words[1]) <= 0 || atol(words[2]) < 0) {
        fprintf(stderr, "delay PORT MICROSECONDS\n");
        return 2;
    }
    prctl(PR_SET_TIMERSLACK, 1);
    for (int listener = listening();;) {
        int initiator = accept(listener, NULL, NULL), target = connected((unsigned short)atol(words[1]));
        set_out(ways, initiator, target);
        set_out(ways + 1, target, initiator);
        carry(ways, (uint64_t)atol(words[2]) * 1000);
        close(initiator);
        close(target);
    }
}
