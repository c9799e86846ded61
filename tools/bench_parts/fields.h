/* What the ends of a measurement and the way between them need (tools/bench_parts/answer.c, tools/bench_parts/ask.c, tools/bench_parts/delay.c):
   the fields of a PDU, sockets, the time. */

#include <arpa/inet.h>
#include <netinet/tcp.h>
#include <stdint.h>
#include <stdio.h>
#include <stdlib.h>
#include <string.h>
#include <sys/socket.h>
#include <time.h>

enum { HEADER = 48, BLOCK = 512, MOST = 262144 /* bytes of data that a PDU has at most */ };
enum { CONNECTIONS = 64, BACKLOG = 64, OPCODE = 0x3f, FINAL = 0x80, LOGGED_IN = 0x87 };
enum { CDB = 32 /* where it stands in a header */ };
enum { COMMAND = 0x01, LOGIN = 0x03, DATA_OUT = 0x05 };
enum { NOP_IN = 0x20, RESPONSE = 0x21, ACCEPTED = 0x23, DATA_IN = 0x25, R2T = 0x31 };

static inline void fail(const char *what)
{
    perror(what);
    exit(1);
}

static inline void *room(size_t size)
{
    void *bytes = calloc(1, size);
    if (bytes == NULL)
        fail("calloc");
    return bytes;
}

static inline size_t smaller(size_t one, size_t other)
{
    return one < other ? one : other;
}

static inline void put_number(unsigned char *header, size_t at, size_t value)
{
    unsigned big = htonl((unsigned)value);
    memcpy(header + at, &big, 4);
}

static inline size_t number(const unsigned char *header, size_t at)
{
    unsigned big;
    memcpy(&big, header + at, 4);
    return ntohl(big);
}

static inline int opcode(const unsigned char *header)
{
    return header[0] & OPCODE;
}

/* How much data a PDU has. */
static inline size_t segment(const unsigned char *header)
{
    return number(header, 4) & 0xffffff;
}

/* The bytes after a header: additional headers, and the data with what brings it to a multiple of four. */
static inline size_t rest_after(const unsigned char *header)
{
    return 4 * (size_t)header[4] + ((segment(header) + 3) & ~(size_t)3);
}

static inline uint64_t nanoseconds(void)
{
    struct timespec now;
    clock_gettime(CLOCK_MONOTONIC, &now);
    return (uint64_t)now.tv_sec * 1000000000 + (uint64_t)now.tv_nsec;
}

/* Loopback, with this port. */
static inline struct sockaddr_in loopback(unsigned short port)
{
    return (struct sockaddr_in){.sin_family = AF_INET, .sin_port = htons(port),
                                .sin_addr.s_addr = htonl(INADDR_LOOPBACK)};
}

/* A connection to this port. */
static inline int connected(unsigned short port)
{
    struct sockaddr_in address = loopback(port);
    int fd = socket(AF_INET, SOCK_STREAM, 0), on = 1;
    if (connect(fd, (struct sockaddr *)&address, sizeof address) != 0)
        fail("connect");
    setsockopt(fd, IPPROTO_TCP, TCP_NODELAY, &on, sizeof on);
    return fd;
}

/* A socket that listens, whose port is printed. */
static inline int listening(void)
{
    struct sockaddr_in address = loopback(0);
    socklen_t size = sizeof address;
    int listener = socket(AF_INET, SOCK_STREAM, 0);
    if (bind(listener, (struct sockaddr *)&address, sizeof address) != 0 || listen(listener, BACKLOG) != 0)
        fail("listen");
    getsockname(listener, (struct sockaddr *)&address, &size);
    printf("listening on 127.0.0.1:%d\n", ntohs(address.sin_port));
    fflush(stdout);
    return listener;
}
