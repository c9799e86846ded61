/* Makes calls of the C library fail in the program that this is loaded into (LD_PRELOAD).
 *
 *   FAIL_CALL    allocation, input (read of descriptor 0), file (read of another), output (write to 1),
 *                store (a read or write at a place of a file, a sync of it, or a change of its length), unit (one of
 *                these, or a seek to the end of a file), accept, receive (a read of a connection), or send (a write to one)
 *   FAIL_NUMBER  which call of these fails, counted from 1 since the program's own start
 *   FAIL_TIMES   how many fail from that one on; 1 unless it is set
 *   FAIL_THEN    errno of the call after these, which fails too, unless it is 0
 *   FAIL_ON      1: all calls after it fail too
 *   FAIL_ERROR   errno of the failed call; 0: it reads or writes no byte and is no error
 *   FAIL_PART    the call, a read or write at a place of a file, moves its bytes divided by this, at least one; FAIL_TIMES
 *                is of those after it, and 0 unless it is set
 *   FAIL_PIECE   the most bytes that a read of descriptor 0 or a write to descriptor 1 moves, or, if FAIL_CALL is send,
 *                a write to a connection, or, if it is store, a read or a write at a place of a file
 *   FAIL_REPORT  the descriptor that is told `failed` for each call that failed
 *   FAIL_TRACE   the descriptor that is told each call of the kind unit, in a line: read, write, cut, sync or seek, its
 *                descriptor, offset and bytes, and what it returned, or its errno below 0
 */
#include <errno.h>
#include <stddef.h>
#include <stdio.h>
#include <stdlib.h>
#include <string.h>
#include <sys/socket.h>
#include <sys/syscall.h>
#include <sys/types.h>
#include <sys/uio.h>
#include <unistd.h>

extern void *__libc_malloc(size_t);
extern void *__libc_calloc(size_t, size_t);
extern void *__libc_realloc(void *, size_t);
extern void *__libc_memalign(size_t, size_t);

static const char *which;
static long number, times, then, every_one, error, part, piece, report, trace, calls;

static long setting(const char *name)
{
    const char *value = getenv(name);
    return value ? strtol(value, NULL, 10) : 0;
}

/* Runs before main. What the C library allocated until then is not counted. */
__attribute__((constructor)) static void read_settings(void)
{
    number = setting("FAIL_NUMBER");
    times = setting("FAIL_TIMES");
    then = setting("FAIL_THEN");
    every_one = setting("FAIL_ON");
    error = setting("FAIL_ERROR");
    part = setting("FAIL_PART");
    piece = setting("FAIL_PIECE");
    report = setting("FAIL_REPORT");
    trace = setting("FAIL_TRACE");
    if (!times && !part)
        times = 1;
    which = getenv("FAIL_CALL");
}

/* Returns the errno of the call that was counted last, or -1 if it is not to fail. */
static long error_of_last(void)
{
    long first = number + (part != 0);
    if (!number || calls < first)
        return -1;
    if (every_one || calls < first + times)
        return error;
    return then && calls == first + times ? then : -1;
}

/* Counts a call, and says whether it is to fail. */
static int fails(const char *call)
{
    if (!which || strcmp(call, which))
        return 0;
    calls++;
    long found = error_of_last();
    if (found < 0)
        return 0;
    if (report)
        syscall(SYS_write, report, "failed\n", 7);
    errno = (int)found;
    return 1;
}

void *malloc(size_t size)
{
    return fails("allocation") ? NULL : __libc_malloc(size);
}

void *calloc(size_t count, size_t size)
{
    return fails("allocation") ? NULL : __libc_calloc(count, size);
}

void *realloc(void *old, size_t size)
{
    return fails("allocation") ? NULL : __libc_realloc(old, size);
}

void *memalign(size_t alignment, size_t size)
{
    return fails("allocation") ? NULL : __libc_memalign(alignment, size);
}

void *aligned_alloc(size_t alignment, size_t size)
{
    return memalign(alignment, size);
}

int posix_memalign(void **out, size_t alignment, size_t size)
{
    void *made = memalign(alignment, size);
    if (made)
        *out = made;
    return made ? 0 : ENOMEM;
}

static size_t at_most(size_t count)
{
    return piece && (size_t)piece < count ? (size_t)piece : count;
}

/* The same if calls of this kind are chosen. */
static size_t at_most_of(const char *call, size_t count)
{
    return which && !strcmp(call, which) ? at_most(count) : count;
}

ssize_t read(int descriptor, void *out, size_t count)
{
    if (fails(descriptor == 0 ? "input" : "file"))
        return error ? -1 : 0;
    return syscall(SYS_read, descriptor, out, descriptor == 0 ? at_most(count) : count);
}

ssize_t write(int descriptor, const void *bytes, size_t count)
{
    if (descriptor == 1 && fails("output"))
        return error ? -1 : 0;
    return syscall(SYS_write, descriptor, bytes, descriptor == 1 ? at_most(count) : count);
}

ssize_t __write(int descriptor, const void *bytes, size_t count)
{
    return write(descriptor, bytes, count);
}

/* Counts a call on a file, and returns whether it is to fail. */
static int fails_on_file(void)
{
    return fails("store") || fails("unit");
}

/* Returns what a read or write of a file returns that fails. */
static ssize_t failed(void)
{
    return errno ? -1 : 0;
}

/* Returns the most bytes that a read or write of a file moves. */
static size_t at_most_of_file(size_t count)
{
    if (!part || calls != number)
        return at_most_of("store", count);
    size_t moved = count / (size_t)part;
    return moved || !count ? moved : 1;
}

/* Reports a call on a file, and returns what it returned. */
static ssize_t traced(const char *kind, int descriptor, off_t at, size_t count, ssize_t result)
{
    char line[120];
    int kept = errno;
    if (trace) {
        int length = snprintf(line, sizeof line, "%s %d %lld %zu %lld\n", kind, descriptor, (long long)at, count,
                              result < 0 ? -(long long)kept : (long long)result);
        syscall(SYS_write, trace, line, (size_t)length);
    }
    errno = kept;
    return result;
}

ssize_t pread64(int descriptor, void *out, size_t count, off_t at)
{
    ssize_t moved = fails_on_file() ? failed()
                                    : syscall(SYS_pread64, descriptor, out, at_most_of_file(count), at);
    return traced("read", descriptor, at, count, moved);
}

ssize_t pread(int descriptor, void *out, size_t count, off_t at)
{
    return pread64(descriptor, out, count, at);
}

ssize_t pwrite64(int descriptor, const void *bytes, size_t count, off_t at)
{
    ssize_t moved = fails_on_file() ? failed()
                                    : syscall(SYS_pwrite64, descriptor, bytes, at_most_of_file(count), at);
    return traced("write", descriptor, at, count, moved);
}

ssize_t pwrite(int descriptor, const void *bytes, size_t count, off_t at)
{
    return pwrite64(descriptor, bytes, count, at);
}

#define SLICES 16 /* more than the program writes with one call */

/* Writes the front of some slices at the place of a file, at most so many bytes. */
static ssize_t write_front(int descriptor, const struct iovec *slices, int many, size_t most)
{
    struct iovec front[SLICES];
    int used = 0;
    for (; used < many && used < SLICES && most; used++) {
        front[used] = slices[used];
        if (front[used].iov_len > most)
            front[used].iov_len = most;
        most -= front[used].iov_len;
    }
    return syscall(SYS_writev, descriptor, front, used);
}

/* As a write at a place: that of the file, which was sought before. */
ssize_t writev(int descriptor, const struct iovec *slices, int many)
{
    off_t at = syscall(SYS_lseek, descriptor, 0, SEEK_CUR);
    size_t count = 0;
    for (int k = 0; k < many; k++)
        count += slices[k].iov_len;
    ssize_t moved = fails_on_file() ? failed() : write_front(descriptor, slices, many, at_most_of_file(count));
    return traced("write", descriptor, at, count, moved);
}

int fsync(int descriptor)
{
    return (int)traced("sync", descriptor, 0, 0, fails_on_file() ? -1 : syscall(SYS_fsync, descriptor));
}

int fdatasync(int descriptor)
{
    return (int)traced("sync", descriptor, 0, 0, fails_on_file() ? -1 : syscall(SYS_fdatasync, descriptor));
}

int ftruncate64(int descriptor, off_t length)
{
    return (int)traced("cut", descriptor, length, 0, fails_on_file() ? -1 : syscall(SYS_ftruncate, descriptor, length));
}

int ftruncate(int descriptor, off_t length)
{
    return ftruncate64(descriptor, length);
}

off_t lseek64(int descriptor, off_t offset, int from)
{
    if (from != SEEK_END)
        return syscall(SYS_lseek, descriptor, offset, from);
    return traced("seek", descriptor, offset, 0, fails("unit") ? -1 : syscall(SYS_lseek, descriptor, offset, from));
}

off_t lseek(int descriptor, off_t offset, int from)
{
    return lseek64(descriptor, offset, from);
}

ssize_t recv(int connection, void *out, size_t count, int flags)
{
    if (fails("receive"))
        return error ? -1 : 0;
    return syscall(SYS_recvfrom, connection, out, count, flags, NULL, NULL);
}

ssize_t send(int connection, const void *bytes, size_t count, int flags)
{
    if (fails("send"))
        return error ? -1 : 0;
    return syscall(SYS_sendto, connection, bytes, at_most_of("send", count), flags, NULL, 0);
}

int accept4(int listener, struct sockaddr *address, socklen_t *length, int flags)
{
    return fails("accept") ? -1 : (int)syscall(SYS_accept4, listener, address, length, flags);
}
