/* Lets the time-outs of TCP that a program sets come ten times sooner (LD_PRELOAD), so that a test of them is short. */
#define _GNU_SOURCE
#include <dlfcn.h>
#include <netinet/in.h>
#include <netinet/tcp.h>
#include <string.h>
#include <sys/socket.h>

int setsockopt(int fd, int level, int name, const void *value, socklen_t length) {
    int (*call)(int, int, int, const void *, socklen_t) = dlsym(RTLD_NEXT, "setsockopt");
    int number = 0;
    if (level == IPPROTO_TCP && length == sizeof number
        && (name == TCP_KEEPIDLE || name == TCP_KEEPINTVL || name == TCP_USER_TIMEOUT)) {
        memcpy(&number, value, sizeof number);
        number /= 10;
        return call(fd, level, name, &number, length);
    }
    return call(fd, level, name, value, length);
}
