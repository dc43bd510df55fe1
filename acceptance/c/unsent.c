/* Lets one send of a program that runs with this library preloaded fail, as if the connection had been reset: the call
   with the number UNSENT, from 1. */

#define _GNU_SOURCE
#include <dlfcn.h>
#include <errno.h>
#include <stddef.h>
#include <stdint.h>
#include <stdlib.h>
#include <sys/socket.h>
#include <unistd.h>

ssize_t send(int socket, const void *bytes, size_t length, int flags) {
    static uint64_t calls;
    const char *number = getenv("UNSENT");
    uint64_t call = __atomic_add_fetch(&calls, 1, __ATOMIC_SEQ_CST);
    if (number && strtoull(number, NULL, 10) == call) {
        errno = ECONNRESET;
        return -1;
    }
    ssize_t (*real)(int, const void *, size_t, int);
    *(void **)&real = dlsym(RTLD_NEXT, "send");
    if (!real)
        _exit(125);
    return real(socket, bytes, length, flags);
}
