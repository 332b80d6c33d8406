/* Lets reads and writes fail: tools/failures builds this library and loads it before a program.

   READ_BYTES=N: a read of standard input gives at most N bytes. READS=N: after N of them each fails.
   WRITES=N: after N writes to standard output each fails. ROOM=N: standard output has room for N bytes in all; a write takes
   what there is room for, and fails where there is none. */
#define _GNU_SOURCE
#include <errno.h>
#include <stdlib.h>
#include <sys/syscall.h>
#include <unistd.h>

static long reads, writes, taken;

/* A number of the environment, or more than any. */
static long most(const char *name) {
    const char *given = getenv(name);
    return given ? strtol(given, NULL, 10) : __LONG_MAX__;
}

ssize_t read(int file, void *bytes, size_t count) {
    if (file == 0) {
        long at_most = most("READ_BYTES");
        if (reads++ >= most("READS")) {
            errno = EIO;
            return -1;
        }
        if (count > (size_t)at_most) count = at_most;
    }
    return syscall(SYS_read, file, bytes, count);
}

ssize_t write(int file, const void *bytes, size_t count) {
    if (file == 1) {
        long room = most("ROOM") - taken;
        if (writes++ >= most("WRITES") || (room == 0 && count > 0)) {
            errno = ENOSPC;
            return -1;
        }
        if (count > (size_t)room) count = room;
        taken += count;
    }
    return syscall(SYS_write, file, bytes, count);
}
