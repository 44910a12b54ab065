/* Preloaded into the program by tests. Counts the calls that change files; before the one of number
 * STOP_AT it kills the program, halts it, or makes the call fail, as STOP_BY says (kill, halt or
 * fail). STOP_CALL names the one call that is counted; without it all are. */
#define _GNU_SOURCE
#include <errno.h>
#include <fcntl.h>
#include <signal.h>
#include <stdarg.h>
#include <stdlib.h>
#include <string.h>
#include <sys/syscall.h>
#include <unistd.h>

/* Whether this call is to fail. */
static int stopped(const char *call) {
    static long count;
    const char *only = getenv("STOP_CALL");
    if (only && strcmp(only, call) != 0)
        return 0;
    if (++count != atol(getenv("STOP_AT")))
        return 0;
    const char *by = getenv("STOP_BY");
    if (strcmp(by, "kill") == 0)
        raise(SIGKILL);
    if (strcmp(by, "halt") == 0)
        raise(SIGSTOP);
    errno = EIO;
    return strcmp(by, "fail") == 0;
}

int open64(const char *path, int flags, ...) {
    va_list rest;
    va_start(rest, flags);
    mode_t mode = flags & O_CREAT ? va_arg(rest, mode_t) : 0;
    va_end(rest);
    if (flags & O_CREAT && stopped("open"))
        return -1;
    return (int)syscall(SYS_openat, AT_FDCWD, path, flags, mode);
}

ssize_t write(int file, const void *bytes, size_t length) {
    if (file > STDERR_FILENO && stopped("write"))
        return -1;
    return syscall(SYS_write, file, bytes, length);
}

/* Fails as where the disk is full. */
int posix_fallocate(int file, off_t from, off_t length) {
    if (stopped("reserve"))
        return ENOSPC;
    return syscall(SYS_fallocate, file, 0, from, length) < 0 ? errno : 0;
}

int fsync(int file) {
    return stopped("fsync") ? -1 : (int)syscall(SYS_fsync, file);
}

int rename(const char *from, const char *to) {
    return stopped("rename") ? -1 : (int)syscall(SYS_rename, from, to);
}

int unlink(const char *path) {
    return stopped("unlink") ? -1 : (int)syscall(SYS_unlink, path);
}
