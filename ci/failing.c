/* Loaded before the C library, this makes the reads or writes of one file fail, as a device does. The environment says when:
     FAIL_FILE   the file's name, without its folder
     FAIL_AFTER  how many bytes are moved before
     FAIL_WITH   the error number
     FAIL_TIMES  how many calls fail; those behind them are let through */
#include <errno.h>
#include <stdio.h>
#include <stdlib.h>
#include <string.h>
#include <sys/syscall.h>
#include <unistd.h>

static long moved, failed;

static int chosen(int fd) {
    char link[32], path[4096];
    snprintf(link, sizeof link, "/proc/self/fd/%d", fd);
    ssize_t length = readlink(link, path, sizeof path - 1);
    path[length < 0 ? 0 : length] = 0;
    const char *name = strrchr(path, '/');
    return name && strcmp(name + 1, getenv("FAIL_FILE")) == 0;
}

static ssize_t pass(long call, int fd, const void *buffer, size_t n) {
    if (!chosen(fd) || failed >= atol(getenv("FAIL_TIMES")))
        return syscall(call, fd, buffer, n);
    size_t left = atol(getenv("FAIL_AFTER")) - moved;
    if (left == 0) {
        failed += 1;
        errno = atoi(getenv("FAIL_WITH"));
        return -1;
    }
    ssize_t got = syscall(call, fd, buffer, n < left ? n : left);
    moved += got > 0 ? got : 0;
    return got;
}

ssize_t read(int fd, void *buffer, size_t n) {
    return pass(SYS_read, fd, buffer, n);
}

ssize_t write(int fd, const void *buffer, size_t n) {
    return pass(SYS_write, fd, buffer, n);
}
