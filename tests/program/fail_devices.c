/* Preloaded, it lets a read or a write fail: call number DEVICE_CALL (from 1) of the file DEVICE says so, or, where DEVICE_FAILURE is "none",
   that it moved no byte; and it leaves the file DEVICE_MARK when it did. With DEVICE_SILENT each write to standard error fails too, and with
   DEVICE_PACE no call moves more than one byte. Programs built from this repository read and write by these two calls. */
#define _GNU_SOURCE
#include <errno.h>
#include <fcntl.h>
#include <stdlib.h>
#include <stdio.h>
#include <string.h>
#include <sys/syscall.h>
#include <unistd.h>

static long calls;

static int is_device(int fd)
{
    const char *wanted = getenv("DEVICE");
    char link[64], path[4096];
    snprintf(link, sizeof link, "/proc/self/fd/%d", fd);
    ssize_t length = wanted ? readlink(link, path, sizeof path) : -1;
    return length > 0 && (size_t)length == strlen(wanted) && !memcmp(path, wanted, (size_t)length);
}

static int is_failing(int fd)
{
    const char *at = getenv("DEVICE_CALL");
    if (!at || !is_device(fd) || __atomic_add_fetch(&calls, 1, __ATOMIC_SEQ_CST) != atol(at))
        return 0;
    const char *mark = getenv("DEVICE_MARK");
    int made = mark ? open(mark, O_CREAT | O_WRONLY, 0600) : -1;
    if (made >= 0)
        close(made);
    return 1;
}

static ssize_t moved(long call, int fd, void *bytes, size_t count)
{
    int is_silent = call == SYS_write && fd == 2 && getenv("DEVICE_SILENT");
    if (is_silent || is_failing(fd)) {
        const char *failure = getenv("DEVICE_FAILURE");
        if (failure && !strcmp(failure, "none"))
            return 0;
        errno = EIO;
        return -1;
    }
    return syscall(call, fd, bytes, getenv("DEVICE_PACE") && count > 1 ? 1 : count);
}

ssize_t read(int fd, void *bytes, size_t count) { return moved(SYS_read, fd, bytes, count); }
ssize_t write(int fd, const void *bytes, size_t count) { return moved(SYS_write, fd, (void *)bytes, count); }
