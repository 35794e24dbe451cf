/* Put before the C library by LD_PRELOAD, so that reads of standard input and writes to standard output fail as SHIM says:
   `CALL ERRNO FIRST STEP` lets call number FIRST (from 1) of `read` or `write` fail, and with STEP above 0 every STEP-th after it.
   SHORT limits the bytes of a call. */
#include <errno.h>
#include <stdio.h>
#include <stdlib.h>
#include <string.h>
#include <sys/syscall.h>
#include <sys/types.h>
#include <unistd.h>

static int fails(const char *call, long number)
{
    const char *shim = getenv("SHIM");
    char wanted[16];
    long first, step;
    int error;
    if (!shim || sscanf(shim, "%15s %d %ld %ld", wanted, &error, &first, &step) != 4 || strcmp(wanted, call) != 0)
        return 0;
    errno = error;
    return number == first || (step > 0 && number > first && (number - first) % step == 0);
}

static size_t shorter(size_t n)
{
    const char *most = getenv("SHORT");
    return most && n > strtoul(most, NULL, 10) ? strtoul(most, NULL, 10) : n;
}

ssize_t read(int fd, void *buf, size_t n)
{
    static long number;
    if (fd != 0)
        return syscall(SYS_read, fd, buf, n);
    return fails("read", ++number) ? -1 : syscall(SYS_read, fd, buf, shorter(n));
}

ssize_t write(int fd, const void *buf, size_t n)
{
    static long number;
    if (fd != 1)
        return syscall(SYS_write, fd, buf, n);
    return fails("write", ++number) ? -1 : syscall(SYS_write, fd, buf, shorter(n));
}
