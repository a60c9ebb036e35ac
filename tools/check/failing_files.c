/* A shared object, preloaded into a program: it counts the calls by which the program changes files, and
   lets one of them fail, or ends the program there as SIGKILL does. Counted are `open` with O_CREAT or
   O_TRUNC, `write` and `fsync` of plain files, `fchmod`, `rename` and `unlink`. FAIL_AT is the number
   of the call; with 0 or without it none fails. FAIL_WITH is the error that it gets, or 0 for SIGKILL
   before the call. FAIL_TELL is a file descriptor to which one byte is written for each call. */

#define _GNU_SOURCE
#include <dlfcn.h>
#include <errno.h>
#include <fcntl.h>
#include <signal.h>
#include <stdarg.h>
#include <stdio.h>
#include <stdlib.h>
#include <sys/stat.h>
#include <sys/syscall.h>
#include <unistd.h>

static int is_started;
static int tell = -1;
static unsigned long fail_at;
static int fail_with;
static unsigned long calls;

static int number(const char *name)
{
    const char *value = getenv(name);
    return value ? atoi(value) : 0;
}

__attribute__((constructor)) static void start(void)
{
    fail_at = (unsigned long)number("FAIL_AT");
    fail_with = number("FAIL_WITH");
    tell = getenv("FAIL_TELL") ? number("FAIL_TELL") : -1;
    is_started = 1;
}

static int is_failing(void)
{
    if (!is_started)
        return 0;
    calls++;
    if (tell >= 0 && syscall(SYS_write, tell, ".", 1) != 1)
        _exit(99);
    if (calls != fail_at)
        return 0;
    if (!fail_with)
        kill(getpid(), SIGKILL);
    errno = fail_with;
    return 1;
}

static int is_plain(int file)
{
    struct stat what;
    return file > 2 && file != tell && !fstat(file, &what) && S_ISREG(what.st_mode);
}

int open(const char *path, int flags, ...)
{
    va_list rest;
    va_start(rest, flags);
    int mode = flags & O_CREAT ? va_arg(rest, int) : 0;
    va_end(rest);
    if ((flags & (O_CREAT | O_TRUNC)) && is_failing())
        return -1;
    return (int)syscall(SYS_openat, AT_FDCWD, path, flags, mode);
}

int open64(const char *path, int flags, ...)
{
    va_list rest;
    va_start(rest, flags);
    int mode = flags & O_CREAT ? va_arg(rest, int) : 0;
    va_end(rest);
    return open(path, flags, mode);
}

ssize_t write(int file, const void *bytes, size_t count)
{
    if (is_plain(file) && is_failing())
        return -1;
    return syscall(SYS_write, file, bytes, count);
}

int fsync(int file)
{
    if (is_plain(file) && is_failing())
        return -1;
    return (int)syscall(SYS_fsync, file);
}

int fchmod(int file, mode_t mode)
{
    if (is_plain(file) && is_failing())
        return -1;
    return (int)syscall(SYS_fchmod, file, mode);
}

int rename(const char *from, const char *to)
{
    return is_failing() ? -1 : (int)syscall(SYS_renameat2, AT_FDCWD, from, AT_FDCWD, to, 0);
}

int unlink(const char *path)
{
    return is_failing() ? -1 : (int)syscall(SYS_unlinkat, AT_FDCWD, path, 0);
}
