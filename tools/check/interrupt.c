/* A shared object, preloaded into a program: each read of the standard input is interrupted twice, and
   then made. */

#include <errno.h>
#include <sys/syscall.h>
#include <unistd.h>

ssize_t read(int descriptor, void *buffer, size_t size)
{
    static unsigned long times;
    if (descriptor == STDIN_FILENO && times++ % 3 != 2) {
        errno = EINTR;
        return -1;
    }
    return syscall(SYS_read, descriptor, buffer, size);
}
