/* Calls that a signal interrupts: preloaded into a program, this has its first read and its first write fail with EINTR, and says on standard
 * error how many bytes each other write to standard output took. */
#define _GNU_SOURCE
#include <errno.h>
#include <stdio.h>
#include <sys/syscall.h>
#include <unistd.h>

ssize_t read(int fd, void *buf, size_t n)
{
    static int calls;
    if (calls++ == 0) {
        errno = EINTR;
        return -1;
    }
    return syscall(SYS_read, fd, buf, n);
}

ssize_t write(int fd, const void *buf, size_t n)
{
    static int calls;
    if (calls++ == 0) {
        errno = EINTR;
        return -1;
    }
    ssize_t put = syscall(SYS_write, fd, buf, n);
    if (fd == STDOUT_FILENO)
        dprintf(STDERR_FILENO, "%zd bytes\n", put);
    return put;
}
