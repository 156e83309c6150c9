/* Calls of the system that a test changes: preloaded into a program, this does what the environment asks for.
 *
 *     CALLS_LOG=FILE        the names of the calls that store a file and put it in place are appended to it
 *     CALLS_HOLD=FILE       fsync waits as long as there is such a file, ten seconds at most
 *     CALLS_SHORTEN=FILE    fsync cuts it to a page
 *     CALLS_FAIL=CALL       fsync (with `folder`, that of a folder) or unlink fails, or the system does not know renameat2
 *     CALLS_TOUCH=FILE      it is changed when it is opened
 *     CALLS_SLOW=1          each write at a place takes a quarter of a second
 *     CALLS_TERMINAL=1      standard error is taken for a terminal
 *     CALLS_SIGNALS=1       signals that a shell has its background commands ignore are as they were
 *     CALLS_MEMORY=FILE     the most kB that were resident are written to it in the end
 */
#define _GNU_SOURCE
#include <errno.h>
#include <fcntl.h>
#include <signal.h>
#include <stdarg.h>
#include <stdio.h>
#include <stdlib.h>
#include <string.h>
#include <sys/stat.h>
#include <sys/syscall.h>
#include <unistd.h>

static int fails(const char *call)
{
    const char *name = getenv("CALLS_FAIL");
    return name != NULL && strcmp(name, call) == 0;
}

static void append(const char *line)
{
    const char *log = getenv("CALLS_LOG");
    FILE *file = log == NULL ? NULL : fopen(log, "a");
    if (file != NULL) {
        fprintf(file, "%s\n", line);
        fclose(file);
    }
}

int fsync(int fd)
{
    const char *hold = getenv("CALLS_HOLD"), *shorten = getenv("CALLS_SHORTEN");
    struct stat about;
    int folder = fstat(fd, &about) == 0 && S_ISDIR(about.st_mode);
    append(folder ? "fsync folder" : "fsync file");
    for (int i = 0; i < 2000 && hold != NULL && access(hold, F_OK) == 0; i++)
        usleep(5000);
    if ((shorten != NULL && truncate(shorten, 4096) != 0) || fails("fsync") || (folder && fails("folder"))) {
        errno = EIO;
        return -1;
    }
    return (int)syscall(SYS_fsync, fd);
}

int open64(const char *path, int flags, ...)
{
    const char *touched = getenv("CALLS_TOUCH");
    const struct timespec long_ago[2] = {{.tv_sec = 1}, {.tv_sec = 1}};
    va_list more;
    va_start(more, flags);
    int fd = (int)syscall(SYS_openat, AT_FDCWD, path, flags, va_arg(more, int));
    va_end(more);
    if (touched != NULL && strcmp(path, touched) == 0)
        futimens(fd, long_ago);
    return fd;
}

int renameat2(int old_folder, const char *old, int new_folder, const char *new, unsigned flags)
{
    append("renameat2");
    if (fails("renameat2")) {
        errno = ENOSYS;
        return -1;
    }
    return (int)syscall(SYS_renameat2, old_folder, old, new_folder, new, flags);
}

int rename(const char *old, const char *new)
{
    append("rename");
    return renameat(AT_FDCWD, old, AT_FDCWD, new);
}

int linkat(int old_folder, const char *old, int new_folder, const char *new, int flags)
{
    append("link");
    return (int)syscall(SYS_linkat, old_folder, old, new_folder, new, flags);
}

int unlink(const char *path)
{
    if (fails("unlink")) {
        errno = EPERM;
        return -1;
    }
    return unlinkat(AT_FDCWD, path, 0);
}

ssize_t pwrite64(int fd, const void *bytes, size_t length, off64_t place)
{
    if (getenv("CALLS_SLOW") != NULL)
        usleep(250000);
    return syscall(SYS_pwrite64, fd, bytes, length, place);
}

int isatty(int fd)
{
    return fd == STDERR_FILENO && getenv("CALLS_TERMINAL") != NULL;
}

__attribute__((constructor)) static void begin(void)
{
    if (getenv("CALLS_SIGNALS") != NULL) {
        signal(SIGINT, SIG_DFL);
        signal(SIGQUIT, SIG_DFL);
    }
}

__attribute__((destructor)) static void measure(void)
{
    const char *to = getenv("CALLS_MEMORY");
    FILE *status = to == NULL ? NULL : fopen("/proc/self/status", "r");
    FILE *file = status == NULL ? NULL : fopen(to, "w");
    char line[256];
    long kilobytes;
    while (file != NULL && fgets(line, sizeof line, status) != NULL)
        if (sscanf(line, "VmHWM: %ld", &kilobytes) == 1)
            fprintf(file, "%ld\n", kilobytes);
    if (file != NULL)
        fclose(file);
}
