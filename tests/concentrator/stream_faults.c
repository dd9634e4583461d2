/* Stand-ins for read and write that make calls of the example fail. run.sh links the example with them by the linker's
 * option --wrap.
 *
 * On standard input and output every second call fails, by turns with EINTR and EAGAIN, and the others move at most
 * three octets. A call for the table reads at most nine octets, and every second one fails with EINTR. If TABLE_FAULT
 * is set in the environment, the second call for the table fails with EIO. Writes to standard error are as usual. */
#define _POSIX_C_SOURCE 200809L

#include <errno.h>
#include <stdlib.h>
#include <unistd.h>

ssize_t __real_read(int fd, void *octets, size_t length);
ssize_t __real_write(int fd, const void *octets, size_t length);
ssize_t __wrap_read(int fd, void *octets, size_t length);
ssize_t __wrap_write(int fd, const void *octets, size_t length);

static size_t at_most(size_t length, size_t most)
{
    return length < most ? length : most;
}

static ssize_t fail_with(int error)
{
    errno = error;
    return -1;
}

static ssize_t read_table(int fd, void *octets, size_t length)
{
    static unsigned calls;
    calls++;
    if (calls == 2 && getenv("TABLE_FAULT") != NULL)
        return fail_with(EIO);
    return calls % 2 == 0 ? fail_with(EINTR) : __real_read(fd, octets, at_most(length, 9));
}

ssize_t __wrap_read(int fd, void *octets, size_t length)
{
    static unsigned calls;
    if (fd != STDIN_FILENO)
        return read_table(fd, octets, length);
    if (calls++ % 2 == 0)
        return fail_with(calls % 4 == 1 ? EINTR : EAGAIN);
    return __real_read(fd, octets, at_most(length, 3));
}

ssize_t __wrap_write(int fd, const void *octets, size_t length)
{
    static unsigned calls;
    if (fd != STDOUT_FILENO)
        return __real_write(fd, octets, length);
    if (calls++ % 2 == 0)
        return fail_with(calls % 4 == 1 ? EINTR : EAGAIN);
    return __real_write(fd, octets, at_most(length, 3));
}
