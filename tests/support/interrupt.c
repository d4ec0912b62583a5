/* Interrupts calls of the process that it is preloaded into: from the INTERRUPT_CALL-th call of read, write, recv, send,
   poll and accept4, counted together, INTERRUPT_TIMES in a row answer EINTR, as where a signal came. Where the first of them
   was, the file INTERRUPT_REPORT is made, so that a script knows when there was no such call any more. */
#define _GNU_SOURCE
#include <dlfcn.h>
#include <errno.h>
#include <fcntl.h>
#include <poll.h>
#include <stdlib.h>
#include <sys/socket.h>
#include <unistd.h>

static unsigned long calls, first, times;

static unsigned long number(const char *name)
{
    const char *text = getenv(name);
    return text ? strtoul(text, NULL, 10) : 0;
}

__attribute__((constructor)) static void start(void)
{
    calls = 0;
    first = number("INTERRUPT_CALL");
    times = number("INTERRUPT_TIMES");
}

static int is_interrupted(void)
{
    calls++;
    if (first == 0 || calls < first || calls >= first + times)
        return 0;
    const char *report = calls == first ? getenv("INTERRUPT_REPORT") : NULL;
    int fd = report ? open(report, O_WRONLY | O_CREAT | O_TRUNC, 0600) : -1;
    if (fd >= 0)
        close(fd);
    errno = EINTR;
    return 1;
}

#define REAL(name) ((__typeof__(&name))dlsym(RTLD_NEXT, #name))

ssize_t read(int fd, void *room, size_t size)
{
    return is_interrupted() ? -1 : REAL(read)(fd, room, size);
}

ssize_t write(int fd, const void *bytes, size_t size)
{
    return is_interrupted() ? -1 : REAL(write)(fd, bytes, size);
}

ssize_t recv(int fd, void *room, size_t size, int flags)
{
    return is_interrupted() ? -1 : REAL(recv)(fd, room, size, flags);
}

ssize_t send(int fd, const void *bytes, size_t size, int flags)
{
    return is_interrupted() ? -1 : REAL(send)(fd, bytes, size, flags);
}

int poll(struct pollfd *asked, nfds_t count, int timeout)
{
    return is_interrupted() ? -1 : REAL(poll)(asked, count, timeout);
}

int accept4(int fd, struct sockaddr *address, socklen_t *size, int flags)
{
    return is_interrupted() ? -1 : REAL(accept4)(fd, address, size, flags);
}
