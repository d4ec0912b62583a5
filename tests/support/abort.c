/* Breaks connections of the process that it is preloaded into, as where a peer is gone before it is accepted: the first
   ABORT_ACCEPTS calls of accept4 answer ABORT_ERROR, or ECONNABORTED where none is given, and the first ABORT_SETS calls that set
   TCP_NODELAY fail. After ABORT_POLLED calls of poll that go well, ABORT_POLLS find no memory. */
#define _GNU_SOURCE
#include <dlfcn.h>
#include <errno.h>
#include <netinet/in.h>
#include <netinet/tcp.h>
#include <poll.h>
#include <stdlib.h>
#include <sys/socket.h>

static unsigned long accepts, error, polled, polls, sets;

static unsigned long number(const char *name)
{
    const char *text = getenv(name);
    return text ? strtoul(text, NULL, 10) : 0;
}

__attribute__((constructor)) static void start(void)
{
    accepts = number("ABORT_ACCEPTS");
    error = number("ABORT_ERROR");
    polled = number("ABORT_POLLED");
    polls = number("ABORT_POLLS");
    sets = number("ABORT_SETS");
}

static int is_broken(unsigned long *left, int why)
{
    if (*left == 0)
        return 0;
    --*left;
    errno = why;
    return 1;
}

#define REAL(name) ((__typeof__(&name))dlsym(RTLD_NEXT, #name))

int accept4(int fd, struct sockaddr *address, socklen_t *size, int flags)
{
    return is_broken(&accepts, error ? (int)error : ECONNABORTED) ? -1 : REAL(accept4)(fd, address, size, flags);
}

int setsockopt(int fd, int level, int option, const void *value, socklen_t size)
{
    if (level == IPPROTO_TCP && option == TCP_NODELAY && is_broken(&sets, EINVAL))
        return -1;
    return REAL(setsockopt)(fd, level, option, value, size);
}

int poll(struct pollfd *asked, nfds_t count, int timeout)
{
    if (polled > 0)
        polled--;
    else if (is_broken(&polls, ENOMEM))
        return -1;
    return REAL(poll)(asked, count, timeout);
}
