/* A debug adapter that is driven over a wire: frames to it, and frames from it. */
#include "start.h"
#include <errno.h>
#include <sys/wait.h>
#include <time.h>

struct adapter {
    struct process process;
    char room[1 << 17];
    size_t have;
    int refusals;
};

static inline double now(void)
{
    struct timespec t;
    clock_gettime(CLOCK_MONOTONIC, &t);
    return (double)t.tv_sec + (double)t.tv_nsec / 1e9;
}

/* Starts an adapter by a command, whose words are ended by NULL. */
static inline void begin(struct adapter *a, enum wire wire, char *const *command)
{
    a->process = start(wire, command);
    a->have = 0;
    a->refusals = 0;
}

static inline void end(struct adapter *a)
{
    close(a->process.in);
    if (a->process.out != a->process.in)
        close(a->process.out);
    waitpid(a->process.pid, NULL, 0);
}

static inline int holds(const char *bytes, size_t length, const char *text)
{
    return memmem(bytes, length, text, strlen(text)) != NULL;
}

/* Reads once, and gives how many frames are whole now of those that hold a text, or of all (NULL). Refusals among the others count. */
static inline int frames_with(struct adapter *a, const char *text)
{
    ssize_t got = read(a->process.out, a->room + a->have, sizeof a->room / 2);
    if (got <= 0)
        fail("an adapter ended early");
    a->have += (size_t)got;
    size_t at = 0;
    int count = 0;
    for (;;) {
        char *stop = memmem(a->room + at, a->have - at, "\r\n\r\n", 4);
        if (stop == NULL)
            break;
        size_t whole = (size_t)(stop - a->room) + 4 + (size_t)atol(a->room + at + strlen("Content-Length: "));
        if (whole > a->have)
            break;
        if (text == NULL || holds(a->room + at, whole - at, text))
            count++;
        else if (holds(a->room + at, whole - at, "\"success\":false"))
            a->refusals++;
        at = whole;
    }
    memmove(a->room, a->room + at, a->have - at);
    a->have -= at;
    return count;
}

static inline void put(struct adapter *a, const char *bytes, size_t count)
{
    while (count > 0) {
        ssize_t took = write(a->process.in, bytes, count);
        if (took < 0)
            fail("an adapter takes no more");
        bytes += took;
        count -= (size_t)took;
    }
}

/* Writes the frame of a request, whose body takes 4,000 bytes at most, and gives its length. */
static inline size_t request(char *out, unsigned seq, const char *rest)
{
    char body[4000];
    int length = snprintf(body, sizeof body, "{\"seq\":%u,\"type\":\"request\",%s}", seq, rest);
    if (length >= (int)sizeof body)
        fail("a request is too long");
    return (size_t)sprintf(out, "Content-Length: %d\r\n\r\n%s", length, body);
}

static inline int order(const void *x, const void *y)
{
    double a = *(const double *)x, b = *(const double *)y;
    return (a > b) - (a < b);
}

/* Of so many figures the one that so large a part of them is below; they are sorted then. */
static inline double at(double *figures, int count, double part)
{
    qsort(figures, (size_t)count, sizeof *figures, order);
    return figures[(int)(part * (count - 1))];
}
