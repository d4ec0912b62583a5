/* Refuses one allocation of the process that it is preloaded into: the REFUSE_ALLOC-th call of malloc or
   realloc gives no memory. Where that call came, the file REFUSE_REPORT is made, so that a script knows
   when there was no such call any more. At the end the number of calls is written to the file REFUSE_COUNT. */
#define _GNU_SOURCE
#include <dlfcn.h>
#include <errno.h>
#include <fcntl.h>
#include <stdio.h>
#include <stdlib.h>
#include <unistd.h>

static void *(*real_malloc)(size_t);
static void *(*real_realloc)(void *, size_t);
static unsigned long calls, refused;
static const char *report;

__attribute__((constructor)) static void start(void)
{
    real_malloc = dlsym(RTLD_NEXT, "malloc");
    real_realloc = dlsym(RTLD_NEXT, "realloc");
    const char *nth = getenv("REFUSE_ALLOC");
    report = getenv("REFUSE_REPORT");
    calls = 0;
    refused = nth ? strtoul(nth, NULL, 10) : 0;
}

static int is_refused(void)
{
    if (++calls != refused)
        return 0;
    int fd = report ? open(report, O_WRONLY | O_CREAT | O_TRUNC, 0600) : -1;
    if (fd >= 0)
        close(fd);
    errno = ENOMEM;
    return 1;
}

__attribute__((destructor)) static void end(void)
{
    unsigned long called = calls;
    const char *count = getenv("REFUSE_COUNT");
    FILE *file = count ? fopen(count, "w") : NULL;
    if (file != NULL) {
        fprintf(file, "%lu\n", called);
        fclose(file);
    }
}

void *malloc(size_t size)
{
    if (real_malloc == NULL)
        real_malloc = dlsym(RTLD_NEXT, "malloc");
    return is_refused() ? NULL : real_malloc(size);
}

void *realloc(void *old, size_t size)
{
    if (real_realloc == NULL)
        real_realloc = dlsym(RTLD_NEXT, "realloc");
    return is_refused() ? NULL : real_realloc(old, size);
}
