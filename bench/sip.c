/* Loaded before the C library: standard output takes one byte of each write, and nothing is written. At the end it
   prints on standard error how many bytes were taken, and how many nanoseconds each took on average, from the first
   byte of what waits to the last. */
#define _GNU_SOURCE
#include <stdint.h>
#include <stdio.h>
#include <sys/syscall.h>
#include <time.h>
#include <unistd.h>

static uint64_t start, spent, taken;
static size_t left;

static uint64_t now(void)
{
    struct timespec t;
    clock_gettime(CLOCK_MONOTONIC, &t);
    return (uint64_t)t.tv_sec * 1000000000u + (uint64_t)t.tv_nsec;
}

static ssize_t sip(int fd, const void *bytes, size_t count)
{
    if (fd != STDOUT_FILENO || count == 0)
        return syscall(SYS_write, fd, bytes, count);
    if (left == 0)
        start = now();
    left = count - 1;
    taken += 1;
    if (left == 0)
        spent += now() - start;
    return 1;
}

ssize_t write(int fd, const void *bytes, size_t count) { return sip(fd, bytes, count); }
ssize_t __write(int fd, const void *bytes, size_t count) { return sip(fd, bytes, count); }

__attribute__((destructor)) static void tell(void)
{
    if (taken > 0)
        dprintf(STDERR_FILENO, "%llu %.2f\n", (unsigned long long)taken, (double)spent / (double)taken);
}
