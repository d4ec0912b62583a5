/* Replaces a file of the process that it is preloaded into once it was looked at: an open of the path REPLACE_FILE opens REPLACE_BY. */
#define _GNU_SOURCE
#include <dlfcn.h>
#include <fcntl.h>
#include <stdarg.h>
#include <stdlib.h>
#include <string.h>

int open(const char *path, int flags, ...)
{
    va_list rest;
    va_start(rest, flags);
    mode_t mode = flags & O_CREAT ? va_arg(rest, mode_t) : 0;
    va_end(rest);
    const char *replaced = getenv("REPLACE_FILE"), *by = getenv("REPLACE_BY");
    const char *opened = replaced && by && strcmp(path, replaced) == 0 ? by : path;
    return ((__typeof__(&open))dlsym(RTLD_NEXT, "open"))(opened, flags, mode);
}
