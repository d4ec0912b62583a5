/* Notes how the process that it is preloaded into sends: each call of send adds a line to the file NODELAY_REPORT, 1 where its
   socket is set to send at once (TCP_NODELAY), and else 0. */
#define _GNU_SOURCE
#include <dlfcn.h>
#include <netinet/in.h>
#include <netinet/tcp.h>
#include <stdio.h>
#include <stdlib.h>
#include <sys/socket.h>

ssize_t send(int fd, const void *bytes, size_t size, int flags)
{
    int at_once = 0;
    socklen_t room = sizeof at_once;
    const char *report = getenv("NODELAY_REPORT");
    FILE *file = report ? fopen(report, "a") : NULL;
    if (file != NULL) {
        getsockopt(fd, IPPROTO_TCP, TCP_NODELAY, &at_once, &room);
        fprintf(file, "%d\n", at_once != 0);
        fclose(file);
    }
    return ((__typeof__(&send))dlsym(RTLD_NEXT, "send"))(fd, bytes, size, flags);
}
