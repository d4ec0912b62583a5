/* Drives debug adapters over a wire, in turn, and prints how fast each answers.

   Usage: client ROUNDS pipes|TCP PROGRAM..

   For each program and round: the time from its start to the answer of `initialize`, round trips of one `threads`
   at a time, and `threads` requests written as fast as they are taken. Each figure is a median over the rounds (the
   round trips: over all of them), and is also given as a ratio to that of the last program. */
#include "adapter.h"
#include <poll.h>

enum { TRIPS = 4000, PIPELINED = 40000, MOST_ROUNDS = 101, MOST_PROGRAMS = 8 };

struct figures {
    double start[MOST_ROUNDS], rate[MOST_ROUNDS], trip[MOST_ROUNDS * TRIPS];
    int rounds, trips;
};

/* Reads once, and gives how many frames are whole now. */
static int frames(struct adapter *a)
{
    return frames_with(a, NULL);
}

static void pipelined(struct adapter *a, char *all, size_t size)
{
    size_t sent = 0;
    int answers = 0;
    fcntl(a->process.in, F_SETFL, O_NONBLOCK);
    while (answers < PIPELINED) {
        struct pollfd fds[2] = {{a->process.out, POLLIN, 0}, {sent < size ? a->process.in : -1, POLLOUT, 0}};
        if (poll(fds, 2, -1) < 0)
            fail("poll");
        if (fds[1].revents) {
            ssize_t took = write(a->process.in, all + sent, size - sent);
            if (took < 0 && errno != EAGAIN)
                fail("an adapter takes no more");
            sent += took < 0 ? 0 : (size_t)took;
        }
        if (fds[0].revents)
            answers += frames(a);
    }
}

static void measure(enum wire wire, char *program, struct figures *f)
{
    static struct adapter a;
    char one[300], *const command[] = {program, NULL};
    size_t size = request(one, 1, "\"command\":\"initialize\",\"arguments\":{\"adapterID\":\"rvdap\"}");
    double from = now();
    begin(&a, wire, command);
    put(&a, one, size);
    while (frames(&a) == 0) {
    }
    f->start[f->rounds] = now() - from;
    unsigned seq = 2;
    for (int i = 0; i < TRIPS; i++) {
        size = request(one, seq++, "\"command\":\"threads\"");
        from = now();
        put(&a, one, size);
        while (frames(&a) == 0) {
        }
        f->trip[f->trips++] = now() - from;
    }
    char *all = malloc((size_t)PIPELINED * 100);
    size = 0;
    for (int i = 0; i < PIPELINED; i++)
        size += request(all + size, seq++, "\"command\":\"threads\"");
    from = now();
    pipelined(&a, all, size);
    f->rate[f->rounds++] = PIPELINED / (now() - from);
    free(all);
    end(&a);
}

int main(int words, char **word)
{
    static struct figures f[MOST_PROGRAMS];
    int programs = words - 3, rounds = words > 1 ? atoi(word[1]) : 0;
    if (programs < 1 || programs > MOST_PROGRAMS || rounds < 1 || rounds > MOST_ROUNDS)
        fail("usage: client ROUNDS pipes|TCP PROGRAM..");
    enum wire wire = wire_of(word[2]);
    char **names = word + 3;
    for (int round = 0; round < rounds; round++)
        for (int p = 0; p < programs; p++)
            measure(wire, names[p], &f[p]);
    double figures[MOST_PROGRAMS][4];
    for (int p = 0; p < programs; p++) {
        figures[p][0] = at(f[p].start, f[p].rounds, 0.5) * 1e3;
        figures[p][1] = at(f[p].trip, f[p].trips, 0.5) * 1e6;
        figures[p][2] = at(f[p].trip, f[p].trips, 0.99) * 1e6;
        figures[p][3] = at(f[p].rate, f[p].rounds, 0.5);
    }
    printf("| over %s | start to `initialize`, ms | round trip, median, us | 99th percentile, us | pipelined, requests/s |\n|---|---|---|---|---|\n",
           wires[wire]);
    double *last = figures[programs - 1];
    for (int p = 0; p < programs; p++)
        printf("| %s | %.2f (%.2f) | %.1f (%.2f) | %.1f (%.2f) | %.0f (%.2f) |\n", basename(names[p]), figures[p][0], figures[p][0] / last[0], figures[p][1],
               figures[p][1] / last[1], figures[p][2], figures[p][2] / last[2], figures[p][3], figures[p][3] / last[3]);
    return 0;
}
