/* An adapter and the floor that are driven in turn over a wire, request by request, and the table of how long they take. */
#include "adapter.h"

enum { TRIPS = 1000, MOST_ROUNDS = 101, MOST_ROWS = 8, MOST_ASKS = 3 };

#define SUCCESS "\"success\":true"
#define STOPPED "\"event\":\"stopped\""
#define OF_THREAD ",\"arguments\":{\"threadId\":1}"

/* What is asked in one write, and the text of the frames that are waited for, as many as there are requests. */
struct asked {
    const char *asks[MOST_ASKS];
    int count;
    const char *text;
};

/* An adapter with the number of its last request, and the figures of its rounds, in seconds. */
struct driven {
    struct adapter adapter;
    enum wire wire;
    char **command;
    unsigned seq;
    double figures[MOST_ROWS][MOST_ROUNDS];
};

/* Sends requests, and reads until their frames came. No refusal may come. */
static inline void ask_all(struct driven *d, const struct asked *asked)
{
    static char frames[MOST_ASKS * 5000];
    size_t length = 0;
    for (int i = 0; i < asked->count; i++)
        length += request(frames + length, ++d->seq, asked->asks[i]);
    put(&d->adapter, frames, length);
    int refusals = d->adapter.refusals, left = asked->count;
    while (left > 0) {
        left -= frames_with(&d->adapter, asked->text);
        if (d->adapter.refusals > refusals)
            fail("a request is refused");
    }
}

static inline void ask(struct driven *d, const char *rest, const char *text)
{
    const struct asked asked = {{rest}, 1, text};
    ask_all(d, &asked);
}

/* Starts the adapter and launches a program: the time until it stands at its entry. */
static inline double launch(struct driven *d, const char *path)
{
    char rest[4000];
    d->seq = 0;
    begin(&d->adapter, d->wire, d->command);
    ask(d, "\"command\":\"initialize\",\"arguments\":{\"adapterID\":\"rvdap\"}", SUCCESS);
    if (snprintf(rest, sizeof rest, "\"command\":\"launch\",\"arguments\":{\"program\":\"%s\",\"stopOnEntry\":true}", path) >= (int)sizeof rest)
        fail("a path is too long");
    double from = now();
    ask(d, rest, "\"event\":\"initialized\"");
    ask(d, "\"command\":\"configurationDone\"", STOPPED);
    return now() - from;
}

/* The median time of so many, one at a time. */
static inline double trips(struct driven *d, const struct asked *asked)
{
    double figures[TRIPS];
    for (int i = 0; i < TRIPS; i++) {
        double from = now();
        ask_all(d, asked);
        figures[i] = now() - from;
    }
    return at(figures, TRIPS, 0.5);
}

/* A table: what drives the floor and a program for its figures, the programs that are given by paths, and the rows. */
struct table {
    const char *name, *usage, *what;
    void (*measure)(struct driven *d, int round, char **paths);
    int paths, rows;
    const char *const *names;
};

/* A row in microseconds: the least of the rounds, and the median in brackets. */
static inline void show(const char *name, double *ours, double *theirs, int rounds)
{
    double least = at(ours, rounds, 0) * 1e6, median = at(ours, rounds, 0.5) * 1e6;
    double least_floor = at(theirs, rounds, 0) * 1e6, median_floor = at(theirs, rounds, 0.5) * 1e6;
    printf("| %s | %.1f (%.1f) | %.1f (%.1f) | %.2f (%.2f) |\n", name, least, median, least_floor, median_floor, least / least_floor,
           median / median_floor);
}

/* Measures both in turn, round by round, and prints the table. The words are those of the usage: ROUNDS, the wire, the paths, PROGRAM and FLOOR. */
static inline int measure_in_turn(const struct table *table, int words, char **word)
{
    static struct driven ours, theirs;
    int rounds = words == table->paths + 5 ? atoi(word[1]) : 0;
    if (rounds < 1 || rounds > MOST_ROUNDS)
        fail(table->usage);
    char **paths = word + 3, **programs = paths + table->paths;
    ours.wire = theirs.wire = wire_of(word[2]);
    ours.command = (char *[]){programs[0], NULL};
    theirs.command = (char *[]){programs[1], (char *)table->name, NULL};
    for (int round = 0; round < rounds; round++) {
        table->measure(&ours, round, paths);
        table->measure(&theirs, round, paths);
    }
    printf("| %s, over %s | rvdap, us | floor, us | over the floor |\n|---|---|---|---|\n", table->what, wires[ours.wire]);
    for (int row = 0; row < table->rows; row++)
        show(table->names[row], ours.figures[row], theirs.figures[row], rounds);
    return 0;
}
