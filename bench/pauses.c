/* Drives a debug adapter and the floor over a wire, in turn, and prints how long it takes from `pause` to the event `stopped`, of a program that
   runs for ever.

   Usage: pauses ROUNDS pipes|TCP FILE PROGRAM FLOOR

   FILE is that program. It goes on, and is paused after a while: a while that differs, so that `pause` comes anywhere in a slice. Of 200 pauses a
   round's figures are the median and the 99th percentile. */
#include "driven.h"

enum { PAUSES = 200 };

enum row { MEDIAN, LATE, ROWS };

static const char *const names[ROWS] = {[MEDIAN] = "`pause`, median", [LATE] = "`pause`, 99th percentile"};

/* Waits from 1 to 5 ms, by a step of the golden ratio, so that the waits are spread evenly. */
static void wait_for(int pause)
{
    double part = 0.618034 * pause;
    const struct timespec rest = {0, (long)((1 + 4 * (part - (int)part)) * 1e6)};
    nanosleep(&rest, NULL);
}

static void measure(struct driven *d, int round, char **paths)
{
    double figures[PAUSES];
    launch(d, paths[0]);
    for (int i = 0; i < PAUSES; i++) {
        ask(d, "\"command\":\"continue\"" OF_THREAD, SUCCESS);
        wait_for(i);
        double from = now();
        ask(d, "\"command\":\"pause\"" OF_THREAD, STOPPED);
        figures[i] = now() - from;
    }
    d->figures[MEDIAN][round] = at(figures, PAUSES, 0.5);
    d->figures[LATE][round] = at(figures, PAUSES, 0.99);
    end(&d->adapter);
}

int main(int words, char **word)
{
    static const struct table table = {"pauses", "usage: pauses ROUNDS pipes|TCP FILE PROGRAM FLOOR", "of a program that runs for ever", measure, 1, ROWS, names};
    return measure_in_turn(&table, words, word);
}
