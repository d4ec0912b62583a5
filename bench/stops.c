/* Drives a debug adapter and the floor over a wire, in turn, and prints how long it takes from a request to the event `stopped`.

   Usage: stops ROUNDS pipes|TCP SMALL LARGE PROGRAM FLOOR

   SMALL is the file of a program whose loop has an `ebreak`; LARGE one of many lines that begins with a loop of two, in lines 4 and 5.
   In each round each is launched in a process of its own, and stops at its entry: that counts from `launch`, with
   `configurationDone` between, and without the start of the process. Then SMALL goes on from one `ebreak` to the next, and is stepped
   back, by instructions; LARGE is stepped line by line, and goes on from a breakpoint at line 4 to the same. Of these a round's figure is
   the median. At last LARGE goes on for 80,000 moves, and is run back, once, over the 65,536 that are recorded. */
#include "driven.h"

enum row { LAUNCH_SMALL, LAUNCH_LARGE, NEXT, TO_EBREAK, TO_BREAKPOINT, STEP_BACK, RUN_BACK, ROWS };

static const char *const names[ROWS] = {
    [LAUNCH_SMALL] = "`launch` of 3 lines",
    [LAUNCH_LARGE] = "`launch` of 20,000 lines",
    [NEXT] = "`next`, in those",
    [TO_EBREAK] = "`continue` to an `ebreak` one loop away",
    [TO_BREAKPOINT] = "`continue` to a breakpoint one loop away",
    [STEP_BACK] = "`stepBack`",
    [RUN_BACK] = "`reverseContinue` over 65,536 moves",
};

/* The time of a request to `stopped`. */
static double stops(struct driven *d, const char *rest)
{
    const struct asked asked = {{rest}, 1, STOPPED};
    return trips(d, &asked);
}

/* Breakpoints of a file, as a list of JSON. */
static void set(struct driven *d, const char *path, const char *list)
{
    char rest[4000];
    snprintf(rest, sizeof rest, "\"command\":\"setBreakpoints\",\"arguments\":{\"source\":{\"path\":\"%s\"},\"breakpoints\":[%s]}", path, list);
    ask(d, rest, SUCCESS);
}

/* The time of a run back over all moves that are recorded, once there are as many as may be: each loop has two. */
static double run_back(struct driven *d, const char *path)
{
    set(d, path, "{\"line\":4,\"hitCondition\":\"40000\"}");
    ask(d, "\"command\":\"continue\"" OF_THREAD, STOPPED);
    set(d, path, "");
    double from = now();
    ask(d, "\"command\":\"reverseContinue\"" OF_THREAD, STOPPED);
    return now() - from;
}

static void measure(struct driven *d, int round, char **paths)
{
    const char *small = paths[0], *large = paths[1];
    d->figures[LAUNCH_SMALL][round] = launch(d, small);
    d->figures[TO_EBREAK][round] = stops(d, "\"command\":\"continue\"" OF_THREAD);
    d->figures[STEP_BACK][round] = stops(d, "\"command\":\"stepBack\"" OF_THREAD);
    end(&d->adapter);
    d->figures[LAUNCH_LARGE][round] = launch(d, large);
    d->figures[NEXT][round] = stops(d, "\"command\":\"next\"" OF_THREAD);
    set(d, large, "{\"line\":4}");
    d->figures[TO_BREAKPOINT][round] = stops(d, "\"command\":\"continue\"" OF_THREAD);
    d->figures[RUN_BACK][round] = run_back(d, large);
    end(&d->adapter);
}

int main(int words, char **word)
{
    static const struct table table = {"stops", "usage: stops ROUNDS pipes|TCP SMALL LARGE PROGRAM FLOOR", "from the request to `stopped`", measure, 2, ROWS, names};
    return measure_in_turn(&table, words, word);
}
