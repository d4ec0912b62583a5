/* Drives a debug adapter and the floor over a wire, in turn, and prints how long it takes to look into a program that stands still.

   Usage: looks ROUNDS pipes|TCP FILE PROGRAM FLOOR

   FILE is a program that is launched and stops at its entry. A refresh is what an editor asks after a stop, in one write: the stack, the
   scopes of its frame, and the registers. Then an expression is evaluated, 400 instructions are disassembled, 4,096 bytes of memory are read,
   and the program is stepped by instruction. Of these a round's figure is the median of 1,000. The floor answers with as many bytes. */
#include "driven.h"

enum row { REFRESH, EVALUATE, DISASSEMBLE, READ_MEMORY, STEP, ROWS };

static const char *const names[ROWS] = {
    [REFRESH] = "a refresh: `stackTrace`, `scopes`, `variables` of the registers",
    [EVALUATE] = "`evaluate` of `a0`",
    [DISASSEMBLE] = "`disassemble`, 400 instructions",
    [READ_MEMORY] = "`readMemory`, 4,096 bytes",
    [STEP] = "`stepIn` by instruction, to `stopped`",
};

static const struct asked looks[ROWS] = {
    [REFRESH] = {{"\"command\":\"stackTrace\",\"arguments\":{\"threadId\":1}", "\"command\":\"scopes\",\"arguments\":{\"frameId\":1}",
                  "\"command\":\"variables\",\"arguments\":{\"variablesReference\":2}"},
                 3, SUCCESS},
    [EVALUATE] = {{"\"command\":\"evaluate\",\"arguments\":{\"expression\":\"a0\"}"}, 1, SUCCESS},
    [DISASSEMBLE] = {{"\"command\":\"disassemble\",\"arguments\":{\"memoryReference\":\"0x00010000\",\"instructionCount\":400}"}, 1, SUCCESS},
    [READ_MEMORY] = {{"\"command\":\"readMemory\",\"arguments\":{\"memoryReference\":\"0x00010000\",\"count\":4096}"}, 1, SUCCESS},
    [STEP] = {{"\"command\":\"stepIn\",\"arguments\":{\"granularity\":\"instruction\",\"threadId\":1}"}, 1, STOPPED},
};

static void measure(struct driven *d, int round, char **paths)
{
    launch(d, paths[0]);
    for (enum row row = 0; row < ROWS; row++)
        d->figures[row][round] = trips(d, &looks[row]);
    end(&d->adapter);
}

int main(int words, char **word)
{
    static const struct table table = {"looks", "usage: looks ROUNDS pipes|TCP FILE PROGRAM FLOOR", "of a program that stands still", measure, 1, ROWS, names};
    return measure_in_turn(&table, words, word);
}
