/* Lets a program run to its end under a debug adapter whose editor says nothing meanwhile.

   Usage: silent pipes|TCP FILE COMMAND [WORD..]

   The command, with the words, starts the adapter. FILE is the program: it is launched, goes on from its entry, and has to exit. */
#include "../driven.h"

int main(int words, char **word)
{
    static struct driven d;
    if (words < 4)
        fail("usage: silent pipes|TCP FILE COMMAND [WORD..]");
    d.wire = wire_of(word[1]);
    d.command = word + 3;
    launch(&d, word[2]);
    ask(&d, "\"command\":\"continue\"" OF_THREAD, "\"event\":\"exited\"");
    end(&d.adapter);
    return 0;
}
